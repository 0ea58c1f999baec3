#!/usr/bin/env bash
# How many requests a second `cdnid serve` and nginx answer with as many workers, where wrk asks over 64 connections as fast as it is
# answered, for 1 KB and for 64 KB: both in network namespaces of their own, as with bench/peers/serve.sh. Each measurement takes a second, so
# that the rows of `--rows 100000` are not full before its end. Both servers take turns; what is printed are medians.
# Usage: bench/peers/load.sh [WORKERS [TIMES]]   (needs nginx, wrk and python3, and leave to make network namespaces: apt-get install
# nginx-light wrk; builds the program by `rt run` where it is not built; the workers are 4 and the times 5 where they are left out)
set -eu
cd "$(dirname "$0")/../.."
program=$PWD/crates/cdnid/out/cdnid
[[ -x $program ]] || (cd crates/cdnid && rt run -- replay <stdin >/dev/null)
for tool in nginx wrk; do
  command -v "$tool" >/dev/null || { echo "$tool is missing" >&2; exit 2; }
done
exec python3 bench/peers/serving.py "$program" "${1:-4}" "${2:-5}" load
