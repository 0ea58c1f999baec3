#!/usr/bin/env bash
# `cdnid serve` beside clients that would stop it, each figure with its bound: how long a hit of 34 bytes takes while others read nothing of
# their answers, send bodies that come slowly, or load 16 MiB as fast as they can; whether a refused body takes the answers before it away;
# how long the word `100 Continue` takes; how much memory bodies take that do not come to their end. nginx with a cache is asked the same
# where it is there. It ends with status 1 where a bound does not hold.
# Usage: bench/checks/withstand.sh [WORKERS [PART ..]]   (parts: readers bodies load refused expect budget metadata misses nginx; needs python3, and wrk for load and metadata:
# apt-get install nginx-light wrk; builds the program by `rt run` where it is not built, unless CDNID names one; the workers are 4)
set -eu
cd "$(dirname "$0")/../.."
program=${CDNID:-$PWD/crates/cdnid/out/cdnid}
[[ -x $program ]] || (cd crates/cdnid && rt run -- replay <stdin >/dev/null)
exec python3 bench/checks/withstand.py "$program" "${1:-4}" "${@:2}"
