#!/usr/bin/env bash
# `cdnid serve` with 64 descriptors: 100 clients connect and say nothing, or a part of a head; a new client is still answered within five
# seconds, again and again, and the server neither ends nor fails. It ends with status 1 where that is not so.
# Usage: bench/checks/descriptors.sh   (needs python3; builds the program by `rt run` where it is not built)
set -eu
cd "$(dirname "$0")/../.."
program=$PWD/crates/cdnid/out/cdnid
[[ -x $program ]] || (cd crates/cdnid && rt run -- replay <stdin >/dev/null)
exec python3 bench/checks/descriptors.py "$program"
