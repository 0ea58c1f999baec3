#!/usr/bin/env bash
# Measures the resident memory of `cdnid serve`, in bytes: at the start; for each kept object of 1 KB and of 64 KB beside its body; for each request
# that hits, of which no row is left (its log file was cut and dropped); for each whose row is kept; for each row of a log file; for each trigger; and
# for each line of a file of places, with the time until it listens. Each is a slope between two numbers of requests. It asserts nothing.
# Usage: bench/memory/sizes.sh [PART]   (with PART 10 a tenth of the requests; needs python3; builds the program where it is not built)
set -eu
cd "$(dirname "$0")/../.."
program=$PWD/crates/cdnid/out/cdnid
[[ -x $program ]] || (cd crates/cdnid && rt run -- replay <stdin >/dev/null)
exec python3 bench/memory/sizes.py "$program" "${1:-1}"
