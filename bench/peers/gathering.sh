#!/usr/bin/env bash
# What gathering metadata over Links costs. First the time of gathering 4,096 documents from an origin on this machine (nginx), beside the
# time that the same number of exchanges through the same gate takes alone: medians of 9, in turn. Then the peak of memory of gathering
# eight documents of together about 8 MB, in each of four shapes, beyond that of asking for small ones, as a multiple of their text.
# It ends with status 1 where the gathering takes more than 1.5 times its exchanges, or more than 12 times its text of memory.
# Usage: bench/peers/gathering.sh   (needs nginx and python3: apt-get install nginx-light; builds the program where it is not built)
set -eu
cd "$(dirname "$0")/../.."
program=$PWD/crates/measures/out/measures
[[ -x $program ]] || (cd crates/measures && rt run >/dev/null)
command -v nginx >/dev/null || { echo "nginx is missing" >&2; exit 2; }
exec python3 bench/peers/gathering.py "$program"
