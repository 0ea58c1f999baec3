#!/usr/bin/env bash
# Brings about each answer that `cdnid serve` gives, once, and prints what was done, the status and the text: those to clients, and those to the
# upstream CDN. It ends with status 1 where an answer is another one than expected. (The constant 503, for want of memory, is left out.)
# Usage: bench/checks/answers.sh   (needs python3; builds the program where it is not built)
set -eu
cd "$(dirname "$0")/../.."
program=$PWD/crates/cdnid/out/cdnid
[[ -x $program ]] || (cd crates/cdnid && rt run -- replay <stdin >/dev/null)
exec python3 bench/checks/answers.py "$program"
