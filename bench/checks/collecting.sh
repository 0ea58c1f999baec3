#!/usr/bin/env bash
# Tries docs/collect-logs.sh: with nothing to cut, with rows, where the node has as many files as it may, where it is gone, and at a server that
# gives a log file cut short, one with a changed byte, and none. A file that is not whole must not be dropped. It ends with status 1 at the first
# thing that is not so.
# Usage: bench/checks/collecting.sh   (needs curl and python3; builds the program where it is not built)
set -eu
cd "$(dirname "$0")/../.."
program=$PWD/crates/cdnid/out/cdnid
[[ -x $program ]] || (cd crates/cdnid && rt run -- replay <stdin >/dev/null)
exec python3 bench/checks/collecting.py "$program"
