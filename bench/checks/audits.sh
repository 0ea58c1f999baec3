#!/usr/bin/env bash
# Tries `cdnid audit` at the log files of generated scripts: each is accepted, its records are printed as they stand, and with one bit changed it
# is refused. The log files of `session_cases` and `batch_cases` are accepted too. It ends with status 1 at the first file where that is not so.
# Usage: bench/checks/audits.sh [ROUNDS [SEEDS]]   (needs python3; builds the program where it is not built)
set -eu
cd "$(dirname "$0")/../.."
program=$PWD/crates/cdnid/out/cdnid
[[ -x $program ]] || (cd crates/cdnid && rt run -- replay <stdin >/dev/null)
exec python3 bench/checks/audits.py "$program" "${1:-200}" "${2:-40}"
