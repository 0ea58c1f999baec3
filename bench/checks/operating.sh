#!/usr/bin/env bash
# Runs what the pages for operators say: the commands of README.md and docs/OPERATING.md as they stand there, whose output is compared with what the pages
# say; dates, moments, UUIDs, hashes and measured times and sizes may differ. It ends with status 1 where something is not so. With --write it puts what the
# commands print into the pages. What a page shows indented is not run.
# Usage: bench/checks/operating.sh [--write]   (needs curl, python3 and ss, and the ports 8081, 8082 and 8090; builds the program where it is not built)
set -eu
cd "$(dirname "$0")/../.."
[[ -x crates/cdnid/out/cdnid ]] || (cd crates/cdnid && rt run -- replay <stdin >/dev/null)
status=0
for page in README.md docs/OPERATING.md; do
    python3 bench/checks/pages.py "$page" "$@" || status=1
done
exit $status
