#!/usr/bin/env bash
# Each delivery has one record. Two clients ask `cdnid serve` for content at once, by GET, HEAD, ranges, unknown hosts and methods, while a
# third one cuts log files over HTTP, reads and drops them; then every answer that a client got is looked for in the log files (method, URL,
# status, bytes of the answer and of its body), each once, and nothing else may be there. Each file's hash is compared, and `cdnid audit` must
# accept it. With 4 workers, and with 64; and once more with six chosen fields, of which two are header fields. It ends with status 1 where one is missing, is there twice, or
# differs.
# Usage: bench/checks/records.sh [REQUESTS]   (of each client, 2,000 where it is left out; needs python3; builds the program where it is not built)
set -eu
cd "$(dirname "$0")/../.."
program=$PWD/crates/cdnid/out/cdnid
[[ -x $program ]] || (cd crates/cdnid && rt run -- replay <stdin >/dev/null)
chosen="cs(user-agent),sc-status,cs-method,cs(referer),cs-uri,sc-total-bytes"
for workers in 4 64; do
    python3 bench/checks/records.py "$program" "$workers" "${1:-2000}" ""
    python3 bench/checks/records.py "$program" "$workers" "${1:-2000}" "$chosen"
done
