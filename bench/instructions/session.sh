#!/usr/bin/env bash
# Instructions of a hit on a kept-alive connection, from the first byte of its head to the end of its delivery: `serve_session` over
# one node, ends in memory, a gate and a clock in memory, counted under callgrind within `serve_session` alone. Each head comes in one
# read; the connection has a request that misses, and then 100 or 900 that hit. It prints the slope between the two, for a body of 1 KB
# and of 64 KB, how it is shared among the crates, and how many calls of the allocator a hit makes, whatever the body's length. What the
# program `session_cases` does itself, whose home and gate could write down what is called, is printed apart and not counted.
# It ends with status 1 where a hit of 1 KB takes more than 12,000 instructions, or where the longer body has more allocations.
# Usage: bench/instructions/session.sh   (needs valgrind and python3; builds the program by `rt run` where it is not built)
set -eu
source "$(dirname "$0")/../tools/counting.sh"
cd "$(dirname "$0")/../.."
program=crates/session_cases/out/session_cases
[[ -x $program ]] || (cd crates/session_cases && rt run <stdin >/dev/null)
room=$(mktemp -d)
trap 'rm -rf "$room"' EXIT

# Arguments: how many requests hit, and how many bytes the body has. One case, in which no call is written down.
a_case() {
  python3 - "$1" "$2" <<'END'
import json, sys
hits, size = int(sys.argv[1]), int(sys.argv[2])
moment = 1368751086825
head = "GET /films/seg/000001.ts HTTP/1.1\r\nHost: v.example\r\nUser-Agent: curl/8.5.0\r\nAccept: */*\r\n\r\n"
answer = (f"HTTP/1.1 200 OK\r\nDate: Fri, 17 May 2013 00:38:06 GMT\r\nContent-Length: {size}\r\n"
          "Content-Type: video/mp2t\r\nAccept-Ranges: bytes\r\n\r\n")
body = "0123456789abcdef" * (size // 16)
index = ('{"hosts":[{"host":"v.example","host-metadata":{"metadata":[{"generic-metadata-type":"MI.SourceMetadata",'
         '"generic-metadata-value":{"sources":[{"endpoints":["o.example"],"protocol":"http/1.1"}]}}]}}]}')
print(json.dumps({
    "case": "hits", "silent": True,
    "settings": {"protocol": "http/1.1", "control": "control.example", "root": "http://up.example/i", "own": "AS64496:0", "footprints": []},
    "origin": "dcdn.example",
    "limits": {"cache": 268435456, "rows": 20000, "triggers": 1000, "files": 16, "period": 60000, "opened": 4611686018427387904},
    "outcomes": [{"outcome": "Got", "status": 200, "kind": "application/json", "body": index},
                 {"outcome": "Got", "status": 200, "kind": "video/mp2t", "body": body}],
    "moments": [[moment, 2 * hits + 10]],
    "connections": [{
        "peer": {"ip": "192.0.2.7", "asn": 64496, "country": "us"},
        "source": [[head, hits + 1]], "reads": [[len(head), hits + 1]], "takes": [],
        "written": [[answer + body, hits + 1]], "ending": "Ended", "calls": [],
        "asks": [["up.example", "/i"], ["o.example", "/films/seg/000001.ts"]],
    }],
}))
END
}

# Arguments: how many requests hit, and how many bytes the body has. Leaves a profile in `room/HITS-BYTES`.
profile() {
  a_case "$1" "$2" >"$room/case"
  valgrind --tool=callgrind --toggle-collect='*serve_session*' --callgrind-out-file="$room/$1-$2" "$program" <"$room/case" \
    >"$room/answers" 2>"$room/notes"
  [[ $(cat "$room/answers") == "1 cases, 0 differ" ]] || { cat "$room/answers" >&2; exit 1; }
}

# Argument: how many bytes the body has. Prints the instructions of a hit, the allocator's calls in it, and the share of each crate.
slope() {
  profile 100 "$1"
  profile 900 "$1"
  python3 bench/instructions/session_shares.py "$room/100-$1" "$room/900-$1" 800 session_cases
}

short=$(slope 1024)
echo "1 KB: $short"
long=$(slope 65536)
echo "64 KB: $long"
within "instructions of a hit of 1 KB" "$(awk '{ print $1; exit }' <<<"$short")" 12000
within "allocations of a hit of 64 KB" "$(awk '{ print $3; exit }' <<<"$long")" "$(awk '{ print $3; exit }' <<<"$short")"
