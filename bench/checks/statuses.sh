#!/usr/bin/env bash
# Ends the built program in each way that a shell can bring about, words that are not UTF-8 among them, and compares the status
# and the note; a node that serves one connection gets one request, which is answered. It ends with status 1 where one differs.
# Usage: bench/checks/statuses.sh [PROGRAM]   (needs curl and python3; builds the program by `rt run` where none is named and it is not
# built; one that bench/tools/unproved.py built does too)
set -eu
program=$(realpath "${1:-$(dirname "$0")/../../crates/cdnid/out/cdnid}")
cd "$(dirname "$0")/../../crates/cdnid"
[[ -x $program ]] || rt run -- replay <stdin >/dev/null
room=$(mktemp -d)
trap 'rm -rf "$room"' EXIT
usage='usage: cdnid replay | generate N SEED | audit | serve OPTIONS'
wrong=0

# compares the status, and what stands in the notes, with those wanted; behind them what was done
compare() {
  local status=$1 wanted=$2 note=$3
  shift 3
  if [[ $status != "$wanted" || $(cat "$room/notes") != "$note" ]]; then
    echo "$*: status $status, noted '$(cat "$room/notes")', not $wanted and '$note'" >&2
    wrong=1
  fi
}

# the wanted status, the wanted note, the input, the output, and the words; none of these takes more than a second, and one
# that serves where it should end is ended after ten
ends() {
  local status=0 wanted=$1 note=$2 input=$3 output=$4
  shift 4
  timeout 10 "$program" "$@" <"$input" >"$output" 2>"$room/notes" || status=$?
  compare "$status" "$wanted" "$note" "$@"
}

printf '0 0 refresh\n0 0 refreshes\n' >"$room/script"
ends 0 '' stdin "$room/answers" replay
ends 1 'line 2 at 12: not a script line' "$room/script" "$room/answers" replay
ends 2 "$usage" stdin "$room/answers"
ends 2 "$usage" stdin "$room/answers" answer
ends 2 "$usage" stdin "$room/answers" replay replay
ends 0 '' stdin "$room/answers" replay --summary
ends 0 '' stdin "$room/answers" generate 1 0
ends 1 'line 2 at 12: not a script line' "$room/script" "$room/answers" replay --summary
ends 2 "$usage" stdin "$room/answers" generate 0 0
ends 2 "$usage" stdin "$room/answers" $'\xff'
ends 2 "$usage" stdin "$room/answers" serve $'\xff'
ends 3 'read fault' / "$room/answers" replay
ends 4 'write fault' stdin /dev/full replay
ends 4 'write fault' stdin /dev/full replay --summary
ends 4 'write fault' stdin /dev/full generate 1 0

# words behind `serve` that are no options
port=$(python3 -c 'import socket; it = socket.create_server(("127.0.0.1", 0)); print(it.getsockname()[1])')
here=(--listen "127.0.0.1:$port")
from=(--metadata http://127.0.0.1:9/i)
serves_not() { ends 2 "$usage" stdin "$room/answers" serve "$@"; }
serves_not
serves_not "${here[@]}"
serves_not "${from[@]}"
serves_not --listen= "${from[@]}"
serves_not "${here[@]}" --metadata https://127.0.0.1/i
serves_not "${here[@]}" "${here[@]}" "${from[@]}"
serves_not "${here[@]}" "${from[@]}" --workers 0
serves_not "${here[@]}" "${from[@]}" --workers 65
serves_not "${here[@]}" "${from[@]}" --workers 04
serves_not "${here[@]}" "${from[@]}" --connections 1000001
serves_not "${here[@]}" "${from[@]}" --connections -1
serves_not "${here[@]}" "${from[@]}" --turns 1
serves_not "${here[@]}" "${from[@]}" --places
serves_not "${here[@]}" "${from[@]}" more
serves_not "${here[@]}" "${from[@]}" --
serves_not --help

# an address that does not read, and one that no machine has (RFC 5737); files of places that are not there or do not read, whose
# first such line is named, before anything listens
printf '192.0.2.0/24 as64496 us\n192.0.2.0/24 us\n192.0.2.0\n' >"$room/places"
ends 6 'outside fault' stdin "$room/answers" serve --listen "localhost:$port" "${from[@]}"
ends 6 'outside fault' stdin "$room/answers" serve --listen "192.0.2.1:$port" "${from[@]}"
ends 6 'outside fault' stdin "$room/answers" serve "${here[@]}" "${from[@]}" --places "$room/none"
ends 6 'places line 2' stdin "$room/answers" serve "${here[@]}" "${from[@]}" --places "$room/places"
ends 6 'places line 2' stdin "$room/answers" serve --listen "192.0.2.1:$port" "${from[@]}" "--places=$room/places"

# a node that serves one connection: its one request is answered, and it ends
words=(serve "${here[@]}" "${from[@]}" --workers 1 --connections 1)
timeout 30 "$program" "${words[@]}" <stdin >"$room/answers" 2>"$room/notes" & node=$!
code=none
for _ in {1..100}; do
  code=$(curl -s -o "$room/advert" -w '%{http_code}' -H 'Host: control.example' "http://127.0.0.1:$port/fci") && break
  sleep 0.1
done
status=0
wait "$node" || status=$?
compare "$status" 0 '' "${words[@]}"
if [[ $code != 200 || $(head -c 16 "$room/advert") != '{"capabilities":' || -s $room/answers ]]; then
  echo "${words[*]}: the request for the advertisement was answered $code, or something was written" >&2
  wrong=1
fi

# a trigger command that is passed on nowhere, as its words or what is read say; where the far CDN is there is none
to=AS64501:0=http://127.0.0.1:9/triggers
passes_not() { ends 2 "$usage" stdin "$room/answers" cascade "$@"; }
passes_not
passes_not AS64496:0 1
passes_not cdn 1 "$to"
passes_not AS64496:0 0 "$to"
passes_not AS64496:0 1001 "$to"
passes_not AS64496:0 1 "$to" "$to"
passes_not AS64501:0 1 "$to"
passes_not AS64496:0 1 AS64501:0
passes_not AS64496:0 1 AS64501:0=https://127.0.0.1:9/triggers
selects='"trigger":{"content.urls":["http://v.example/a"],"type":"purge"}'
echo "{\"cdn-path\":[\"AS64500:0\"],$selects}" >"$room/command"
echo "{\"cdn-path\":[\"AS64496:0\"],$selects}" >"$room/loop"
echo '{"cancel":["http://control.example/triggers/1"],"cdn-path":["AS64500:0"]}' >"$room/cancel"
head -c 1048577 /dev/zero >"$room/long"
ends 0 '' "$room/command" "$room/answers" cascade AS64496:0 1 "$to"
ends 1 'refused loop' "$room/loop" "$room/answers" cascade AS64496:0 1 "$to"
ends 1 'refused not-json' stdin "$room/answers" cascade AS64496:0 1 "$to"
ends 1 'cancel' "$room/cancel" "$room/answers" cascade AS64496:0 1 "$to"
ends 1 'too-long' "$room/long" "$room/answers" cascade AS64496:0 1 "$to"
ends 3 'read fault' / "$room/answers" cascade AS64496:0 1 "$to"
ends 4 'write fault' "$room/command" /dev/full cascade AS64496:0 1 "$to"
[[ $wrong == 0 ]] && echo "all endings have their status and note"
exit "$wrong"
