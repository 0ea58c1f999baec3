#!/usr/bin/env bash
# Collects the log files of a node: cuts, reads each file, checks it by `cdnid audit`, keeps it on disk, and only then drops it from the node. A
# file that is not accepted stays at the node.
#
# Usage: collect-logs.sh ADDRESS:PORT FOLDER [CONTROL-HOST]   (control.example where it is left out; needs curl and flock, and cdnid, or the program that
# CDNID names)
#
# Files are named FOLDER/UUID.log after their own UUID, since a node counts its files from 1 again after a restart.
# Status: 0 where each log file was kept and dropped; 1 where something failed, with a line that says what; 2 where the words are not the usage's.
set -u

if [[ $# -lt 2 || $# -gt 3 ]]; then
    echo "usage: collect-logs.sh ADDRESS:PORT FOLDER [CONTROL-HOST]" >&2
    exit 2
fi
node=http://$1 folder=$2 control=${3:-control.example} cdnid=${CDNID:-cdnid}

fail() {
    echo "collect-logs: $*" >&2
    exit 1
}

# ask METHOD PATH FILE: puts the answer's body into FILE and prints its status, 000 where none came
ask() {
    curl --silent --max-time 60 --header "Host: $control" --request "$1" --output "$3" --write-out '%{http_code}' "$node$2"
}

# take NUMBER: reads a log file, keeps it, and drops it from the node
take() {
    local status uuid told
    status=$(ask GET "/logs/$1" "$part")
    [[ $status == 200 ]] || fail "log file $1 was answered $status"
    told=$("$cdnid" audit <"$part" 2>&1) || fail "log file $1 is not accepted ($(tail -n 1 <<<"$told")); it stays at the node, what came is in $part"
    uuid=$(sed -n 's/^#UUID:\t"urn:uuid:\([0-9a-f-]\{36\}\)"\r$/\1/p' "$part" | head -n 1)
    sync "$part" && mv "$part" "$folder/$uuid.log" && sync "$folder" || fail "log file $1 cannot be kept in $folder"
    status=$(ask DELETE "/logs/$1" /dev/null)
    [[ $status == 204 ]] || fail "log file $1 is kept as $uuid.log, but dropping it was answered $status"
    echo "kept $uuid.log: $(tail -n 1 <<<"$told")"
}

# takes each log file that the node has
take_all() {
    local status number
    status=$(ask GET /logs "$part")
    [[ $status == 200 ]] || fail "the list of log files was answered $status"
    for number in $(tr -cs '0-9' ' ' <"$part"); do
        take "$number"
    done
}

mkdir -p "$folder" || fail "$folder cannot be made"
exec 9>"$folder/.lock"
flock --timeout 30 9 || fail "another one has collected into $folder for 30 seconds"
part=$folder/.part
cut=$(ask POST /logs "$part")
if [[ $cut == 503 ]]; then
    # the node has as many log files as it may
    take_all
    cut=$(ask POST /logs "$part")
fi
[[ $cut == 201 || $cut == 204 ]] || fail "the cut was answered $cut"
take_all
rm -f "$part"
