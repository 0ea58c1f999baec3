#!/usr/bin/env bash
# Runs the checks of this folder one after the other, and prints a line for each: that it passed, that it failed and where its output is, or that it was
# left out and why. A check is left out where a tool is missing that it needs. It ends with status 1 where one failed.
# Usage: bench/checks/all.sh [NAME..]   (all where none is named, as `answers`; builds the program where it is not built; the ports that they
# name must be free)
set -u
cd "$(dirname "$0")/../.."
program=$PWD/crates/cdnid/out/cdnid
[[ $# -gt 0 ]] || set -- docs cases statuses answers records audits descriptors collecting chain operating front transparent

# what a check needs beside python3
needs() {
    case $1 in
        statuses) echo curl ;;
        chain) echo unshare ip curl ;;
        operating) echo curl ss ;;
        front) echo haproxy openssl ss ;;
        transparent) echo haproxy ip curl ;;
    esac
}

out=$(mktemp -d)
failed=0
for name in "$@"; do
    missing=
    for tool in $(needs "$name"); do command -v "$tool" >/dev/null || missing+=" $tool"; done
    if [[ -n $missing ]]; then
        echo "$name: left out, without$missing"
        continue
    fi
    began=$SECONDS
    [[ -x $program || $name == docs || $name == cases ]] || (cd crates/cdnid && rt run -- replay <stdin >/dev/null) || exit 1
    words=()
    [[ $name != chain ]] || words=("$program")
    "bench/checks/$name.sh" "${words[@]}" >"$out/$name" 2>&1 </dev/null
    case $? in
        0) echo "$name: passed, $((SECONDS - began)) s" ;;
        2) echo "$name: left out, $(tail -n 1 "$out/$name")" ;;
        *) echo "$name: FAILED, see $out/$name"; failed=1 ;;
    esac
done
exit "$failed"
