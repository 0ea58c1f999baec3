#!/usr/bin/env bash
# Times turns of turn_cell beside the kit's Mutex, and the processor time of four threads that sleep in their turns.
# It builds crates/measures with proofs first. Other work on the machine makes the figures larger.
cd "$(dirname "${BASH_SOURCE[0]}")/../../crates/measures" || exit 2
log="$(mktemp)"
trap 'rm -f "$log"' EXIT
if ! rt run >"$log" 2>&1; then
    cat "$log"
    exit 1
fi
out/measures turns times || exit 1
TIMEFORMAT='%R s by the clock, %U s user and %S s system time of the processor'
for word in sleeping-turns sleeping-locks; do
    time out/measures turns "$word" || exit 1
done
