#!/usr/bin/env bash
# Instructions of a push at a reserved place and a retirement of one entry, together, counted under callgrind, with
# different numbers of entries that stay. It ends with status 1 where they take more than 150.
set -euo pipefail
cd "$(dirname "$0")/../../crates/measures"
source ../../bench/tools/counting.sh
rt run > /dev/null 2>&1

# The arguments of the program: how many entries stay, how many go through.
for stored in 0 100 10000 1000000; do
    more=$(instructions out/measures journals "$stored" 20000)
    less=$(instructions out/measures journals "$stored" 10000)
    each=$(((more - less) / 10000))
    echo "$stored entries stored: $each instructions for a push and a retirement"
    within "instructions of a push and a retirement" "$each" 150
done
