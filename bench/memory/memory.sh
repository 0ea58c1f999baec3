#!/usr/bin/env bash
# Memory of one long run: `cdnid replay --summary` takes in 10,000,000 calls, misses, the ends of their fetches, hits and the ends
# of deliveries, whose records are cut and dropped after each 2,000; its resident memory is read after 1,000,000 and after
# 10,000,000 calls, each time when it has taken in what was written and waits for more.
# It ends with status 1 where the second is more than 1.05 times the first.
# Usage: bench/memory/memory.sh   (needs python3; builds the program by `rt run` where it is not built)
set -eu
source "$(dirname "$0")/../tools/counting.sh"
source "$(dirname "$0")/../tools/replaying.sh"

read -r first second <<<"$(python3 bench/memory/memory.py "$program")"
echo "resident after 1,000,000 calls: $first KiB, after 10,000,000 calls: $second KiB"
within "KiB after 10,000,000 calls" "$second" "$((first * 105 / 100))"
