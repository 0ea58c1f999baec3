#!/usr/bin/env bash
# Instructions for each byte of a URL that is read as a target, as the slope between URLs of two lengths, and for an HTTP
# date, counted under callgrind. It ends with status 1 where a byte takes more than 8, or a date more than 600.
set -euo pipefail
cd "$(dirname "$0")/../../crates/measures"
source ../../bench/tools/counting.sh
rt run > /dev/null 2>&1

# The instructions of one round: the difference of 200 and 100 rounds. Arguments: what is done, and the length of the URL.
one_round() {
    local more less
    more=$(instructions out/measures urls "$1" "$2" 200)
    less=$(instructions out/measures urls "$1" "$2" 100)
    echo $(((more - less) / 100))
}

short=$(one_round 0 100)
middle=$(one_round 0 1000)
long=$(one_round 0 4000)
date=$(one_round 1 0)
slope=$(((long - middle) * 10 / 3000))
echo "a target of 100, 1,000, 4,000 bytes takes $short, $middle, $long instructions; a byte $((slope / 10)).$((slope % 10))"
echo "a date takes $date instructions"
within "a byte of a target, in tenths" "$slope" 80
within "a date" "$date" 600
