#!/usr/bin/env bash
# Instructions for each unit of a text that a pattern takes, as the slope between texts of two lengths, counted under
# callgrind. It ends with status 1 where a unit takes more than 60.
set -euo pipefail
cd "$(dirname "$0")/../../crates/measures"
source ../../bench/tools/counting.sh
rt run > /dev/null 2>&1

# The instructions of one match: the difference of 200 matches and 100 matches. Arguments: the number of a pattern,
# and the length of the text.
one_match() {
    local more less
    more=$(instructions out/measures patterns "$1" "$2" 200)
    less=$(instructions out/measures patterns "$1" "$2" 100)
    echo $(((more - less) / 100))
}

patterns=('/seg/*' '*.ts' '/a/*/b/*/c?.m4s')
for number in 0 1 2; do
    short=$(one_match "$number" 30)
    middle=$(one_match "$number" 300)
    long=$(one_match "$number" 3000)
    echo "${patterns[$number]}: a match of 30, 300, 3,000 bytes takes $short, $middle, $long instructions;" \
        "a unit takes $(((middle - short) / 270)) and $(((long - middle) / 2700))"
    within "instructions of a unit" "$(((long - middle) / 2700))" 60
done
