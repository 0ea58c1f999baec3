#!/usr/bin/env bash
# Instructions of reading the head of a request, beside those of `httparse` alone on the same bytes, of putting the head of an
# answer, and of each byte of a chunked body beside those of a body read by its length, counted under callgrind as the difference
# of two runs. It ends with status 1 where a head of 36 or 500 bytes takes more than 2.0 times what `httparse` takes, a head that
# is put more than 1,500 instructions, or a byte of a chunked body more than 0.5 beside the copy.
set -euo pipefail
cd "$(dirname "$0")/../../crates/measures"
source ../../bench/tools/counting.sh
rt run > /dev/null 2>&1

# The instructions of one round: the difference of two runs. Arguments: what is done, and how often in the longer run.
one_round() {
    local more less
    more=$(instructions out/measures heads "$1" "$2")
    less=$(instructions out/measures heads "$1" $(($2 / 2)))
    echo $(((more - less) / ($2 - $2 / 2)))
}

missed=0
for number in 0 2; do
    alone=$(one_round "$number" 200)
    read=$(one_round $((number + 1)) 200)
    tenths=$((read * 10 / alone))
    bytes=$((number == 0 ? 36 : 500))
    echo "a head of $bytes bytes takes $read instructions, $alone of httparse alone: $((tenths / 10)).$((tenths % 10)) times"
    (within "a head of $bytes bytes, in tenths of httparse alone" "$tenths" 20) || missed=1
done
put=$(one_round 4 200)
echo "putting a head takes $put instructions"
(within "putting a head" "$put" 1500) || missed=1
chunked=$(one_round 5 2)
plain=$(one_round 6 2)
beside=$(((chunked - plain) * 1000 / 1048576))
echo "a body of 1 MB takes $chunked instructions in chunks, $plain by its length: $beside thousandths a byte beside the copy"
(within "a byte of a chunked body, in thousandths" "$beside" 500) || missed=1
exit "$missed"
