#!/usr/bin/env bash
# Instructions of one look-up of an address in a place table of 100,000 lines, counted under callgrind as the difference
# of 2,000 and 1,000 look-ups, and of one plain scan, as that of 20 and 10. It ends with status 1 where it takes more than 3,000. Of 1,000 addresses
# each has to have the same place by the table and by the scan.
set -euo pipefail
cd "$(dirname "$0")/../../crates/measures"
source ../../bench/tools/counting.sh
rt run > /dev/null 2>&1

# The instructions of one look-up, as the difference of two runs that look up this many addresses and half of them. Arguments:
# how many addresses, by the table (0) or the scan (1), IPv4 (0) or IPv6 (1).
one_lookup() {
    local count=$1 more less
    shift
    more=$(instructions out/measures places 100000 "$count" "$@")
    less=$(instructions out/measures places 100000 $((count / 2)) "$@")
    echo $(((more - less) / (count / 2)))
}

kinds=(IPv4 IPv6)
for six in 0 1; do
    [[ $(out/measures places 100000 1000 2 "$six") == 1000 ]] || { echo "${kinds[$six]}: the table and the scan differ" >&2; exit 1; }
    lookup=$(one_lookup 2000 0 "$six")
    echo "${kinds[$six]}: a look-up takes $lookup instructions, a scan $(one_lookup 20 1 "$six")"
    within "instructions of a look-up" "$lookup" 3000
done
