#!/usr/bin/env bash
# Instructions of a look-up with touch, of a look-up in vain, and of a fill with which another object leaves, in a table of 100,
# 10,000 and 1,000,000 kept objects, counted under callgrind, and the resident memory of 100,000 objects of 1,024 bytes.
# It ends with status 1 where one of the three takes more than 1.3 times as much with 1,000,000 objects as with 100, or the
# memory is more than 1.7 times the bodies. Needs valgrind and python3, and some five minutes.
set -euo pipefail
cd "$(dirname "$0")/../../crates/measures"
source ../../bench/tools/counting.sh
rt run > /dev/null 2>&1

# Arguments: what is done, how many objects are kept, and how often.
count() { instructions out/measures objects "$1" "$2" 1 "$3"; }

# what making 1,000 keys takes, and making 10,000 objects
keys=$(($(count 0 100 0) - $(count 2 100 0)))
made=$(($(count 3 0 20000) - $(count 3 0 10000)))

for objects in 100 10000 1000000; do
    kept=$(count 0 "$objects" 0)
    touched=$((($(count 0 "$objects" 100) - kept) / 100000))
    vain=$((($(count 1 "$objects" 100) - kept) / 100000))
    filled=$((($(count 2 "$objects" 10000) - (kept - keys) - made) / 10000))
    echo "$objects objects: a look-up with touch takes $touched instructions, one in vain $vain, a fill $filled"
    if [[ $objects == 100 ]]; then
        most_touched=$((touched * 13 / 10)) most_vain=$((vain * 13 / 10)) most_filled=$((filled * 13 / 10))
    fi
done
within "a look-up with touch" "$touched" "$most_touched"
within "a look-up in vain" "$vain" "$most_vain"
within "a fill" "$filled" "$most_filled"

# the peak of the whole program in kB
peak=$(python3 -c '
import resource, subprocess
subprocess.run(["out/measures", "objects", "0", "100000", "1024", "1"], check=True, stdout=subprocess.DEVNULL)
print(resource.getrusage(resource.RUSAGE_CHILDREN).ru_maxrss)')
echo "100,000 objects of 1,024 bytes take $((peak * 1024 / 100000)) bytes of memory each"
within "memory as a multiple of the bodies, in tenths" "$((peak * 10 / 100000))" 17
