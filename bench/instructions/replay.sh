#!/usr/bin/env bash
# Instructions per line of `cdnid replay`, counted under callgrind: a refresh, a document of one host, and then 2,000 and 20,000
# times a request that misses, the end of its fetch with 16 bytes, and a request that hits, each for a URL of 100 bytes
# whose query has five pieces. It prints the instructions of each run, and the slope between the two, which is the cost of
# a line; and, to look at, the same of misses alone.
# It ends with status 1 where a line, hits included, takes more than 8,000.
# Usage: bench/instructions/replay.sh   (needs valgrind; builds the program by `rt run` where it is not built)
set -eu
source "$(dirname "$0")/../tools/counting.sh"
source "$(dirname "$0")/../tools/replaying.sh"

# Arguments: how many URLs, and whether what they name is fetched and asked for again.
script() {
  echo 'limits 268435456 100000 1000 16 60000 1000000'
  head -n 2 crates/cdnid/stdin
  local line; line=$(sed -n 3p crates/cdnid/stdin)
  line=${line%http://*}
  for ((i = 1; i <= $1; i++)); do
    printf -v url 'http://v.example/films/seg/%06d.ts?session=0a1b2c3d&user=4711&quality=1080p&random=17&token=abcdef' "$i"
    echo "$line$url"
    if [[ $2 == all ]]; then
      echo "0 2000 got $i 200 video/mp2t 30313233343536373839616263646566"
      echo "$line$url"
    fi
  done
}

# Arguments: how many URLs, all or misses, and how many lines a URL has.
count() {
  script "$1" "$2" >"$room/$1.script"
  replay_instructions "$room/$1.script"
  [[ $(wc -l <"$room/answers") == $(($1 * $3 + 2)) ]] || { echo "a line has no answer" >&2; exit 1; }
}

# Arguments: all or misses, and how many lines a URL has.
slope() {
  local few many
  few=$(count 2000 "$1" "$2")
  many=$(count 20000 "$1" "$2")
  echo "$1: $few instructions for 2,000 URLs, $many for 20,000: $(((many - few) / (18000 * $2))) a line" >&2
  echo $(((many - few) / (18000 * $2)))
}

all=$(slope all 3)
slope misses 1 >/dev/null
within "instructions of a line, hits included" "$all" 8000
