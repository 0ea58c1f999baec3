#!/usr/bin/env bash
# Instructions per line of `cdnid replay`, counted under callgrind, for each kind of call but the cut and the reading of a log
# file, in a node with one open delivery and no row, and in one with 25,000 open deliveries and 25,000 rows that no log
# file has: none may take more than 1.2 times as many in the second. The same for the ends of deliveries, in their order, in the
# reverse one and in a mixed one, with 2,000 and with 50,000 of them open, of which the oldest stays open. And the instructions
# of a cut of 100,000 rows and of the first reading of its file, beside those that SHA-256 takes in the same run: at most 1.3 times
# as many.
# It ends with status 1 where a figure is past what is asked for.
# Usage: bench/instructions/node.sh   (needs valgrind; builds the program by `rt run` where it is not built; takes some ten minutes)
set -eu
source "$(dirname "$0")/../tools/counting.sh"
source "$(dirname "$0")/../tools/replaying.sh"

get='0 2000 get GET http/1.1 192.0.2.7 as64496 us'
denied="$get http://other.example/a"

# Installed metadata, so many open deliveries, and so many rows. Arguments: deliveries, rows.
filled() {
  echo 'limits 268435456 100000 1000 16 60000 1000000'
  head -n 2 crates/cdnid/stdin
  for ((i = 1; i <= $1; i++)); do echo "$denied"; done
  for ((i = 1; i <= $2; i++)); do
    echo "$denied"
    echo "0 3000 finish $(($1 + i)) 404 200 8"
  done
}

# The lines of a kind of call. Arguments: the kind, how many, and the deliveries that were begun before.
calls() {
  for ((i = 1; i <= $2; i++)); do
    case $1 in
      refreshes) echo '0 100000 refresh'; echo "0 100000 metafail $((i + 1))" ;;
      denials) echo "$denied" ;;
      deliveries)
        printf '%s http://v.example/films/%06d\n' "$get" "$i"
        echo "0 2000 got $i 200 video/mp2t 30313233343536373839616263646566"
        printf '%s http://v.example/films/%06d\n' "$get" "$i" ;;
      records) echo "$denied"; echo "0 3000 finish $(($3 + i)) 404 200 8" ;;
      lists) echo '0 3000 logs'; echo '0 3000 droplog 9' ;;
    esac
  done
}

# The ends of so many of the open deliveries, but for the first. Arguments: the order, how many, and how many are open.
ends() {
  for ((i = 1; i <= $2; i++)); do
    case $1 in
      order) number=$((i + 1)) ;;
      reverse) number=$(($3 + 1 - i)) ;;
      mixed) number=$((i * 7919 % ($3 - 1) + 2)) ;;
    esac
    echo "0 3000 finish $number 404 200 8"
  done
}

# The instructions of one end, as the slope between 500 and 1,500. Arguments: the order, and how many are open.
end() {
  local few many
  filled "$2" 0 >"$room/base"
  { cat "$room/base"; ends "$1" 500 "$2"; } >"$room/few"
  { cat "$room/base"; ends "$1" 1500 "$2"; } >"$room/many"
  few=$(replay_instructions "$room/few")
  many=$(replay_instructions "$room/many")
  [[ $(grep -c '^logged' "$room/answers") == 1500 ]] || { tail -n 3 "$room/answers" >&2; exit 1; }
  echo $(((many - few) / 1000))
}

# The instructions of one step of a kind, as the slope between 500 and 1,500. Arguments: the kind, deliveries, rows.
step() {
  local few many
  filled "$2" "$3" >"$room/base"
  { cat "$room/base"; calls "$1" 500 $(($2 + $3)); } >"$room/few"
  { cat "$room/base"; calls "$1" 1500 $(($2 + $3)); } >"$room/many"
  few=$(replay_instructions "$room/few")
  many=$(replay_instructions "$room/many")
  [[ ! -s $room/notes || ! $(<"$room/notes") =~ line ]] || { cat "$room/notes" >&2; exit 1; }
  echo $(((many - few) / 1000))
}

for kind in refreshes denials deliveries records lists; do
  empty=$(step "$kind" 1 0)
  full=$(step "$kind" 25000 25000)
  echo "$kind: $empty instructions a step with one open delivery, $full with 25,000 and 25,000 rows"
  within "a hundred times the growth of $kind" $((full * 100 / empty)) 120
done

for order in order reverse mixed; do
  few=$(end "$order" 2000)
  many=$(end "$order" 50000)
  echo "an end, $order: $few instructions with 2,000 open deliveries, $many with 50,000, the oldest of which stays open"
  within "a hundred times the growth of an end" $((many * 100 / few)) 120
done

filled 0 99999 >"$room/rows"
uncut=$(replay_instructions "$room/rows")
echo '0 9000 cut' >>"$room/rows"
cut=$(replay_instructions "$room/rows")
echo '0 9000 log 1' >>"$room/rows"
read=$(replay_instructions "$room/rows")
hashed=$(callgrind_annotate --inclusive=yes "$room/out" | tr -d ' ,' | sed -n 's/^\([0-9]*\)([^)]*)???:sha2::.*/\1/p' | head -n 1)
echo "a cut of 99,999 rows: $((cut - uncut)) instructions; the first reading of its file: $((read - cut)), of which SHA-256 takes $hashed"
within "a hundred times the cut and the reading beside SHA-256" $(((read - uncut) * 100 / hashed)) 130
