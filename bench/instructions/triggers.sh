#!/usr/bin/env bash
# Instructions of an invalidate in `cdnid replay`, counted under callgrind: its command, start and end, by a URL,
# by a pattern and by a ccid, each of which hits one object, over 100, 10,000 and 100,000 kept objects; and those of
# 1,000 hits after it. A start looks at no kept object. Then those of 1,000 hits of one object after 1,000 starts by patterns, which
# the first of them tries, beside those of 1,000 hits without such starts. Last the milliseconds of the end of a fetch behind an invalidate by a
# pattern over 1,000,000 objects, directly and with 200,000 hits between them. It ends with status 1 where an invalidate over the most objects
# takes more than 1.1 times what it takes over the fewest, the hits after the starts more than 1.1 times the others, or the last end of a fetch
# more than 10 milliseconds.
# Usage: bench/instructions/triggers.sh [OBJECTS..]   (needs valgrind; builds the program by `rt run` where it is not built; 100,000
# objects take some ten minutes)
set -eu
source "$(dirname "$0")/../tools/replaying.sh"

get='0 2000 get GET http/1.1 192.0.2.7 as64496 us http://v.example'
sources='{"sources":[{"endpoints":["o.example"],"protocol":"http/1.1"}]}'
source='{"generic-metadata-type":"MI.SourceMetadata","generic-metadata-value":'$sources'}'
grouping='{"generic-metadata-type":"MI.Grouping","generic-metadata-value":{"ccid":"group"}}'
group='{"path-pattern":{"pattern":"/group/*"},"path-metadata":{"metadata":['$grouping']}}'
metadata='{"hosts":[{"host":"v.example","host-metadata":{"metadata":['$source'],"paths":['$group']}}]}'

# Installed metadata, and so many kept objects, of which the first is in the group. Every delivery has ended, and its
# row is in a log file. Then 20 invalidates that hit nothing, in which the allocator sorts what the log files gave back.
# Argument: how many objects.
objects() {
  echo 'limits 1073741824 100000 10000 64 60000 1000000'
  echo '0 1000 refresh'
  echo "0 1000 meta 1 http://up.example/i $metadata"
  awk -v count="$1" -v get="$get" 'BEGIN {
    for (i = 1; i <= count; i++) {
      print get (i == 1 ? "/group/000001" : sprintf("/films/%06d", i))
      print "0 2000 got " i " 200 video/mp2t 30313233343536373839616263646566"
      print "0 2000 finish " i " 200 200 16"
      if (i % 50000 == 0 || i == count) print "0 2000 cut"
    }
  }'
  for number in {1..20}; do
    trigger "$number" '"content.urls":["http://v.example/none"]'
  done
}

# An invalidate, up to its end. Arguments: its number, and what it selects.
trigger() {
  echo '0 3000 command {"cdn-path":[],"trigger":{"type":"invalidate",'"$2"'}}'
  echo "0 3000 advance $1"
  echo "0 3000 advance $1"
}

# What selects one object. Argument: by what.
selection() {
  case $1 in
    url) echo '"content.urls":["http://v.example/films/000050"]' ;;
    pattern) echo '"content.patterns":[{"pattern":"*/films/000050"}]' ;;
    ccid) echo '"content.ccid":["group"]' ;;
  esac
}

# 1,000 requests that hit. Argument: how many objects there are.
hits() {
  awk -v count="$1" -v get="$get" 'BEGIN {
    for (i = 0; i < 1000; i++) {
      object = 2 + i % (count - 1)
      print get sprintf("/films/%06d", object == 50 ? 51 : object)
    }
  }'
}

# Ends with status 1 where the answers do not have so many lines that begin so. Arguments: how many, and the words.
answered() {
  [[ $(grep -c "^$2" "$room/answers") == "$1" ]] || { echo "not $1 answers $2" >&2; exit 1; }
}

# 1,000 invalidates by a pattern that hits nothing, up to their ends.
patterns() {
  awk 'BEGIN {
    for (i = 21; i <= 1020; i++) {
      print "0 3000 command {\"cdn-path\":[],\"trigger\":{\"type\":\"invalidate\",\"content.patterns\":[{\"pattern\":\"*/none/" i "/*\"}]}}"
      print "0 3000 advance " i
      print "0 3000 advance " i
      print "0 3000 delete " i
    }
  }'
}

# So many requests of one object. Argument: how many.
hits_of_one() {
  awk -v count="$1" -v get="$get" 'BEGIN { for (i = 0; i < count; i++) print get "/films/000050" }'
}

# Whether a figure is at most 1.1 times another. Arguments: what it is, the figure, the other.
at_most() {
  if (($2 * 10 > $3 * 11)); then
    echo "$1: $2, which is more than 1.1 times $3" >&2
    missed=1
  fi
}

missed=0
declare -A first
(($#)) || set -- 100 10000 100000
for count in "$@"; do
  objects "$count" >"$room/objects"
  before=$(replay_instructions "$room/objects")
  answered "$count" 'ended kept'
  for by in url pattern ccid; do
    { cat "$room/objects"; trigger 21 "$(selection "$by")"; } >"$room/invalidated"
    { cat "$room/invalidated"; hits "$count"; } >"$room/hit"
    invalidated=$(replay_instructions "$room/invalidated")
    answered 21 'final complete'
    hit=$(replay_instructions "$room/hit")
    answered 1000 hit
    echo "$count objects, by $by: $((invalidated - before)) instructions, $((hit - invalidated)) of 1,000 hits after it"
    first[$by]=${first[$by]:-$((invalidated - before))}
    at_most "an invalidate by $by over $count objects" $((invalidated - before)) "${first[$by]}"
  done
done

# The instructions of 1,000 hits of one object, behind one, and after what a script has. Argument: the script.
thousand_hits() {
  local less more
  { cat "$1"; hits_of_one 1; } >"$room/less"
  { cat "$1"; hits_of_one 1001; } >"$room/more"
  less=$(replay_instructions "$room/less")
  more=$(replay_instructions "$room/more")
  answered 1001 hit
  echo $((more - less))
}

objects 100 >"$room/objects"
{ cat "$room/objects"; patterns; } >"$room/started"
plain=$(thousand_hits "$room/objects")
started=$(thousand_hits "$room/started")
answered 1020 'final complete'
echo "1,000 hits of one object: $plain instructions, and $started after 1,000 starts by patterns"
at_most "1,000 hits after 1,000 starts by patterns" "$started" "$plain"
python3 bench/instructions/sweep.py "$program" 1000000 200000 || missed=1
exit "$missed"
