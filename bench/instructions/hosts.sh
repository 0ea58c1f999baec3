#!/usr/bin/env bash
# Instructions of a hit in `cdnid replay`, counted under callgrind, by what is installed: one host with one source object, 5,000 hosts with
# one source object each, and one host with 9,998 further objects beside its source object. Each figure is a thousandth of what 1,000
# hits more take; the table of the hosts is made by the first request. It ends with status 1 where a hit with 5,000 hosts takes more
# than 1.2 times what it takes with one, or with the further objects more than 1.5 times.
# Usage: bench/instructions/hosts.sh   (needs valgrind; builds the program by `rt run` where it is not built)
set -eu
source "$(dirname "$0")/../tools/replaying.sh"

source='{"generic-metadata-type":"MI.SourceMetadata","generic-metadata-value":{"sources":[{"endpoints":["o.example"],"protocol":"http/1.1"}]}}'
get='0 2000 get GET http/1.1 192.0.2.7 as64496 us http://v.example/films/000050'

# A HostMatch. Arguments: the host, and what stands before its source object.
host() {
  echo '{"host":"'"$1"'","host-metadata":{"metadata":['"$2$source"']}}'
}

# So many hosts, of which the last is the one that is asked for. Argument: how many.
hosts() {
  awk -v count="$1" -v source="$source" 'BEGIN {
    for (i = 1; i < count; i++) printf "{\"host\":\"h%04d.example\",\"host-metadata\":{\"metadata\":[%s]}},", i, source
  }'
  host v.example ''
}

# So many objects of types that are not understood. Argument: how many.
further() {
  awk -v count="$1" 'BEGIN {
    for (i = 1; i <= count; i++) printf "{\"generic-metadata-type\":\"MI.Further%04d\",\"generic-metadata-value\":1,\"mandatory-to-enforce\":false},", i
  }'
}

# A script: these hosts, a miss that is kept, and so many hits. Arguments: the hosts, and how many.
script() {
  echo '0 1000 refresh'
  echo "0 1000 meta 1 http://up.example/i {\"hosts\":[$1]}"
  echo "$get"
  echo '0 2000 got 1 200 video/mp2t 30313233343536373839616263646566'
  awk -v count="$2" -v get="$get" 'BEGIN { for (i = 0; i < count; i++) print get }'
}

# The instructions of a hit. Argument: the hosts.
hit() {
  local less more
  script "$1" 100 >"$room/script"
  less=$(replay_instructions "$room/script")
  script "$1" 1100 >"$room/script"
  more=$(replay_instructions "$room/script")
  [[ $(grep -c '^hit' "$room/answers") == 1100 ]] || { echo 'not 1100 hits' >&2; exit 1; }
  echo $(((more - less) / 1000))
}

one=$(hit "$(hosts 1)")
many=$(hit "$(hosts 5000)")
objects=$(hit "$(host v.example "$(further 9998)")")
echo "a hit: $one instructions; with 5,000 hosts $many; with 9,998 further objects $objects"
missed=0
if ((many * 10 > one * 12)); then
  echo "with 5,000 hosts: more than 1.2 times" >&2
  missed=1
fi
if ((objects * 10 > one * 15)); then
  echo "with 9,998 further objects: more than 1.5 times" >&2
  missed=1
fi
exit "$missed"
