#!/usr/bin/env bash
# Makes a node ready to be stopped, once nothing sends it clients any more: waits until no client is connected and no trigger is on its way, and
# then collects its log files. What it cannot wait for is told, and the node goes on serving; it does not stop the node.
#
# Usage: drain.sh ADDRESS:PORT FOLDER [SECONDS [CONTROL-HOST]]   (60 seconds and control.example where they are left out; needs curl and ss)
#
# Status: 0 where nothing is left to lose but the statuses of triggers; 1 where something is, with a line that says what; 2 where the words are
# not the usage's.
set -u

if [[ $# -lt 2 || $# -gt 4 ]]; then
    echo "usage: drain.sh ADDRESS:PORT FOLDER [SECONDS [CONTROL-HOST]]" >&2
    exit 2
fi
node=$1 folder=$2 left=${3:-60} control=${4:-control.example}
here=$(dirname "$0")

# how many connections the node has, those among them that their clients have closed: a delivery ends before its connection is closed
connections() {
    ss --no-header --tcp --numeric state established state close-wait "sport = :${node##*:}" | wc -l
}

# the triggers that are not final, as URLs
moving() {
    local filter
    for filter in pending active; do
        curl --silent --fail --max-time 10 --header "Host: $control" "http://$node/triggers/$filter" || echo '"triggers":["?"]'
    done | grep -o '"triggers":\["[^]]*' | cut -d '[' -f 2
}

curl --silent --max-time 60 --output /dev/null --header "Host: $control" "http://$node/fci" || {
    echo "drain: nothing answers at $node" >&2
    exit 1
}
while true; do
    # a second after the last question, whose own connection has gone
    sleep 1
    open=$(connections)
    going=$(moving)
    [[ ($open == 0 && -z $going) || $left -le 0 ]] && break
    left=$((left - 1))
done
status=0
if [[ $open != 0 ]]; then
    echo "drain: $open connections are left" >&2
    status=1
fi
if [[ -n $going ]]; then
    echo "drain: triggers are on their way: ${going//$'\n'/ }" >&2
    status=1
fi
"$here/collect-logs.sh" "$node" "$folder" "$control" || status=1
exit $status
