#!/usr/bin/env bash
# Tries transparent source addresses: clients, a front with HAProxy and a node stand in three network namespaces. First HAProxy asks the node from
# its own address, and then from each client's (`usesrc clientip`). The metadata allows clients of one country alone, so that what the node takes
# for the client's address is seen in its answers and in its log file. It ends with status 1 where an answer is another one.
# Usage: bench/checks/transparent.sh   (as root; needs haproxy, curl, python3 and ip: apt-get install haproxy iproute2; builds the program where it is not
# built)
set -eu
cd "$(dirname "$0")/../.."
program=$PWD/crates/cdnid/out/cdnid
[[ -x $program ]] || (cd crates/cdnid && rt run -- replay <stdin >/dev/null)
[[ $(id -u) == 0 ]] || { echo "this needs root" >&2; exit 2; }
folder=$(mktemp -d)
end() {
    exec 2>/dev/null
    # what runs in the namespaces of this run, and nothing else
    for space in client front node; do
        for pid in $(ip netns pids "t$$-$space" 2>/dev/null); do kill "$pid" 2>/dev/null || true; done
        ip netns del "t$$-$space" 2>/dev/null || true
    done
    rm -rf "$folder"
}
trap end EXIT

# at SPACE COMMAND..: runs a command in a namespace
at() { local space=$1; shift; ip netns exec "t$$-$space" "$@"; }

for space in client front node; do
    ip netns add "t$$-$space"
    at $space ip link set lo up
done
# the clients, two addresses of one machine, and the front
ip link add to-front netns "t$$-client" type veth peer name to-client netns "t$$-front"
at client ip addr add 192.0.2.7/24 dev to-front
at client ip addr add 192.0.2.200/24 dev to-front
at client ip link set to-front up
at front ip addr add 192.0.2.1/24 dev to-client
at front ip link set to-client up
# the front and the node, whose way back to everybody is the front
ip link add to-node netns "t$$-front" type veth peer name to-front netns "t$$-node"
at front ip addr add 198.51.100.1/24 dev to-node
at front ip link set to-node up
at node ip addr add 198.51.100.2/24 dev to-front
at node ip link set to-front up
at node ip route add default via 198.51.100.1
# what comes back from the node is the front's own, whatever address it goes to
at front ip rule add iif to-node ipproto tcp sport 8081 lookup 100
at front ip route add local default dev lo table 100

cat >"$folder/i" <<'JSON'
{"hosts":[{"host":"v.example","host-metadata":{"metadata":[
{"generic-metadata-type":"MI.SourceMetadata","generic-metadata-value":{"sources":[{"endpoints":["127.0.0.1:8090"],"protocol":"http/1.1"}]}},
{"generic-metadata-type":"MI.LocationACL","generic-metadata-value":{"locations":[{"action":"allow","footprints":[{"footprint-type":"countrycode","footprint-value":["us"]}]}]}}
]}}]}
JSON
echo content >"$folder/a"
printf '192.0.2.0/25 as64496 us\n192.0.2.128/25 as64497 de\n198.51.100.0/24 as64500 fr\n' >"$folder/places"
at node python3 -m http.server 8090 --bind 127.0.0.1 --directory "$folder" >/dev/null 2>&1 &
at node "$program" serve --listen 198.51.100.2:8081 --metadata http://127.0.0.1:8090/i --places "$folder/places" &
for port in 8071 8072; do
    cat >"$folder/$port.cfg" <<CFG
defaults
    mode http
    timeout connect 3s
    timeout client 60s
    timeout server 90s
frontend clients
    bind 192.0.2.1:$port
    default_backend nodes
backend nodes
    $([[ $port == 8072 ]] && echo "source 0.0.0.0 usesrc clientip")
    server one 198.51.100.2:8081
CFG
    at front haproxy -f "$folder/$port.cfg" -db 2>/dev/null &
done
sleep 3

status=0
# try PORT CLIENT WANTED: what a client is answered through the front
try() {
    local got
    got=$(at client curl --silent --max-time 5 --interface "$2" -H 'Host: v.example' "http://192.0.2.1:$1/a" || echo none)
    echo "$2 through port $1: $got"
    [[ $got == "$3" ]] || status=1
}
try 8071 192.0.2.7 'location -'
try 8071 192.0.2.200 'location -'
try 8072 192.0.2.7 content
try 8072 192.0.2.200 'location -'
try 8072 192.0.2.7 content
at node curl --silent -o /dev/null -X POST -H 'Host: control.example' http://198.51.100.2:8081/logs
groups=$(at node curl --silent -H 'Host: control.example' http://198.51.100.2:8081/logs/1 | grep -v '^#' | cut -f 4 | tr '\n' ' ')
echo "c-groupid of the five rows: $groups"
[[ $groups == "as64500 as64500 as64496 as64497 as64496 " ]] || status=1
exit $status
