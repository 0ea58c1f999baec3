#!/bin/bash
# A chain of three nodes, each with its control host at port 80 of a loopback address of its own: a purge is passed on twice, and
# stops at the first node, through which it came. Then what a far CDN may do that is no node: answer slowly, in chunks, nothing, or
# with a Location that is a path.
# Usage: bench/checks/chain.sh CDNID   (as root, or where a network namespace may be made; it needs python3 and curl)
set -u
cdnid=$(realpath "$1")
if [ -z "${CHAIN_INSIDE:-}" ]; then
    exec env CHAIN_INSIDE=1 unshare -rn "$0" "$cdnid"
fi
ip link set lo up
room=$(mktemp -d)
trap 'kill $(jobs -p) 2>/dev/null; rm -rf "$room"' EXIT
python3 - "$room" > "$room/far.log" 2>&1 <<'FAR' &
import socket
import sys
import threading
import time

STATUS = b'{"status":"complete"}'


def answer(connection, port):
    with connection:
        request = connection.recv(65536)
        is_post = request.startswith(b"POST")
        place = f"http://127.0.0.1:{port}/t/1".encode()
        if request.startswith(b"GET /index"):
            connection.sendall(b'HTTP/1.1 200 OK\r\nContent-Length: 12\r\nConnection: close\r\n\r\n{"hosts":[]}')
        elif port == 8001 and is_post:
            time.sleep(2)
            connection.sendall(b"HTTP/1.1 201 Created\r\nLocation: " + place + b"\r\n\r\n")
        elif port == 8002 and is_post:
            connection.sendall(b"HTTP/1.1 201 Created\r\nLocation: " + place + b"\r\nTransfer-Encoding: chunked\r\n\r\n0\r\n\r\n")
        elif port == 8002:
            for byte in b"HTTP/1.1 200 OK\r\nTransfer-Encoding: chunked\r\n\r\n":
                connection.sendall(bytes([byte]))
            for byte in STATUS:
                connection.sendall(b"1\r\n" + bytes([byte]) + b"\r\n")
            connection.sendall(b"0\r\n\r\n")
        elif port == 8004:
            connection.sendall(b"HTTP/1.1 201 Created\r\nLocation: /t/1\r\n\r\n")
        elif port == 8001:
            connection.sendall(b"HTTP/1.1 200 OK\r\nContent-Length: %d\r\n\r\n" % len(STATUS) + STATUS)
        # port 8003 closes without a byte


def listen(server, port):
    while True:
        threading.Thread(target=answer, args=(server.accept()[0], port)).start()


for port in 8000, 8001, 8002, 8003, 8004:
    server = socket.create_server(("127.0.0.1", port))
    threading.Thread(target=listen, args=(server, port)).start()
FAR
node() {
    "$cdnid" serve --listen "127.0.0.$1:80" --control "127.0.0.$1" --cdn-id "$2" --metadata http://127.0.0.1:8000/index 2> "$room/node-$1.log" &
}
node 2 AS64496:0
node 3 AS64501:0
node 4 AS64502:0
# whether all three nodes answer, and what stands in for far CDNs listens at its last port
listens() {
    curl -s -o /dev/null http://127.0.0.2/triggers && curl -s -o /dev/null http://127.0.0.3/triggers &&
        curl -s -o /dev/null http://127.0.0.4/triggers && (exec 3<>/dev/tcp/127.0.0.1/8004) 2>/dev/null
}
for _ in $(seq 100); do
    listens && break
    sleep 0.3
done
failed=0
# passes a command on and compares what comes of it: the path, what is to come, the words
passes() {
    printf '{"cdn-path":[%s],"trigger":{"content.urls":["http://v.example/a"],"type":"purge"}}' "$1" > "$room/command"
    local expected="$2"
    shift 2
    local got
    got=$("$cdnid" cascade "$@" < "$room/command" 2>&1; echo "status $?")
    echo "\$ cdnid cascade $*"
    echo "$got"
    if [ "$got" != "$expected" ]; then
        echo "expected: $expected"
        failed=1
    fi
}
one=AS64496:0=http://127.0.0.2/triggers
two=AS64501:0=http://127.0.0.3/triggers
three=AS64502:0=http://127.0.0.4/triggers
passes '"AS64500:0"' $'AS64501:0 complete\njoined complete\nstatus 0' AS64496:0 20 "$two"
passes '"AS64500:0","AS64496:0"' $'AS64496:0 skipped\nAS64502:0 complete\njoined complete\nstatus 0' AS64501:0 20 "$one" "$three"
passes '"AS64500:0","AS64496:0","AS64501:0"' $'AS64496:0 skipped\nAS64501:0 skipped\njoined complete\nstatus 0' AS64502:0 20 "$one" "$two"
passes '"AS64500:0","AS64496:0","AS64501:0","AS64502:0"' $'refused loop\nstatus 1' AS64496:0 20 "$two"
passes '' $'AS1:0 complete\nAS2:0 complete\nAS3:0 malformed\nAS4:0 unreadable\nAS5:0 fault\njoined failed\nstatus 0' AS64496:0 3 \
    AS1:0=http://127.0.0.1:8001/t AS2:0=http://127.0.0.1:8002/t AS3:0=http://127.0.0.1:8003/t AS4:0=http://127.0.0.1:8004/t AS5:0=http://127.0.0.1:8005/t
echo "triggers of the second and third node:"
curl -s http://127.0.0.3/triggers/1
echo
curl -s http://127.0.0.4/triggers/1
echo
exit $failed
