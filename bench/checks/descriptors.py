"""Clients of a server that may open 64 descriptors: see descriptors.sh."""
import socket
import sys
import time

sys.path.append(f"{sys.path[0]}/../tools")
from upstream import Client, Origin, Server

PROGRAM = sys.argv[1]
DESCRIPTORS, CROWD, ROUNDS, PATIENCE = 64, 100, 20, 5.0


def main():
    worst = 0.0
    with Origin({"/a": b"content"}) as origin, Server(PROGRAM, origin, [], DESCRIPTORS) as server:
        crowd = []
        for number in range(CROWD):
            crowd.append(socket.create_connection(("127.0.0.1", server.port), timeout=PATIENCE))
            if number % 2:
                crowd[-1].sendall(b"GET /a HTTP/1.1\r\nHost: ")
        for _ in range(ROUNDS):
            began = time.monotonic()
            answer = Client(server).ask("GET", "v.example", "/a", {"Connection": "close"})
            worst = max(worst, time.monotonic() - began)
            if (answer.status, answer.body) != (200, b"content"):
                sys.exit(f"answered {answer.status}")
        if worst > PATIENCE or server.process.poll() is not None:
            sys.exit(f"the slowest answer came after {worst:.2f} s; the server ended with {server.process.poll()}")
    print(f"{CROWD} silent clients at {DESCRIPTORS} descriptors: {ROUNDS} requests answered, the slowest after {worst:.2f} s")


main()
