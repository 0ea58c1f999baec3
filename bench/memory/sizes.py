"""What `cdnid serve` takes of memory: see sizes.sh."""
import json
import sys
import tempfile
import time

sys.path.append(f"{sys.path[0]}/../tools")
from upstream import Client, Origin, Server

PROGRAM, PART, CONTROL = sys.argv[1], int(sys.argv[2]), "control.example"
MOST = ["--rows", "100000", "--cache", "1073741824", "--triggers", "10000"]


def resident(server):
    with open(f"/proc/{server.process.pid}/status", encoding="ascii") as file:
        return next(int(line.split()[1]) * 1024 for line in file if line.startswith("VmRSS"))


def ask_many(server, paths):
    """Asks for these paths, fifty at once, on a connection for five hundred."""
    paths = list(paths)
    for at in range(0, len(paths), 50):
        if at % 500 == 0:
            client = Client(server)
            client.ask("GET", CONTROL, "/fci", {})
        some = paths[at : at + 50]
        client.link.sendall(b"".join(f"GET {path} HTTP/1.1\r\nHost: v.example\r\n\r\n".encode() for path in some))
        for _ in some:
            answer = client.take("GET")
            assert answer.status == 200, answer.status


def cut(server, drops=True):
    # a new one each time: idle connections are closed
    client = Client(server)
    place = client.ask("POST", CONTROL, "/logs", {}).fields["location"].removeprefix(f"http://{CONTROL}")
    if drops:
        assert client.ask("DELETE", CONTROL, place, {}).status == 204
    return place


def slope(server, do, few, many):
    """The bytes that each of the steps from `few` to `many` takes."""
    do(few)
    before = resident(server)
    do(many - few)
    return round((resident(server) - before) / (many - few))


def say(what, number, unit="bytes"):
    print(f"{what:<60} {number:>10,} {unit}", flush=True)


def of_objects(origin, size, few, many):
    origin.contents.update({f"/o{number}": b"x" * size for number in range(many)})
    with Server(PROGRAM, origin, MOST) as server:
        numbers = iter(range(many))

        def fetch(count):
            ask_many(server, [f"/o{next(numbers)}" for _ in range(count)])
            cut(server)

        say(f"each kept object of {size:,} bytes, with its fetch", slope(server, fetch, few, many))


def of_requests(origin):
    with Server(PROGRAM, origin, MOST) as server:

        def hit(count):
            for at in range(0, count, 10_000):
                ask_many(server, ["/a"] * min(10_000, count - at))
                cut(server)

        say("at the start, with four workers", resident(server))
        say("each request that hits, its row cut and its file dropped", slope(server, hit, 60_000 // PART, 240_000 // PART))


def of_rows(origin):
    with Server(PROGRAM, origin, MOST) as server:
        say("each request that hits, its row kept", slope(server, lambda count: ask_many(server, ["/a"] * count), 24_000 // PART, 96_000 // PART))
        rows = 96_000 // PART
        place = cut(server, drops=False)
        say("each row of a log file, in its text", round(len(Client(server).ask("GET", CONTROL, place, {}).body) / rows))


def of_triggers(origin):
    body = json.dumps({"trigger": {"type": "purge", "content.urls": ["http://v.example/a"]}, "cdn-path": ["AS1:0"]}).encode()
    with Server(PROGRAM, origin, MOST) as server:
        client = Client(server)

        def command(count):
            for _ in range(count):
                assert client.ask("POST", CONTROL, "/triggers", {}, body).status == 201

        say("each trigger of one URL that is not deleted", slope(server, command, 2_000 // PART, 8_000 // PART))


def of_places(origin, lines):
    with tempfile.NamedTemporaryFile("w") as file:
        for number in range(lines):
            file.write(f"{10 + number // 65536}.{number // 256 % 256}.{number % 256}.0/24 as{number} us\n")
        file.flush()
        sizes = []
        for options in [], ["--places", file.name]:
            began = time.monotonic()
            with Server(PROGRAM, origin, options) as server:
                sizes.append((resident(server), time.monotonic() - began))
        say("each line of a file of places", round((sizes[1][0] - sizes[0][0]) / lines))
        say(f"until it listens, with {lines:,} lines", round(1000 * sizes[1][1]), "ms")


def main():
    with Origin({"/a": b"x" * 1_024}) as origin:
        of_requests(origin)
        of_rows(origin)
        of_objects(origin, 1_024, 4_000 // PART, 16_000 // PART)
        of_objects(origin, 65_536, 500 // PART, 2_000 // PART)
        of_triggers(origin)
        of_places(origin, 200_000 // PART)


main()
