"""Measures `cdnid serve` beside nginx; `bench/peers/serve.sh` and `bench/peers/load.sh` say what and how.

Usage: serving.py PROGRAM WORKERS TIMES REQUESTS [cut], or serving.py PROGRAM WORKERS TIMES load. For itself it runs
`serving.py --one SERVER CASE PROGRAM WORKERS REQUESTS [cut]` in a network namespace, once a measurement.
"""
import json
import os
import re
import shutil
import socket
import statistics
import subprocess
import sys
import tempfile
import time

ORIGIN, CDNID, NGINX = ("127.0.0.1", 8090), ("127.0.0.1", 8081), ("127.0.0.1", 8082)

# Each case: its name, the path that is asked for, the connections, further header fields, and whether each request has a connection of
# its own.
CASES = {
    "1k-1": ("1 KB, 1 connection", "/1k", 1, "", False),
    "1k-4": ("1 KB, 4 connections", "/1k", 4, "", False),
    "1k-64": ("1 KB, 64 connections", "/1k", 64, "", False),
    "64k": ("64 KB, 4 connections", "/64k", 4, "", False),
    "range": ("a range of 1 MB, 4 connections", "/4m", 4, "Range: bytes=1048576-2097151\r\n", False),
    "close": ("1 KB, a connection a request", "/1k", 4, "Connection: close\r\n", True),
    "miss": ("a miss of 1 KB, 4 connections", "/m/{}", 4, "", False),
}

# The most of a ratio, by the number of workers.
GOALS = {
    1: {"64k": 1.0, "range": 1.2},
    4: {"1k-1": 0.6, "1k-4": 0.6, "1k-64": 0.65, "64k": 0.8, "range": 1.0, "close": 0.75, "miss": 1.0},
    64: {"64k": 0.9, "range": 1.3, "close": 1.1, "miss": 1.1},
}

# What wrk asks for over 64 connections for a second, as fast as it is answered.
LOADS = {"load-1k": ("1 KB", "/1k"), "load-64k": ("64 KB", "/64k")}

# The most of the first answer beside held connections, in milliseconds.
GOAL_MS = 5.0

INDEX = {"hosts": [{"host": "v.example", "host-metadata": {"metadata": [{
    "generic-metadata-type": "MI.SourceMetadata",
    "generic-metadata-value": {"sources": [{"endpoints": ["%s:%d" % ORIGIN], "protocol": "http/1.1"}]}}]}}]}


def configure(room, workers):
    """Writes the origin's files and the configurations of the origin and of nginx."""
    os.makedirs(room + "/www")
    for name, size in (("1k", 1 << 10), ("64k", 1 << 16), ("4m", 1 << 22)):
        with open(f"{room}/www/{name}", "wb") as file:
            file.write(b"0123456789abcdef" * (size // 16))
    with open(room + "/www/i", "w") as file:
        json.dump(INDEX, file)
    common = "daemon off; error_log {room}/{name}.error; pid {room}/{name}.pid; worker_processes {n}; events {{ worker_connections 1024; }}\n"
    temporary = "".join(f"{kind}_temp_path {room}/{kind}; " for kind in ("client_body", "proxy", "fastcgi", "uwsgi", "scgi"))
    with open(room + "/origin.conf", "w") as file:
        file.write(common.format(room=room, name="origin", n=1))
        file.write("http { access_log off; sendfile on; keepalive_requests 100000; default_type application/octet-stream; %s server { listen %s:%d; root %s/www; "
                   "location /m/ { return 200 '%s'; } } }\n" % (temporary, *ORIGIN, room, "0123456789abcdef" * 64))
    with open(room + "/nginx.conf", "w") as file:
        file.write(common.format(room=room, name="nginx", n=workers))
        file.write("http { access_log %s/access.log; sendfile on; %s proxy_cache_path %s/cache keys_zone=kept:10m; server { listen %s:%d; "
                   "location / { proxy_pass http://%s:%d; proxy_cache kept; proxy_cache_valid 200 1h; proxy_force_ranges on; } } }\n"
                   % (room, temporary, room, *NGINX, *ORIGIN))


def start(words):
    return subprocess.Popen(words, stdout=subprocess.DEVNULL, stderr=subprocess.DEVNULL)


def await_port(address):
    """Waits until somebody listens."""
    for _ in range(200):
        try:
            socket.create_connection(address, 1).close()
            return
        except OSError:
            time.sleep(0.02)
    raise SystemExit("nobody listens at %s:%d" % address)


def processes(process):
    """The process and its children."""
    children = subprocess.run(["pgrep", "-P", str(process.pid)], capture_output=True, text=True).stdout.split()
    return [process.pid, *map(int, children)]


def processor_time(pids):
    """The nanoseconds that all tasks of these processes have run."""
    total = 0
    for pid in pids:
        for task in os.listdir(f"/proc/{pid}/task"):
            with open(f"/proc/{pid}/task/{task}/schedstat") as file:
                total += int(file.read().split()[0])
    return total


class Connection:
    """One connection of the client."""

    buffer = bytearray(1 << 21)

    def __init__(self, address):
        self.address = address
        self.open()

    def open(self):
        self.socket = socket.create_connection(self.address, 10)
        self.socket.setsockopt(socket.IPPROTO_TCP, socket.TCP_NODELAY, 1)

    def send(self, request):
        if self.socket is None:
            self.open()
        self.socket.sendall(request)

    def answer(self):
        """Reads one answer; its status and the length of its body."""
        view, have = memoryview(self.buffer), 0
        while True:
            count = self.socket.recv_into(view[have:])
            if count == 0:
                raise SystemExit("an answer is cut")
            have += count
            end = self.buffer.find(b"\r\n\r\n", 0, have)
            if end >= 0:
                break
        head = bytes(view[:end]).lower()
        told = re.search(rb"\r\ncontent-length: (\d+)", head)
        length = int(told.group(1)) if told else 0
        left = end + 4 + length - have
        while left > 0:
            count = self.socket.recv_into(view, min(left, len(view)))
            if count == 0:
                raise SystemExit("an answer is cut")
            left -= count
        if b"\r\nconnection: close" in head:
            self.socket.close()
            self.socket = None
        return int(head[9:12]), length


def request(path, fields):
    return f"GET {path} HTTP/1.1\r\nHost: v.example\r\nUser-Agent: bench\r\n{fields}\r\n".encode()


def drive(address, case, count):
    """Makes so many requests."""
    _, path, connections, fields, _ = CASES[case]
    wanted = 206 if case == "range" else 200
    pool = [Connection(address) for _ in range(connections)]
    made = 0
    while made < count:
        for connection in pool:
            connection.send(request(path.format(made), fields))
            made += 1
        for connection in pool:
            status, length = connection.answer()
            if status != wanted or length < 1024:
                raise SystemExit(f"{case}: an answer has status {status} and {length} bytes")
    return made


def load(address, path):
    """How many requests a second are answered at most."""
    words = ["wrk", "-t", "2", "-c", "64", "-d", "1s", "-H", "Host: v.example", "http://%s:%d%s" % (*address, path)]
    told = subprocess.run(words, stdout=subprocess.PIPE, text=True, check=True).stdout
    if "Non-2xx" in told or "Socket errors" in told:
        raise SystemExit("not all was answered: " + told)
    return float(re.search(r"Requests/sec: *([0-9.]+)", told).group(1))


class Cutter:
    """A process that cuts the rows five times a second, reads each log file whole and drops it, until it is ended."""

    def __init__(self):
        self.process = subprocess.Popen([sys.executable, __file__, "--cut"])

    def end(self):
        self.process.terminate()
        self.process.wait()


def cut():
    """What a cutter does."""
    connection = Connection(CDNID)

    def ask(method, path):
        connection.send(f"{method} {path} HTTP/1.1\r\nHost: control.example\r\n\r\n".encode())
        return connection.answer()

    number = 0
    while True:
        status, _ = ask("POST", "/logs")
        if status == 201:
            number += 1
            if ask("GET", f"/logs/{number}")[0] != 200 or ask("DELETE", f"/logs/{number}")[0] != 204:
                raise SystemExit("a log file is not there")
        time.sleep(0.2)


def first_answer(address, half):
    """The milliseconds until a new client is answered beside 100 connections that hold theirs open, after half a head or none."""
    held = [Connection(address) for _ in range(100)]
    for connection in held:
        if half:
            connection.send(b"GET /1k HT")
    time.sleep(0.3)
    begin = time.perf_counter()
    connection = Connection(address)
    connection.send(request("/1k", ""))
    connection.answer()
    return (time.perf_counter() - begin) * 1000


def one(server, case, program, workers, count, cuts):
    """One measurement, in a namespace of its own: microseconds a request, milliseconds of a first answer, or requests a second."""
    subprocess.run(["ip", "link", "set", "lo", "up", "mtu", "1500"], check=True)
    room = tempfile.mkdtemp(dir="/dev/shm")
    os.chmod(room, 0o777)
    configure(room, workers)
    started = [start(["nginx", "-c", room + "/origin.conf"])]
    try:
        await_port(ORIGIN)
        if server == "cdnid":
            address, words = CDNID, [program, "serve", "--listen", "%s:%d" % CDNID, "--metadata", "http://%s:%d/i" % ORIGIN]
            words += ["--rows", "100000"] if case in LOADS else []
            words += [] if workers == 1 else ["--workers", str(workers)]
        else:
            address, words = NGINX, ["nginx", "-c", room + "/nginx.conf"]
        started.append(start(words))
        await_port(address)
        warm = Connection(address)
        for path in ("/1k", "/64k", "/4m"):
            warm.send(request(path, ""))
            warm.answer()
        warm.socket.close()
        if case in ("idle", "half"):
            return first_answer(address, case == "half")
        if case in LOADS:
            return load(address, LOADS[case][1])
        pids = processes(started[-1])
        before = processor_time(pids)
        cutter = Cutter() if cuts and server == "cdnid" else None
        made = drive(address, case, count)
        if cutter is not None:
            cutter.end()
        return (processor_time(pids) - before) / made / 1000
    finally:
        for process in reversed(started):
            process.terminate()
        for process in started:
            process.wait()
        shutil.rmtree(room)


def measured(server, case, program, workers, count, cuts):
    words = ["unshare", "-n", sys.executable, __file__, "--one", server, case, program, str(workers), str(count), *cuts]
    ended = subprocess.run(words, stdout=subprocess.PIPE, text=True)
    if ended.returncode != 0:
        raise SystemExit(f"{server}, {case}: no measurement")
    return float(ended.stdout)


def medians(case, program, workers, times, count, cuts):
    """What so many measurements of both servers give, in turn."""
    figures = {"cdnid": [], "nginx": []}
    for _ in range(times):
        for server in figures:
            figures[server].append(measured(server, case, program, workers, count, cuts))
    return (statistics.median(figures[server]) for server in ("cdnid", "nginx"))


def loads(program, workers, times):
    for case, (name, _) in LOADS.items():
        ours, theirs = medians(case, program, workers, times, 0, [])
        print(f"{name}, 64 connections: {ours:,.0f} and {theirs:,.0f} requests a second, {ours / theirs:.2f} times", flush=True)


def main():
    program, workers, times, count, cuts = sys.argv[1], int(sys.argv[2]), int(sys.argv[3]), int(sys.argv[4]), sys.argv[5:]
    late = False
    for case in [*CASES, "idle", "half"]:
        ours, theirs = medians(case, program, workers, times, count, cuts)
        if case in CASES:
            goal = GOALS.get(workers, {}).get(case)
            name, ratio = CASES[case][0], ours / theirs
            late |= goal is not None and ratio > goal
            print(f"{name}: {ours:.1f} and {theirs:.1f} microseconds, {ratio:.2f} times" + (f", {goal} asked for" if goal else ""), flush=True)
        else:
            late |= ours > GOAL_MS
            name = "100 idle connections" if case == "idle" else "100 half-sent heads"
            print(f"first answer beside {name}: {ours:.1f} and {theirs:.1f} ms, {GOAL_MS} asked for", flush=True)
    sys.exit(1 if late else 0)


if sys.argv[1] == "--cut":
    cut()
elif sys.argv[1] == "--one":
    print(one(sys.argv[2], sys.argv[3], sys.argv[4], int(sys.argv[5]), int(sys.argv[6]), sys.argv[7:] == ["cut"]))
elif sys.argv[4] == "load":
    loads(sys.argv[1], int(sys.argv[2]), int(sys.argv[3]))
else:
    main()
