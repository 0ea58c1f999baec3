"""Clients and origins that would stop a server: see withstand.sh."""
import contextlib
import re
import resource
import shutil
import socket
import subprocess
import sys
import tempfile
import threading
import time

sys.path.append(f"{sys.path[0]}/../tools")
from upstream import Origin, Server

PROGRAM, WORKERS, ONLY = sys.argv[1], sys.argv[2], sys.argv[3:]
SMALL, SECONDS, PATIENCE = b"a" * 34, 4.0, 20.0
SIZES = {"/3m": 3_000_000, "/6m": 6_000_000, "/16m": 16_777_216}
failed = []


class Contents(dict):
    """Contents of which some paths are given after a while."""

    def __init__(self, contents):
        super().__init__(contents)
        self.slow = {}

    def get(self, path):
        time.sleep(self.slow.get(path, 0))
        return super().get(path)


class Probe(threading.Thread):
    """Asks for the small object again and again, each time over a connection of its own, and keeps how long that took."""

    def __init__(self, port):
        super().__init__(daemon=True)
        self.port, self.took, self.wrong, self.goes_on = port, [], 0, True

    def run(self):
        while self.goes_on:
            began = time.monotonic()
            self.wrong += not is_hit(self.port)
            self.took.append(time.monotonic() - began)
            time.sleep(0.01)


def is_hit(port, path="/a", body=SMALL):
    try:
        with socket.create_connection(("127.0.0.1", port), timeout=PATIENCE) as link:
            link.sendall(f"GET {path} HTTP/1.1\r\nHost: v.example\r\nConnection: close\r\n\r\n".encode())
            heard = b""
            while more := link.recv(1 << 20):
                heard += more
        return heard.startswith(b"HTTP/1.1 200") and heard.endswith(body)
    except OSError:
        return False


def told(name, p99, worst, wrong, bound, most):
    """Prints a figure beside its bounds, in milliseconds."""
    good = p99 <= bound and worst <= most and not wrong
    if not good and not name.startswith("nginx"):
        failed.append(name)
    print(f"{name}: p99 {p99:.1f} ms (at most {bound}), longest {worst:.1f} ms (at most {most}), {wrong} wrong"
          f"{'' if good else '  <-- not so'}", flush=True)


def probed(name, port, bound, most, seconds=SECONDS):
    probes = [Probe(port) for _ in range(3)]
    for probe in probes:
        probe.start()
    time.sleep(seconds)
    for probe in probes:
        probe.goes_on = False
    for probe in probes:
        probe.join()
    took = sorted(it * 1000 for probe in probes for it in probe.took)
    told(name, took[int(len(took) * 0.99)], took[-1], sum(probe.wrong for probe in probes), bound, most)


def silent(port, path):
    """A client that asks, and reads nothing."""
    link = socket.socket()
    link.setsockopt(socket.SOL_SOCKET, socket.SO_RCVBUF, 65_536)
    link.connect(("127.0.0.1", port))
    link.sendall(f"GET {path} HTTP/1.1\r\nHost: v.example\r\n\r\n".encode())
    return link


def readers(name, port, count, path, bound, most):
    with contextlib.ExitStack() as links:
        for _ in range(count):
            links.enter_context(silent(port, path))
        time.sleep(0.3)
        probed(f"{name}, {count} clients that read nothing of {path[1:]}", port, bound, most)
    time.sleep(1)


def bodies(name, port, count, bound, most):
    """Clients that send a byte of a body now and then."""
    links, goes_on = [], True
    for _ in range(count):
        link = socket.create_connection(("127.0.0.1", port))
        link.sendall(b"POST /a HTTP/1.1\r\nHost: v.example\r\nContent-Length: 500000\r\n\r\n")
        links.append(link)

    def drip():
        while goes_on:
            for link in links:
                with contextlib.suppress(OSError):
                    link.send(b"x")
            time.sleep(0.3)

    dripping = threading.Thread(target=drip, daemon=True)
    dripping.start()
    probed(f"{name}, {count} bodies that come slowly", port, bound, most)
    goes_on = False
    dripping.join()
    for link in links:
        link.close()


def loaded(name, port, bound, most):
    words = ["wrk", "-t1", "-c40", "-d5s", "--timeout", "30s", "-H", "Host: v.example", f"http://127.0.0.1:{port}/16m"]
    load = subprocess.Popen(words, stdout=subprocess.DEVNULL)
    time.sleep(0.5)
    probed(f"{name}, wrk -c40 on 16 MiB", port, bound, most, 4.0)
    load.wait()


def refused(name, port):
    """A large answer, and behind its request a body that is refused while it is still being sent: both answers whole."""
    good = 0
    for _ in range(20):
        with socket.create_connection(("127.0.0.1", port), timeout=PATIENCE) as link:
            link.sendall(b"GET /3m HTTP/1.1\r\nHost: v.example\r\n\r\n")
            link.sendall(b"POST /triggers HTTP/1.1\r\nHost: control.example\r\nContent-Length: 1048577\r\n\r\n")

            def send():
                with contextlib.suppress(OSError):
                    for _ in range(1025):
                        link.sendall(b"x" * 1024)

            sending = threading.Thread(target=send, daemon=True)
            sending.start()
            heard = b""
            with contextlib.suppress(OSError):
                while more := link.recv(1 << 16):
                    heard += more
            sending.join()
        head, _, rest = heard.partition(b"\r\n\r\n")
        good += head.startswith(b"HTTP/1.1 200") and rest[SIZES["/3m"]:].startswith(b"HTTP/1.1 413")
    line = f"{name}, a body that is refused behind a large answer: both whole {good} times of 20"
    if good < 20 and not name.startswith("nginx"):
        failed.append(line)
    print(line, flush=True)


def continued(name, port):
    """How long the word takes that a body may be sent, of a first request and of a second one."""
    command = b'{"trigger":{"type":"purge","content.urls":["http://v.example/none"]},"cdn-path":["AS1:0"]}'
    head = b"POST /triggers HTTP/1.1\r\nHost: control.example\r\nExpect: 100-continue\r\nContent-Length: %d\r\n\r\n" % len(command)
    took, good = [], 0
    with socket.create_connection(("127.0.0.1", port), timeout=3) as link:
        for _ in range(2):
            began = time.monotonic()
            link.sendall(head)
            with contextlib.suppress(OSError):
                good += link.recv(25) == b"HTTP/1.1 100 Continue\r\n\r\n"
            took.append((time.monotonic() - began) * 1000)
            link.sendall(command)
            heard = b""
            with contextlib.suppress(OSError):
                while b"}}" not in heard:
                    heard += link.recv(4096)
            good += heard.startswith(b"HTTP/1.1 201")
    told(f"{name}, the word 100 ({good} of 4 answers)", max(took), max(took), 4 - good, 50, 100)


def several(name, port):
    """A body in pieces behind a request that is answered, and one behind it."""
    command = b'{"trigger":{"type":"purge","content.patterns":[{"pattern":"%s"}]},"cdn-path":["AS1:0"]}' % (b"http://v.example/" + b"x" * 300_000)
    hit = b"GET /a HTTP/1.1\r\nHost: v.example\r\n\r\n"
    text = hit + b"POST /triggers HTTP/1.1\r\nHost: control.example\r\nContent-Length: %d\r\n\r\n" % len(command) + command + hit
    with socket.create_connection(("127.0.0.1", port), timeout=5) as link:
        for at in range(0, len(text), 7_919):
            link.sendall(text[at : at + 7_919])
            time.sleep(0.001)
        heard = b""
        with contextlib.suppress(OSError):
            while heard.count(SMALL) < 2:
                heard += link.recv(1 << 16)
    statuses = [it[1:4] for it in heard.split(b"HTTP/1.1") if it]
    good = statuses in ([b"200", b"201", b"200"], [b"200", b"400", b"200"])
    if not good:
        failed.append("a body in pieces")
    print(f"{name}, a body of 300 kB in pieces between two hits: {b' '.join(statuses).decode()}", flush=True)


def gathered(name, server, bound):
    """Many bodies of which most came: how much memory they take, and whether others are served."""
    before = resident(server)
    links = []
    for _ in range(400):
        link = socket.create_connection(("127.0.0.1", server.port))
        link.settimeout(2)
        with contextlib.suppress(OSError):
            link.sendall(b"POST /a HTTP/1.1\r\nHost: v.example\r\nContent-Length: 1000000\r\n\r\n" + b"x" * 900_000)
        links.append(link)
    took = resident(server) - before
    line = f"{name}, 400 bodies of which 900 kB came: {took / 1024:.0f} MiB of memory (at most {bound})"
    if took / 1024 > bound:
        failed.append(line)
    print(line, flush=True)
    probed(f"{name}, beside these", server.port, 20, 1500, 2.0)
    for link in links:
        link.close()


def rate(port):
    """How many hits a second wrk is given over 40 connections; the records are cut first."""
    cut = b"POST /logs HTTP/1.1\r\nHost: control.example\r\nContent-Length: 0\r\nConnection: close\r\n\r\n"
    with contextlib.suppress(OSError), socket.create_connection(("127.0.0.1", port), timeout=3) as link:
        link.sendall(cut)
        while link.recv(4096):
            pass
    words = ["wrk", "-t1", "-c40", "-d1s", "--timeout", "30s", "-H", "Host: v.example", f"http://127.0.0.1:{port}/a"]
    heard = subprocess.run(words, stdout=subprocess.PIPE, text=True, check=True).stdout
    found = {word: sum(int(it) for it in re.findall(pattern, heard)) for word, pattern in
             {"all": r"(\d+) requests in", "bad": r"Non-2xx or 3xx responses: (\d+)"}.items()}
    return found["all"] - found["bad"]


def metadata_hangs(contents, origin):
    """The metadata server takes a request and says nothing, while content is kept: 8 workers, 40 connections."""
    with Server(PROGRAM, origin, ["--rows", "100000", "--workers", "8", "--period", "1000"], 8192) as server:
        warm(server.port)
        before = rate(server.port)
        contents.slow["/i"] = 40
        time.sleep(2.5)
        is_hit(server.port)
        loading = threading.Thread(target=rate, args=[server.port])
        loading.start()
        loading.join()
        after = rate(server.port)
        contents.slow.clear()
    share = after / max(before, 1)
    line = f"8 workers, the metadata server hangs: {after} hits a second of {before}, a share of {share:.2f} (at least 0.5)"
    if share < 0.5:
        failed.append(line)
    print(line, flush=True)


def slow_origin(contents, origin):
    """Eight misses at once of an origin that takes a second and a half, with 4 workers: all are well."""
    with Server(PROGRAM, origin, ["--workers", "4"], 8192) as server:
        warm(server.port)
        paths = [f"/s{number}" for number in range(8)]
        contents.update({path: SMALL for path in paths})
        contents.slow.update({path: 1.5 for path in paths})
        began, got = time.monotonic(), []
        asking = [threading.Thread(target=lambda path=path: got.append(is_hit(server.port, path)), daemon=True) for path in paths]
        for it in asking:
            it.start()
        for it in asking:
            it.join()
        took = time.monotonic() - began
    line = f"4 workers, 8 misses at once of an origin that takes 1.5 s: {sum(got)} of 8 in {took:.1f} s"
    print(line, flush=True)


def resident(server):
    with open(f"/proc/{server.process.pid}/status", encoding="ascii") as lines:
        return next(int(line.split()[1]) for line in lines if line.startswith("VmRSS"))


@contextlib.contextmanager
def nginx(origin):
    with tempfile.TemporaryDirectory() as room, socket.socket() as it:
        it.bind(("127.0.0.1", 0))
        port = it.getsockname()[1]
        it.close()
        with open(f"{room}/nginx.conf", "w", encoding="ascii") as to:
            to.write(f"""daemon off; user root; worker_processes 4; pid {room}/pid; error_log {room}/error crit;
worker_rlimit_nofile 8192; events {{ worker_connections 4096; }}
http {{ access_log {room}/log; proxy_cache_path {room}/kept keys_zone=k:8m max_size=1g; client_body_temp_path {room}/b; proxy_temp_path {room}/p;
fastcgi_temp_path {room}/f; uwsgi_temp_path {room}/u; scgi_temp_path {room}/s;
server {{ listen 127.0.0.1:{port} backlog=4096; location / {{ proxy_pass http://127.0.0.1:{origin.port}; proxy_cache k; proxy_cache_valid 200 1h; }} }} }}""")
        process = subprocess.Popen(["nginx", "-p", room, "-c", f"{room}/nginx.conf"], stderr=subprocess.DEVNULL)
        time.sleep(1)
        try:
            yield port
        finally:
            process.terminate()
            process.wait()


def wanted(word):
    return not ONLY or word in ONLY


def warm(port):
    for path, size in {"/a": SMALL, **{path: b"b" * size for path, size in SIZES.items()}}.items():
        if not is_hit(port, path, size):
            sys.exit(f"{path} is not given")


def attack(name, port):
    if wanted("readers"):
        for count in 12, 100, 300:
            readers(name, port, count, "/3m", 20, 1500)
        readers(name, port, 12, "/6m", 20, 1500)
        for count in 12, 100, 300:
            readers(name, port, count, "/16m", 50, 1500)
    if wanted("bodies"):
        bodies(name, port, 500, 5, 1500)
    if wanted("load"):
        loaded(name, port, 50, 1500)


def main():
    resource.setrlimit(resource.RLIMIT_NOFILE, (8192, 8192))
    contents = Contents({"/a": SMALL, **{path: b"b" * size for path, size in SIZES.items()}})
    with Origin(contents) as origin:
        origin.server.handle_error = lambda *_: None
        name = f"{WORKERS} workers"
        with Server(PROGRAM, origin, ["--rows", "100000", "--workers", WORKERS], 8192) as server:
            warm(server.port)
            attack(name, server.port)
            if wanted("refused"):
                refused(name, server.port)
            if wanted("expect"):
                continued(name, server.port)
                several(name, server.port)
            if wanted("budget"):
                gathered(name, server, 200)
        if wanted("metadata"):
            metadata_hangs(contents, origin)
        if wanted("misses"):
            slow_origin(contents, origin)
        if shutil.which("nginx") and wanted("nginx"):
            with nginx(origin) as port:
                warm(port)
                attack("nginx", port)
    sys.exit(1 if failed else 0)


main()
