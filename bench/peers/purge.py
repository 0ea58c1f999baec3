"""Measures purges and hits beside them: see purge.sh. For itself it runs `purge.py --purges PORT SECONDS KIND`, which makes the purges."""
import json
import os
import random
import shutil
import socket
import statistics
import subprocess
import sys
import tempfile
import time

sys.path.append(f"{sys.path[0]}/../tools")
from upstream import Client, Server

CONTROL, CONTENT = "control.example", "v.example"
HITS, SECONDS, RATE, HOT, COLD = 20000, 20, 500, 200, 1000
NAMES = {"by-url": "content.urls", "by-pattern": "content.patterns", "by-ccid": "content.ccid"}


class Port:
    """What a client needs of a server."""

    def __init__(self, port):
        self.port = port


def free_ports(count):
    """So many ports at which nobody listens."""
    held = [socket.create_server(("127.0.0.1", 0)) for _ in range(count)]
    ports = [it.getsockname()[1] for it in held]
    for it in held:
        it.close()
    return ports


ORIGIN, NGINX, VARNISH = free_ports(3)


def index():
    source = {"endpoints": [f"127.0.0.1:{ORIGIN}"], "protocol": "http/1.1"}
    return {"hosts": [{"host": CONTENT, "host-metadata": {"metadata": [
        {"generic-metadata-type": "MI.SourceMetadata", "generic-metadata-value": {"sources": [source]}},
        {"generic-metadata-type": "MI.Grouping", "generic-metadata-value": {"ccid": "all"}}]}}]}


def configure(room):
    """Writes the configurations of the origin, of nginx and of Varnish, which reads its own under a user of its own."""
    os.chmod(room, 0o755)
    common = "daemon off; user root; error_log %s/%s.error; pid %s/%s.pid; worker_processes 4; events { worker_connections 1024; }\n"
    temporary = "".join(f"{kind}_temp_path {room}/{kind}; " for kind in ("client_body", "proxy", "fastcgi", "uwsgi", "scgi"))
    with open(f"{room}/i", "w") as file:
        json.dump(index(), file)
    with open(f"{room}/origin.conf", "w") as file:
        file.write(common % (room, "origin", room, "origin"))
        file.write("http { access_log off; keepalive_requests 10000000; %s server { listen 127.0.0.1:%d; root %s; location /o/ { return 200 '%s'; } } }\n"
                   % (temporary, ORIGIN, room, "0123456789abcdef" * 16))
    with open(f"{room}/nginx.conf", "w") as file:
        file.write(common % (room, "nginx", room, "nginx"))
        file.write("http { access_log %s/access.log; keepalive_requests 10000000; %s proxy_cache_path %s/cache keys_zone=kept:50m; server { listen 127.0.0.1:%d; "
                   "location / { proxy_pass http://127.0.0.1:%d; proxy_cache kept; proxy_cache_key $uri; proxy_cache_valid 200 1h; "
                   "proxy_cache_bypass $http_anew; } } }\n" % (room, temporary, room, NGINX, ORIGIN))
    with open(f"{room}/varnish.vcl", "w") as file:
        file.write('vcl 4.1; backend origin { .host = "127.0.0.1"; .port = "%d"; } '
                   'sub vcl_recv { if (req.method == "PURGE") { return (purge); } } sub vcl_backend_response { set beresp.ttl = 1h; }\n' % ORIGIN)


def start(words):
    return subprocess.Popen(words, stdout=subprocess.DEVNULL, stderr=subprocess.DEVNULL)


def await_answer(port, path):
    for _ in range(200):
        try:
            Client(Port(port)).ask("GET", CONTENT, path, {})
            return
        except (OSError, SystemExit):
            time.sleep(0.05)
    raise SystemExit(f"nobody answers at {port}")


def cdnid(program):
    """The node, over the origin's document."""
    server = Server(program, Port(ORIGIN), ["--workers", "4", "--cache", "1073741824", "--rows", "100000", "--triggers", "10000", "--period", "86400000"])
    return server


def cut(client):
    """Cuts the rows and drops the files, so that there is room for more."""
    while (answer := client.ask("POST", CONTROL, "/logs", {})).status == 201:
        assert client.ask("DELETE", CONTROL, answer.fields["location"].removeprefix(f"http://{CONTROL}"), {}).status == 204


def fill(server, count):
    client = Client(server)
    for number in range(count):
        answer = client.ask("GET", CONTENT, f"/o/{number}", {})
        assert answer.status == 200, (answer.status, answer.body)
        if number % 50000 == 49999:
            cut(client)
    cut(client)


def command(kind, item):
    return json.dumps({"trigger": {"type": "purge", NAMES[kind]: [item]}, "cdn-path": ["AS1:0"]}).encode()


def purge_takes(server, kind, item):
    """Milliseconds from the POST until the status resource says `complete`."""
    posts, looks = Client(server), Client(server)
    began = time.perf_counter()
    answer = posts.ask("POST", CONTROL, "/triggers", {}, command(kind, item))
    assert answer.status == 201, (answer.status, answer.body)
    place = answer.fields["location"].removeprefix(f"http://{CONTROL}")
    while json.loads(looks.ask("GET", CONTROL, place, {}).body)["status"] != "complete":
        pass
    took = (time.perf_counter() - began) * 1000
    assert looks.ask("DELETE", CONTROL, place, {}).status == 204
    return took


def purges(program, most):
    print("objects kept   by URL   by pattern   by ccid   (milliseconds from the POST to `complete`)")
    for count in (100, 10000, 100000):
        if count > most:
            break
        with cdnid(program) as server:
            fill(server, count)
            urls = [purge_takes(server, "by-url", f"http://{CONTENT}/o/{number}") for number in range(20)]
            patterns = [purge_takes(server, "by-pattern", {"pattern": f"http://{CONTENT}/o/{number}*", "case-sensitive": True, "match-query-string": False})
                        for number in range(2, 7)]
            group = purge_takes(server, "by-ccid", "all")
        print(f"{count:12}   {statistics.median(urls):6.2f}   {statistics.median(patterns):10.2f}   {group:7.2f}", flush=True)


def make_purges(port, seconds, kind):
    """Makes purges by URL at a steady rate."""
    client, chance = Client(Port(port)), random.Random(1)
    began, made = time.perf_counter(), 0
    while made < RATE * seconds:
        path = f"/o/{HOT + chance.randrange(COLD)}"
        if kind == "cdnid":
            answer = client.ask("POST", CONTROL, "/triggers", {}, command("by-url", f"http://{CONTENT}{path}"))
            assert answer.status == 201, answer.status
            client.ask("DELETE", CONTROL, answer.fields["location"].removeprefix(f"http://{CONTROL}"), {})
        elif kind == "nginx":
            client.ask("GET", CONTENT, path, {"Anew": "1"})
        else:
            client.ask("PURGE", CONTENT, path, {})
        made += 1
        time.sleep(max(0.0, began + made / RATE - time.perf_counter()))
    print(made / (time.perf_counter() - began))


def slowest_hundredth(port, kind):
    """Milliseconds that the slowest hundredth of the hits takes at least, beside purges, and how many purges a second there were."""
    client, took = Client(Port(port)), []
    for number in range(HOT + COLD):
        client.ask("GET", CONTENT, f"/o/{number}", {})
    beside = subprocess.Popen([sys.executable, __file__, "--purges", str(port), str(SECONDS), kind], stdout=subprocess.PIPE, text=True)
    time.sleep(0.5)
    for number in range(HITS):
        began = time.perf_counter()
        answer = client.ask("GET", CONTENT, f"/o/{number % HOT}", {})
        took.append(time.perf_counter() - began)
        assert answer.status == 200, answer.status
    rate = float(beside.communicate()[0])
    return sorted(took)[HITS * 99 // 100] * 1000, rate


def main():
    room, work = tempfile.mkdtemp(prefix="purge-", dir="/dev/shm"), tempfile.mkdtemp(prefix="purge-")
    others = []
    try:
        configure(room)
        others.append(start(["nginx", "-c", f"{room}/origin.conf"]))
        await_answer(ORIGIN, "/i")
        purges(sys.argv[1], int(sys.argv[2]))
        others.append(start(["nginx", "-c", f"{room}/nginx.conf"]))
        others.append(start(["varnishd", "-F", "-n", f"{work}/varnish", "-a", f"127.0.0.1:{VARNISH}", "-f", f"{room}/varnish.vcl", "-s", "malloc,256m"]))
        figures = {}
        with cdnid(sys.argv[1]) as server:
            figures["cdnid"] = slowest_hundredth(server.port, "cdnid")
        for name, port in (("nginx", NGINX), ("varnish", VARNISH)):
            await_answer(port, "/o/0")
            figures[name] = slowest_hundredth(port, name)
        for name, (slow, rate) in figures.items():
            print(f"{name:8} {slow:6.3f} ms for the slowest hundredth of the hits, beside {rate:.0f} purges a second")
        sys.exit(1 if figures["cdnid"][0] > min(figures["nginx"][0], figures["varnish"][0]) else 0)
    finally:
        for other in others:
            other.terminate()
        time.sleep(0.5)
        shutil.rmtree(room, ignore_errors=True)
        shutil.rmtree(work, ignore_errors=True)


if __name__ == "__main__":
    if sys.argv[1] == "--purges":
        make_purges(int(sys.argv[2]), int(sys.argv[3]), sys.argv[4])
    else:
        main()
