"""Two nodes behind HAProxy: see front.sh."""
import collections
import glob
import json
import os
import re
import socket
import ssl
import subprocess
import sys
import tempfile
import time

sys.path.append(f"{sys.path[0]}/../tools")
from upstream import Origin

PROGRAM = sys.argv[1]
CONTROL, FRONT, NODES, URLS = "control.example", 8443, (8081, 8082), 60
FORMS = [
    b"GET /logs HTTP/1.1\r\nHost: control.example\r\n\r\n",
    b"GET /logs HTTP/1.1\r\nHost: CONTROL.example:80\r\n\r\n",
    b"GET /logs HTTP/1.1\r\nHost: control.example:\r\n\r\n",
    b"GET /logs HTTP/1.0\r\nHost: control.example\r\n\r\n",
    b"GET http://control.example/logs HTTP/1.1\r\nHost: v.example\r\n\r\n",
    b"GET http://control.example/logs HTTP/1.1\r\nHost: control.example\r\n\r\n",
    b"GET https://control.example/logs HTTP/1.1\r\n\r\n",
    b"GET /logs HTTP/1.1\r\nHost: v.example\r\nHost: control.example\r\n\r\n",
]


def must(holds, what):
    if not holds:
        sys.exit(f"front: not so: {what}")


def speak(link, request):
    """What one request is answered, by its status and its body."""
    link.settimeout(20)
    link.sendall(request)
    heard = b""
    while b"\r\n\r\n" not in heard:
        more = link.recv(65536)
        if not more:
            return 0, b""
        heard += more
    head, _, body = heard.partition(b"\r\n\r\n")
    length = re.search(rb"^content-length: (\d+)", head, re.I | re.M)
    while length and len(body) < int(length[1]):
        body += link.recv(65536)
    return int(head.split()[1]), body


def through_front(request):
    context = ssl.create_default_context()
    context.check_hostname, context.verify_mode = False, ssl.CERT_NONE
    with socket.create_connection(("127.0.0.1", FRONT)) as plain, context.wrap_socket(plain, server_hostname="v.example") as link:
        return speak(link, request)


def at_node(port, method, path, body=b""):
    head = f"{method} {path} HTTP/1.1\r\nHost: {CONTROL}\r\nContent-Length: {len(body)}\r\nConnection: close\r\n\r\n"
    with socket.create_connection(("127.0.0.1", port)) as link:
        return speak(link, head.encode() + body)


def ask_all():
    for number in range(URLS):
        status, body = through_front(f"GET /o{number} HTTP/1.1\r\nHost: v.example\r\nConnection: close\r\n\r\n".encode())
        must((status, body) == (200, f"content {number}".encode()), f"/o{number} is answered with its content, not {status}")


def wait_for(port):
    for _ in range(200):
        try:
            return socket.create_connection(("127.0.0.1", port)).close()
        except OSError:
            time.sleep(0.05)
    sys.exit(f"front: nothing listens at {port}")


def admin(folder, words):
    with socket.socket(socket.AF_UNIX) as link:
        link.connect(f"{folder}/admin.sock")
        link.sendall(words.encode() + b"\n")
        return link.recv(65536).decode()


def try_all(folder, origin, nodes):
    for _ in range(3):
        ask_all()
    asked = {path: count for path, count in origin.asked.items() if path != "/i"}
    must(len(asked) == URLS and set(asked.values()) == {1}, "the origin was asked once for each URL")
    print(f"{3 * URLS} requests for {URLS} URLs: the origin was asked {sum(asked.values())} times for content")

    for form in FORMS:
        status, body = through_front(form)
        must(status in (400, 403) and b"logs" not in body, f"{form} does not get through; it was answered {status}")
    print(f"the control host in {len(FORMS)} forms: none got through")

    command = {"trigger": {"type": "purge", "content.patterns": [{"pattern": "https://v.example/*"}]}, "cdn-path": ["AS1:0"]}
    for port in NODES:
        must(at_node(port, "POST", "/triggers", json.dumps(command).encode())[0] == 201, "each node takes the purge")
    for port in NODES:
        while json.loads(at_node(port, "GET", "/triggers/1")[1])["status"] != "complete":
            time.sleep(0.05)
    ask_all()
    asked = {path: count for path, count in origin.asked.items() if path != "/i"}
    must(set(asked.values()) == {2}, "after the purge at both nodes each URL was fetched once more")
    print("a purge sent to both nodes: each URL was fetched once more")

    admin(folder, "set server nodes/two state maint")
    drained = subprocess.run(["docs/drain.sh", "127.0.0.1:8082", f"{folder}/two", "70"], capture_output=True, text=True)
    must(drained.returncode == 0, f"drain.sh ends with 0: {drained.stderr}")
    nodes[1].terminate()
    nodes[1].wait()
    ask_all()
    print(f"node two drained and stopped ({drained.stdout.strip()}): each URL is still answered")

    # the last record comes behind its answer
    time.sleep(0.5)
    subprocess.run(["docs/collect-logs.sh", "127.0.0.1:8081", f"{folder}/one"], check=True, capture_output=True)
    rows, places = collections.Counter(), []
    for name in ("one", "two"):
        text = "".join(open(file, encoding="utf-8").read() for file in glob.glob(f"{folder}/{name}/*.log"))
        lines = [line.split("\t") for line in text.splitlines() if line and not line.startswith("#")]
        places.append(len(lines))
        rows.update(line[5] for line in lines)
    must(all(places), "both nodes had deliveries")
    must(rows == {f"https://v.example/o{number}": 5 for number in range(URLS)}, "each delivery has one record")
    print(f"records: {places[0]} of node one, {places[1]} of node two, {sum(rows.values())} in all, as many as answers")


def try_death(folder, origin, nodes):
    nodes[1] = serve(origin, NODES[1])
    admin(folder, "set server nodes/two state ready")
    for _ in range(100):
        if re.search(r"^nodes,two,.*,UP,", admin(folder, "show stat"), re.M):
            break
        time.sleep(0.2)
    ask_all()
    must(origin.asked["/i"] >= 3, "node two serves again")
    nodes[1].kill()
    nodes[1].wait()
    ask_all()
    print("node two killed without notice: each URL is answered at once")


def serve(origin, port):
    words = ["serve", "--listen", f"127.0.0.1:{port}", "--metadata", f"http://127.0.0.1:{origin.port}/i", "--protocol", "https/1.1"]
    node = subprocess.Popen([PROGRAM, *words])
    wait_for(port)
    return node


def main():
    started = []
    with tempfile.TemporaryDirectory() as folder, Origin({f"/o{number}": f"content {number}".encode() for number in range(URLS)}) as origin:
        subprocess.run(
            ["openssl", "req", "-x509", "-newkey", "rsa:2048", "-nodes", "-days", "1", "-subj", "/CN=v.example", "-keyout", f"{folder}/key.pem", "-out",
             f"{folder}/site.pem"], check=True, stderr=subprocess.DEVNULL)
        with open(f"{folder}/site.pem", "a", encoding="ascii") as pem, open(f"{folder}/key.pem", encoding="ascii") as key:
            pem.write(key.read())
        with open("docs/haproxy.cfg", encoding="utf-8") as it:
            config = it.read().replace("/etc/haproxy/site.pem", f"{folder}/site.pem").replace("/run/haproxy/admin.sock", f"{folder}/admin.sock")
        with open(f"{folder}/haproxy.cfg", "w", encoding="utf-8") as it:
            it.write(config)
        try:
            for port in NODES:
                started.append(serve(origin, port))
            started.append(subprocess.Popen(["haproxy", "-f", f"{folder}/haproxy.cfg", "-db"], stderr=subprocess.DEVNULL))
            wait_for(FRONT)
            time.sleep(2)
            try_all(folder, origin, started)
            try_death(folder, origin, started)
        finally:
            for it in reversed(started):
                it.terminate()
                it.wait()


main()
