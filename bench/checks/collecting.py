"""The collector of log files: see collecting.sh."""
import http.server
import os
import subprocess
import sys
import tempfile
import threading

sys.path.append(f"{sys.path[0]}/../tools")
from upstream import Client, Origin, Server

PROGRAM, CONTROL = sys.argv[1], "control.example"


def must(holds, what):
    if not holds:
        sys.exit(f"collecting: not so: {what}")


def collect(port, folder):
    ran = subprocess.run(["docs/collect-logs.sh", f"127.0.0.1:{port}", folder], capture_output=True, text=True, env=os.environ | {"CDNID": sys.argv[1]})
    print(f"status {ran.returncode}: {(ran.stdout + ran.stderr).strip() or 'nothing was said'}")
    return ran.returncode


def kept(folder):
    return sorted(it for it in os.listdir(folder) if it.endswith(".log"))


def rows_in(folder):
    return sum(not line.startswith("#") for name in kept(folder) for line in open(f"{folder}/{name}", encoding="utf-8"))


class Forger(http.server.BaseHTTPRequestHandler):
    """A server with one log file, which is not as it was; it notes what is dropped."""

    text, dropped = b"", []

    def answer(self, status, body=b""):
        self.send_response(status)
        self.send_header("Content-Length", str(len(body)))
        self.end_headers()
        self.wfile.write(body)

    def do_POST(self):
        self.answer(201)

    def do_GET(self):
        self.answer(200, b'{"logs":[1]}' if self.path == "/logs" else self.text)

    def do_DELETE(self):
        self.dropped.append(self.path)
        self.answer(204)

    def log_message(self, *_):
        pass


def try_forged(whole):
    forger = http.server.ThreadingHTTPServer(("127.0.0.1", 0), Forger)
    threading.Thread(target=forger.serve_forever, daemon=True).start()
    for text in whole[: len(whole) // 2], whole.replace(b"\t200\t", b"\t201\t", 1), b"", whole + b"x":
        Forger.text = text
        with tempfile.TemporaryDirectory() as folder:
            must(collect(forger.server_port, folder) == 1, "a file that is not whole is refused")
            must(not kept(folder) and not Forger.dropped, "a file that is not whole is neither kept nor dropped")
    Forger.text = whole
    with tempfile.TemporaryDirectory() as folder:
        must(collect(forger.server_port, folder) == 0 and len(kept(folder)) == 1 and Forger.dropped == ["/logs/1"], "a whole one is kept and dropped")
    forger.shutdown()


def main():
    with tempfile.TemporaryDirectory() as folder, Origin({"/a": b"content"}) as origin:
        with Server(PROGRAM, origin, ["--files", "2"]) as server:
            client = Client(server)

            def ask_some(count):
                for _ in range(count):
                    client.ask("GET", "v.example", "/a", {})
                # over the same connection, so that the last row is there
                client.ask("GET", CONTROL, "/fci", {})

            must(collect(server.port, folder) == 0 and not kept(folder), "nothing to cut is no fault")
            ask_some(3)
            must(collect(server.port, folder) == 0 and rows_in(folder) == 3, "three rows are kept")
            for _ in range(2):
                ask_some(2)
                must(client.ask("POST", CONTROL, "/logs", {}).status == 201, "a cut")
            ask_some(1)
            must(collect(server.port, folder) == 0 and rows_in(folder) == 8, "a node with as many files as it may is emptied")
            must(client.ask("GET", CONTROL, "/logs", {}).body == b'{"logs":[]}', "nothing is left at the node")
        must(collect(server.port, folder) == 1, "a node that is gone is told")
        with open(f"{folder}/{kept(folder)[0]}", "rb") as file:
            try_forged(file.read())


main()
