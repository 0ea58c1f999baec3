"""An origin, a running `cdnid serve` and a client of it, for the scripts here."""
import collections
import http.server
import json
import resource
import socket
import subprocess
import threading
import time

Answer = collections.namedtuple("Answer", "status fields body total")


class Origin:
    """An upstream whose document at `/i` says that the content of `v.example` is here, with these contents by path."""

    def __init__(self, contents):
        self.contents, self.asked = contents, collections.Counter()
        outer = self

        class Handler(http.server.BaseHTTPRequestHandler):
            protocol_version = "HTTP/1.1"

            def do_GET(self):
                outer.asked[self.path] += 1
                body = outer.contents.get(self.path.partition("?")[0])
                self.send_response(404 if body is None else 200)
                self.send_header("Content-Type", "text/plain")
                self.send_header("Content-Length", str(len(body or b"")))
                self.end_headers()
                self.wfile.write(body or b"")

            def log_message(self, *_):
                pass

        self.server = http.server.ThreadingHTTPServer(("127.0.0.1", 0), Handler)
        self.server.daemon_threads = True
        self.port = self.server.server_port
        source = {"endpoints": [f"127.0.0.1:{self.port}"], "protocol": "http/1.1"}
        meta = [{"generic-metadata-type": "MI.SourceMetadata", "generic-metadata-value": {"sources": [source]}}]
        self.contents["/i"] = json.dumps({"hosts": [{"host": "v.example", "host-metadata": {"metadata": meta}}]}).encode()

    def __enter__(self):
        threading.Thread(target=self.server.serve_forever, daemon=True).start()
        return self

    def __exit__(self, *_):
        self.server.shutdown()


class Server:
    """`cdnid serve` over that origin, with further options, and where it is given with a limit of descriptors."""

    def __init__(self, program, origin, options, limit=None):
        self.limit = limit
        with socket.socket() as it:
            it.bind(("127.0.0.1", 0))
            self.port = it.getsockname()[1]
        self.words = [program, "serve", "--listen", f"127.0.0.1:{self.port}", "--metadata", f"http://127.0.0.1:{origin.port}/i", *options]

    def __enter__(self):
        narrow = self.limit and (lambda: resource.setrlimit(resource.RLIMIT_NOFILE, (self.limit, self.limit)))
        self.process = subprocess.Popen(self.words, preexec_fn=narrow)
        for _ in range(100):
            try:
                socket.create_connection(("127.0.0.1", self.port)).close()
                return self
            except OSError:
                time.sleep(0.05)
        raise SystemExit("the server does not listen")

    def __exit__(self, *_):
        self.process.kill()
        self.process.wait()


class Client:
    """Makes requests one after the other, over one connection as long as it is kept."""

    def __init__(self, server):
        self.port, self.link, self.heard = server.port, None, b""

    def ask(self, method, host, path, fields, body=None):
        lines = [f"{method} {path} HTTP/1.1", f"Host: {host}", *[f"{name}: {value}" for name, value in fields.items()]]
        if body is not None:
            lines.append(f"Content-Length: {len(body)}")
        if self.link is None:
            self.link = socket.create_connection(("127.0.0.1", self.port), timeout=30)
            self.link.setsockopt(socket.IPPROTO_TCP, socket.TCP_NODELAY, 1)
        self.link.sendall("\r\n".join([*lines, "", ""]).encode() + (body or b""))
        return self.take(method)

    def more(self):
        more = self.link.recv(1 << 18)
        if not more:
            raise SystemExit("the server closed the connection within an answer")
        self.heard += more

    def take(self, method):
        while b"\r\n\r\n" not in self.heard:
            self.more()
        head, _, rest = self.heard.partition(b"\r\n\r\n")
        first, *others = head.decode().split("\r\n")
        fields = {name.lower(): value.strip() for name, _, value in (it.partition(":") for it in others)}
        length = 0 if method == "HEAD" else int(fields.get("content-length", "0"))
        while len(self.heard) < len(head) + 4 + length:
            self.more()
        total = len(head) + 4 + length
        body, self.heard = self.heard[len(head) + 4 : total], self.heard[total:]
        if fields.get("connection", "").lower() == "close":
            self.link.close()
            self.link, self.heard = None, b""
        return Answer(int(first.split(" ")[1]), fields, body, total)
