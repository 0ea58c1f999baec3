"""Each answer of `cdnid serve`, once: see answers.sh."""
import json
import socket
import sys
import threading

sys.path.append(f"{sys.path[0]}/../tools")
from upstream import Client, Origin, Server

PROGRAM = sys.argv[1]
CONTROL, BODY_MAX = "control.example", 16_777_216
differing = 0


def source(port):
    return {"generic-metadata-type": "MI.SourceMetadata", "generic-metadata-value": {"sources": [{"endpoints": [f"127.0.0.1:{port}"], "protocol": "http/1.1"}]}}


def generic(kind, value):
    return {"generic-metadata-type": f"MI.{kind}", "generic-metadata-value": value}


def raw_origin(answer):
    """The port of a server that answers everybody with these bytes and closes."""
    listener = socket.create_server(("127.0.0.1", 0))

    def serve():
        while True:
            link, _ = listener.accept()
            link.recv(65536)
            link.sendall(answer)
            link.close()

    threading.Thread(target=serve, daemon=True).start()
    return listener.getsockname()[1]


def closed_port():
    with socket.socket() as it:
        it.bind(("127.0.0.1", 0))
        return it.getsockname()[1]


def index_of(port):
    """A HostIndex with a host for each answer of a rule and of an origin."""
    footprints = [{"footprint-type": "countrycode", "footprint-value": ["us"]}]
    hosts = {
        "v.example": [source(port)],
        "place.example": [source(port), generic("LocationACL", {"locations": [{"action": "deny", "footprints": [{"footprint-type": "ipv4cidr", "footprint-value": ["127.0.0.0/8"]}]}]})],
        "noplace.example": [source(port), generic("LocationACL", {"locations": [{"action": "allow", "footprints": footprints}]})],
        "time.example": [source(port), generic("TimeWindowACL", {"times": [{"action": "allow", "windows": [{"start": 0, "end": 1}]}]})],
        "secure.example": [source(port), generic("ProtocolACL", {"protocol-acl": [{"action": "allow", "protocols": ["https/1.1"]}]})],
        "other.example": [source(port), {**generic("Vendor", {}), "mandatory-to-enforce": True}],
        "bare.example": [],
        "moved.example": [source(raw_origin(b"HTTP/1.1 301 Moved Permanently\r\nContent-Length: 0\r\n\r\n"))],
        "long.example": [source(raw_origin(b"HTTP/1.1 200 OK\r\nContent-Length: %d\r\n\r\n" % (BODY_MAX + 1)))],
        "wrong.example": [source(raw_origin(b"SSH-2.0-OpenSSH_9.2\r\n\r\n"))],
        "cut.example": [source(raw_origin(b"HTTP/1.1 200 OK\r\nContent-Length: 10\r\n\r\nabc"))],
        "dead.example": [source(closed_port())],
    }
    return {"hosts": [{"host": host, "host-metadata": {"metadata": meta}} for host, meta in hosts.items()]}


def show(done, answer, wanted):
    global differing
    text = answer.body.decode().strip() if answer.fields.get("content-type") in ("text/plain", None) else f"({answer.fields['content-type']})"
    allow = f" [Allow: {answer.fields['allow']}]" if "allow" in answer.fields else ""
    place = f" [Location: {answer.fields['location']}]" if "location" in answer.fields else ""
    got = f"{answer.status} {text}".strip() + allow + place
    if got != wanted:
        differing += 1
        got += f"   WANTED {wanted}"
    print(f"{done:<52} {got}")


def raw(server, data):
    client = Client(server)
    client.link = socket.create_connection(("127.0.0.1", server.port), timeout=30)
    client.link.sendall(data)
    return client.take("GET")


def ask_clients(server):
    def ask(done, wanted, method="GET", host="v.example", path="/a", fields=None):
        show(done, Client(server).ask(method, host, path, fields or {}), wanted)

    ask("content", "200 content")
    ask("a part", "206 ont", fields={"Range": "bytes=1-3"})
    ask("a part that is not there", "416", fields={"Range": "bytes=100-200"})
    ask("what the origin lacks", "404", path="/none")
    ask("another method", "405 method [Allow: GET, HEAD]", "POST")
    ask("a host that is in no HostMatch", "404 no-host", host="w.example")
    ask("a place that the first rule denies", "403 location 1", host="place.example")
    ask("a place that no rule allows", "403 location -", host="noplace.example")
    ask("a time that no rule allows", "403 time -", host="time.example")
    ask("a protocol that no rule allows", "403 protocol -", host="secure.example")
    ask("an object that must be enforced and is not known", "403 unenforceable mi.vendor", host="other.example")
    ask("a host without a source", "503 no-source", host="bare.example")
    ask("an origin with another status", "502 gateway status 301", host="moved.example")
    ask("an origin with too long a body", f"502 gateway length {BODY_MAX + 1}", host="long.example")
    ask("an origin that speaks something else", "502 gateway malformed 23", host="wrong.example")
    ask("an origin that ends within its answer", "502 gateway cut 42", host="cut.example")
    ask("an origin that is not there", "502 gateway failed", host="dead.example")
    show("no head, or no Host", raw(server, b"GET /a HTTP/1.1\r\n\r\n"), "400")
    show("a body in chunks", raw(server, b"GET /a HTTP/1.1\r\nHost: v.example\r\nTransfer-Encoding: chunked\r\n\r\n0\r\n\r\n"), "411")
    show("a body above 1,048,576 bytes", raw(server, b"GET /a HTTP/1.1\r\nHost: v.example\r\nContent-Length: 1048577\r\n\r\n"), "413")


def ask_control(server):
    def ask(done, wanted, method="GET", path="/triggers", body=None):
        show(done, Client(server).ask(method, CONTROL, path, {}, body), wanted)

    def command(selects, kind="invalidate", path="AS1:0"):
        return json.dumps({"trigger": {"type": kind, **selects}, "cdn-path": [path]}).encode()

    def cancel(number):
        return json.dumps({"cancel": [f"http://{CONTROL}/triggers/{number}"], "cdn-path": ["AS1:0"]}).encode()

    some = {"content.urls": ["http://v.example/a"]}
    status, collection, line = "(application/cdni; ptype=ci-trigger-status)", "(application/cdni; ptype=ci-trigger-collection)", "(application/json)"
    ask("a command", f"201 {status} [Location: http://{CONTROL}/triggers/1]", "POST", body=command(some))
    ask("one more than --triggers", "503 full 1", "POST", body=command(some))
    ask("a cancel", f"200 {line}", "POST", body=cancel(1))
    ask("a cancel of what is not there", "404", "POST", body=cancel(9))
    for done, wanted, body in [
        ("a command that is no JSON", "refused not-json", b"{"),
        ("a field that is missing", "refused field /trigger/type missing", b'{"trigger":{},"cdn-path":[]}'),
        ("a field of another kind", "refused field /cdn-path wrong-kind", b'{"trigger":{"type":"purge"},"cdn-path":7}'),
        ("an id in cdn-path that is none", "refused field /cdn-path/0 out-of-range", b'{"trigger":{"type":"purge"},"cdn-path":["x"]}'),
        ("nothing selected", "refused no-selection", command({})),
        ("a pattern in a preposition", "refused pattern-in-preposition", command({"content.patterns": [{"pattern": "http://v.example/*"}]}, "preposition")),
        ("a ccid in a preposition", "refused ccid-in-preposition", command({"content.ccid": ["c"]}, "preposition")),
        ("1,001 items", "refused too-many 1001", command({"content.urls": ["http://v.example/a"] * 1001})),
        ("a URL that is none", "refused bad-url 0", command({"content.urls": ["v.example/a"]})),
        ("a pattern above 1,024 bytes", "refused bad-pattern 0", command({"content.patterns": [{"pattern": "a" * 1025}]})),
    ]:
        ask(done, f"400 {wanted}", "POST", body=body)
    ask("this CDN is on the path", "403 refused loop", "POST", body=command(some, path="AS64496:0"))
    ask("a trigger", f"200 {status}", path="/triggers/1")
    ask("all triggers", f"200 {collection}")
    ask("a trigger is deleted", "204", "DELETE", "/triggers/1")
    ask("a trigger that is not there", "404", path="/triggers/1")
    ask("the advertisement", f"200 {line}", path="/fci")
    ask("a cut", f"201 [Location: http://{CONTROL}/logs/1]", "POST", "/logs")
    ask("a cut without rows", "204", "POST", "/logs")
    ask("the log files", f"200 {line}", path="/logs")
    ask("a log file", "200 (application/cdni; ptype=logging-file)", path="/logs/1")
    client = Client(server)
    client.ask("GET", "v.example", "/a", {})
    # over the same connection, so that the row is there
    show("a cut beyond --files", client.ask("POST", CONTROL, "/logs", {}), "503 full 1")
    ask("a log file is dropped", "204", "DELETE", "/logs/1")
    ask("a log file that is not there", "404", path="/logs/1")
    ask("another path", "404", path="/other")
    ask("another method", "405 [Allow: GET, POST, DELETE]", "PUT", "/logs")


def server_of(origin, path, options):
    """A server whose metadata is at this path."""
    server = Server(PROGRAM, origin, options)
    server.words[server.words.index("--metadata") + 1] = f"http://127.0.0.1:{origin.port}{path}"
    return server


def ask_without(origin):
    """What comes where the metadata or the rows are at their end."""
    with Server(PROGRAM, origin, ["--rows", "1"]) as server:
        Client(server).ask("GET", "v.example", "/a", {})
        show("more than --rows", Client(server).ask("GET", "v.example", "/a", {}), "503 full 1")
    with server_of(origin, "/none", []) as server:
        show("no metadata was had yet", Client(server).ask("GET", "v.example", "/a", {}), "503 no-metadata")
    with Server(PROGRAM, origin, []) as server:
        Client(server).ask("GET", "v.example", "/a", {})
        root = origin.contents.pop("/i")
        body = json.dumps({"trigger": {"type": "invalidate", "metadata.urls": [f"http://127.0.0.1:{origin.port}/i"]}, "cdn-path": ["AS1:0"]}).encode()
        client = Client(server)
        client.ask("POST", CONTROL, "/triggers", {}, body)
        # over the same connection, so that the trigger's steps were made
        client.ask("GET", CONTROL, "/fci", {})
        show("metadata was invalidated, and none came since", Client(server).ask("GET", "v.example", "/a", {}), "503 metadata-invalid 1")
        origin.contents["/i"] = root


def main():
    with Origin({"/a": b"content"}) as origin:
        origin.contents["/all"] = json.dumps(index_of(origin.port)).encode()
        with server_of(origin, "/all", ["--triggers", "1", "--files", "1"]) as server:
            ask_clients(server)
            ask_control(server)
        ask_without(origin)
    sys.exit(1 if differing else 0)


main()
