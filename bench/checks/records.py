"""Compares what clients got with the log files: see records.sh."""
import collections
import hashlib
import random
import re
import subprocess
import sys
import threading

sys.path.append(f"{sys.path[0]}/../tools")
from upstream import Client, Origin, Server

PROGRAM, WORKERS, REQUESTS, LOGGED = sys.argv[1], int(sys.argv[2]), int(sys.argv[3]), sys.argv[4]
CONTROL = "control.example"
USUAL = "cs-method cs-uri sc-status sc-total-bytes sc-entity-bytes".split()
# What is compared of a record: of the usual fields these, and of chosen ones all.
COMPARED = LOGGED.split(",") if LOGGED else USUAL


def some_fields(chance):
    """Two header fields, each of which a request may have: with quotes, blanks within and more than is logged."""
    values = ["curl/8.5.0", 'a "b" c', "x" * 1100, "\"", "a\tb"]
    return {name: chance.choice(values) for name in ("User-Agent", "Referer") if chance.randrange(3)}


def logged(said, name):
    """What a record has of a header field: at most 1,024 bytes in quotes, with each quote twice and a space for a tab."""
    value = said.get(name, "").replace("\t", " ")[:1024].replace('"', '""')
    return f'"{value}"' if value else "-"


def some_requests(seed):
    """The requests of a client: method, host, path and header fields."""
    chance = random.Random(seed)
    for _ in range(REQUESTS):
        kind = chance.randrange(10)
        path = f"/o{chance.randrange(40)}"
        said = some_fields(chance)
        if kind < 6:
            yield "GET", "v.example", path, said
        elif kind < 7:
            yield "HEAD", "v.example", path, said
        elif kind < 8:
            yield "GET", "v.example", path, {**said, "Range": f"bytes={chance.randrange(8)}-{8 + chance.randrange(8)}"}
        elif kind < 9:
            yield "GET", "w.example", path, said
        else:
            yield "POST", "v.example", path, said


def ask_all(server, seed, got):
    """Makes the requests, over connections that last as long as the server keeps them, and notes each answer."""
    client = Client(server)
    for method, host, path, fields in some_requests(seed):
        answer = client.ask(method, host, path, fields)
        told = {"cs-method": method, "cs-uri": f"http://{host}{path}", "sc-status": str(answer.status), "sc-total-bytes": str(answer.total),
                "sc-entity-bytes": str(len(answer.body)), "cs(user-agent)": logged(fields, "User-Agent"), "cs(referer)": logged(fields, "Referer")}
        got[tuple(told[name] for name in COMPARED)] += 1


def cut_all(server, records, ended):
    """Cuts log files, reads and drops them, until the clients have ended and nothing is left to cut."""
    client, files = Client(server), 0
    while True:
        was_last = ended.is_set()
        cut = client.ask("POST", CONTROL, "/logs", {})
        if cut.status == 204:
            if was_last:
                return files
            ended.wait(0.02)
            continue
        assert cut.status == 201, cut.status
        place = cut.fields["location"].removeprefix(f"http://{CONTROL}")
        text = client.ask("GET", CONTROL, place, {})
        assert text.status == 200 and text.fields["content-type"] == "application/cdni; ptype=logging-file"
        note_file(text.body, records)
        assert client.ask("DELETE", CONTROL, place, {}).status == 204
        assert client.ask("GET", CONTROL, place, {}).status == 404
        files += 1


def note_file(text, records):
    """Notes the records of a log file, whose hash must be that of what stands before it, and which `cdnid audit` must accept."""
    whole, hashed = re.fullmatch(rb"(.*\r\n)#SHA256-hash:\t([0-9a-f]{64})\r\n", text, re.S).groups()
    assert hashlib.sha256(whole).hexdigest().encode() == hashed, "the hash differs"
    audited = subprocess.run([PROGRAM, "audit"], input=text, capture_output=True)
    assert audited.returncode == 0, audited.stderr
    names = re.search(rb"\r\n#fields:\t(.*?)\r\n", whole).group(1).decode().split("\t")
    assert not LOGGED or names == COMPARED, "other fields"
    for line in whole.decode().split("\r\n"):
        if line and not line.startswith("#"):
            values = line.split("\t")
            assert len(values) == len(names), "a record has another number of values"
            records[tuple(values[names.index(name)] for name in COMPARED)] += 1


def main():
    records, got, ended = collections.Counter(), [collections.Counter(), collections.Counter()], threading.Event()
    contents = {f"/o{number}": f"content {number} ".encode() * (1 + 37 * number) for number in range(30)}
    with Origin(contents) as origin, Server(PROGRAM, origin, ["--workers", str(WORKERS), *(["--log-fields", LOGGED] if LOGGED else [])]) as server:
        clients = [threading.Thread(target=ask_all, args=(server, seed, got[seed])) for seed in range(2)]
        files = []
        cutter = threading.Thread(target=lambda: files.append(cut_all(server, records, ended)))
        for thread in [*clients, cutter]:
            thread.start()
        for thread in clients:
            thread.join()
        ended.set()
        cutter.join()
    wanted = got[0] + got[1]
    missing, more = wanted - records, records - wanted
    for name, those in ("not in the log files", missing), ("in the log files alone", more):
        for key, count in list(those.items())[:5]:
            print(f"{name}: {count} times {' '.join(key)}", file=sys.stderr)
    print(f"{WORKERS} workers, {'chosen' if LOGGED else 'usual'} fields: {sum(wanted.values())} answers, {sum(records.values())} records in {files[0]} files")
    sys.exit(1 if missing or more or not files else 0)


main()
