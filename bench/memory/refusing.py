#!/usr/bin/env python3
"""Prints a case of `session_cases` that may end for want of memory. Usage: refusing.py answer | connection

answer: one request for content that is fetched, and its whole answer. connection: a client that is the upstream CDN too asks for a
range of a segment of 4 MiB, which is fetched, and again under another session's name; it takes the segments back by a pattern, reads
the trigger's status resource, asks for the range once more, and cuts and reads the log file of the three."""
import hashlib
import json
import sys
import uuid

MOMENT = 1368751086825
DATE = "Date: Fri, 17 May 2013 00:38:06 GMT\r\n"


def source(endpoint):
    value = {"sources": [{"endpoints": [endpoint], "protocol": "http/1.1"}]}
    return {"generic-metadata-type": "MI.SourceMetadata", "generic-metadata-value": value}


def got(kind, body):
    return {"outcome": "Got", "status": 200, "kind": kind, "body": body}


def document(value):
    return got("application/json", json.dumps(value, separators=(",", ":")))


def case(name, outcomes, requests, written, ending, asks):
    return {
        "case": name, "silent": True, "refusing": True,
        "settings": {"protocol": "http/1.1", "control": "control.example", "root": "http://up.example/i", "own": "AS64496:0", "footprints": []},
        "origin": "dcdn.example",
        "limits": {"cache": 268435456, "rows": 20000, "triggers": 1000, "files": 16, "period": 60000, "opened": 4611686018427387904},
        "outcomes": outcomes, "moments": [[MOMENT, 1]],
        "connections": [{
            "refusing": True,
            "peer": {"ip": "192.0.2.7", "asn": 64496, "country": "us"},
            "source": [[request, 1] for request in requests], "reads": [], "takes": [],
            "written": written, "ending": ending, "calls": [], "asks": asks,
        }],
    }


def answer():
    index = {"hosts": [{"host": "v.example", "host-metadata": {"metadata": [source("o.example")]}}]}
    head = f"HTTP/1.1 200 OK\r\n{DATE}Content-Length: 10\r\nContent-Type: text/plain\r\nAccept-Ranges: bytes\r\n\r\n"
    return case("a whole answer", [document(index), got("text/plain", "0123456789")],
                ["GET /a HTTP/1.1\r\nHost: v.example\r\n\r\n"], [[head + "0123456789", 1]], "Ended",
                [["up.example", "/i"], ["o.example", "/a"]])


def log_file(rows):
    name = uuid.uuid5(uuid.NAMESPACE_URL, f"dcdn.example/1/{MOMENT}")
    fields = "date time time-taken c-groupid cs-method cs-uri u-uri protocol sc-status sc-total-bytes sc-entity-bytes s-ccid s-cached"
    text = (f'#version:\tcdni/1.0\r\n#UUID:\t"urn:uuid:{name}"\r\n#claimed-origin:\tdcdn.example\r\n'
            "#record-type:\tcdni_http_request_v1\r\n#fields:\t" + fields.replace(" ", "\t") + "\r\n" + "".join(rows))
    return text + f"#SHA256-hash:\t{hashlib.sha256(text.encode()).hexdigest()}\r\n"


def connection():
    def link(path):
        return {"type": "MI.HostMetadata", "href": f"http://up.example/{path}"}

    root = {"hosts": [{"host": "video.example", "host-metadata": link("video")}, {"host": "www.example", "host-metadata": link("www")}]}
    countries = {"locations": [{"action": "allow", "footprints": [{"footprint-type": "countrycode", "footprint-value": ["us", "de"]}]}]}
    cache = {"generic-metadata-type": "MI.Cache", "generic-metadata-value": {"ignore-query-string": ["session"]}}
    video = {
        "metadata": [source("o.example"), {"generic-metadata-type": "MI.LocationACL", "generic-metadata-value": countries}],
        "paths": [{"path-pattern": {"pattern": "/seg/*"}, "path-metadata": {"metadata": [cache]}}],
    }
    www = {"metadata": [source("o.example")]}
    block = "0123456789abcdef"
    segment = got("video/mp2t", block * (4194304 // 16))

    def ranged(session):
        return f"GET /seg/1.ts?session={session} HTTP/1.1\r\nHost: video.example\r\nRange: bytes=1048576-2097151\r\n\r\n"

    def control(method, path, rest="\r\n"):
        return f"{method} {path} HTTP/1.1\r\nHost: control.example\r\n{rest}"

    def whole(status, fields, body):
        return f"HTTP/1.1 {status}\r\n{DATE}Content-Length: {len(body)}\r\n{fields}\r\n{body}"

    part = ("HTTP/1.1 206 Partial Content\r\n" + DATE + "Content-Length: 1048576\r\nContent-Type: video/mp2t\r\nAccept-Ranges: bytes\r\n"
            "Content-Range: bytes 1048576-2097151/4194304\r\n\r\n")
    taken = [[part, 1], [block, 1048576 // 16]]
    pattern = "http://video.example/seg/*"
    command = json.dumps({"trigger": {"type": "invalidate", "content.patterns": [{"pattern": pattern}]}, "cdn-path": ["AS64500:1"]})

    def resource(status):
        shown = {"case-sensitive": False, "match-query-string": False, "pattern": pattern}
        return json.dumps({"ctime": MOMENT // 1000, "mtime": MOMENT // 1000, "status": status,
                           "trigger": {"content.patterns": [shown], "type": "invalidate"}}, separators=(",", ":"))

    def row(session, cached):
        url = f"http://video.example/seg/1.ts?session={session}"
        return "\t".join(["2013-05-17", "00:38:06.825", "0.000", "as64496", "GET", url, url, "HTTP/1.1", "206",
                          str(len(part) + 1048576), "1048576", "-", str(cached)]) + "\r\n"

    kind = "Content-Type: application/cdni; ptype=ci-trigger-status\r\n"
    requests = [
        ranged(9), ranged(10), control("POST", "/triggers", f"Content-Length: {len(command)}\r\n\r\n{command}"),
        control("GET", "/triggers/1"), ranged(10), control("POST", "/logs"), control("GET", "/logs/1", "Connection: close\r\n\r\n"),
    ]
    written = taken + taken + [
        [whole("201 Created", kind + "Location: http://control.example/triggers/1\r\n", resource("pending")), 1],
        [whole("200 OK", kind, resource("complete")), 1],
    ] + taken + [
        [whole("201 Created", "Location: http://control.example/logs/1\r\n", ""), 1],
        [whole("200 OK", "Content-Type: application/cdni; ptype=logging-file\r\nConnection: close\r\n",
               log_file([row(9, 0), row(10, 1), row(10, 0)])), 1],
    ]
    asks = [["up.example", "/i"], ["up.example", "/video"], ["up.example", "/www"],
            ["o.example", "/seg/1.ts?session=9"], ["o.example", "/seg/1.ts?session=10"]]
    return case("a realistic connection", [document(root), document(video), document(www), segment, segment],
                requests, written, "Closed", asks)


print(json.dumps({"answer": answer, "connection": connection}[sys.argv[1]]()))
