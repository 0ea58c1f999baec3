#!/usr/bin/env python3
"""Makes the log files in the cases of `session_cases` again, from the calls that stand in each case, and compares them or writes them anew.

What is made: each text of a log file, with its UUID, its records and the SHA-256 of all bytes before the last line, wherever a case has it: behind `log`,
in the reply to a call that reads a log file, and in what the client was sent, whose Content-Length is made again too. A record is made of its Admit, its
reply and its Finish, of the client's place and of the settings; its s-ccid alone is taken from the text that stands there, since it comes of the metadata.
The other parts of a case were made outside this repository, by a program that is not this one.
Whoever changes what stands in a log file changes `record` and `file_of` here, and then writes.
Usage: bench/tools/session_cases.py           compares; status 1 where a text is another one
       bench/tools/session_cases.py --write   writes the lines of crates/session_cases/stdin anew whose texts are others"""
import datetime
import hashlib
import json
import pathlib
import re
import sys
import uuid

FILE = pathlib.Path(__file__).resolve().parents[2] / "crates/session_cases/stdin"
FIELDS = ("date time time-taken c-groupid cs-method cs-uri u-uri protocol sc-status sc-total-bytes sc-entity-bytes s-ccid s-cached").split()
# the last moment that has a date
LAST = 253402300799999
# how a line may be laid out
LAYOUTS = [{}, {"separators": (",", ":")}, {"separators": (",", ":"), "ensure_ascii": False}, {"ensure_ascii": False}]


def joined(value):
    """A text, or a list of texts with how often each stands there."""
    return value if isinstance(value, str) else "".join(text * times for text, times in value)


def quoted(text):
    return "-" if text is None else '"' + text.replace('"', '""') + '"'


def url_of(settings, asked):
    scheme = settings["protocol"].partition("/")[0]
    port = "" if asked["port"] == 80 else f":{asked['port']}"
    query = "" if asked["query"] is None else f"?{asked['query']}"
    return f"{scheme}://{asked['host']}{port}{asked['path']}{query}"


def seconds(milliseconds):
    return f"{milliseconds // 1000}.{milliseconds % 1000:03}"


def record(settings, fields, delivery, finish, ccid):
    """The line of a record, without its end."""
    asked, peer = delivery["asked"], delivery["peer"]
    moment = min(finish["moment"], LAST)
    day = datetime.datetime(1970, 1, 1) + datetime.timedelta(milliseconds=moment)
    url = url_of(settings, asked)
    values = {
        "date": f"{day:%Y-%m-%d}".rjust(10, "0"),
        "time": f"{day:%H:%M:%S}.{moment % 1000:03}",
        "time-taken": seconds(max(finish["moment"] - asked["moment"], 0)),
        "c-groupid": "-" if peer["asn"] is None else f"as{peer['asn']}",
        "cs-method": asked["method"], "cs-uri": url, "u-uri": url, "protocol": "HTTP/1.1",
        "sc-status": str(finish["status"]), "sc-total-bytes": str(finish["total"]), "sc-entity-bytes": str(finish["entity"]),
        "s-ccid": ccid, "s-cached": "1" if delivery["reply"].startswith("hit ") else "0",
    }
    extra = iter(asked.get("extra", []))
    return "\t".join(quoted(next(extra)) if name.startswith("cs(") else values[name] for name in fields)


def file_of(case, fields, number, moment, records):
    name = uuid.uuid5(uuid.NAMESPACE_URL, f"{case['origin']}/{number}/{moment}")
    lines = ["#version:\tcdni/1.0", f'#UUID:\t"urn:uuid:{name}"', f"#claimed-origin:\t{case['origin']}", "#record-type:\tcdni_http_request_v1",
             "#fields:\t" + "\t".join(fields), *records]
    text = "".join(f"{line}\r\n" for line in lines)
    return text + f"#SHA256-hash:\t{hashlib.sha256(text.encode('latin-1')).hexdigest()}\r\n"


def ccids_of(text, fields):
    """The values of s-ccid in the records of a text, in order."""
    records = [line for line in text.split("\r\n") if line and not line.startswith("#")]
    if "s-ccid" not in fields:
        return ["-"] * len(records)
    return [line.split("\t")[fields.index("s-ccid")] for line in records]


class Made:
    """The log files of one case, by the calls that stand in it."""

    def __init__(self, case):
        self.case = case
        self.fields = case["settings"].get("fields", FIELDS)
        self.open, self.unfiled, self.files, self.count = {}, [], {}, 0

    def take(self, call, peer):
        reply = call["reply"]
        word, _, rest = reply.partition(" ")
        if call["call"] == "Admit" and word in ("hit", "miss", "denied"):
            self.open[int(rest.split(" ")[0])] = {"asked": call, "peer": peer, "reply": reply}
        elif call["call"] == "Finish" and word == "logged":
            self.unfiled.append((self.open.pop(call["delivery"]), call))
        elif call["call"] == "Cut" and word == "file":
            self.files[int(rest)] = (call["moment"], self.unfiled)
            self.unfiled = []

    def text(self, number, was):
        """The text of a log file, where this one stood."""
        moment, rows = self.files[number]
        ccids = ccids_of(was, self.fields)
        ccids += ["-"] * (len(rows) - len(ccids))
        records = [record(self.case["settings"], self.fields, *row, ccid) for row, ccid in zip(rows, ccids)]
        self.count += 1
        return file_of(self.case, self.fields, number, moment, records)


def sent_anew(written, texts):
    """What a client was sent, with each of these texts in the place of the one before it, and with its length. What was cut short is left as it is."""
    for was, now in texts:
        for piece in written:
            if isinstance(piece[0], str) and piece[0].endswith("\r\n\r\n" + was):
                head = piece[0][: -len(was)]
                piece[0] = re.sub(r"(\r\nContent-Length: )\d+", rf"\g<1>{len(now)}", head) + now
    return written


def anew(case):
    """How many log files were made of a case, in which they are put in the place of those that stand there."""
    made = Made(case)
    for connection in case["connections"]:
        texts = []
        for call in connection["calls"]:
            made.take(call, connection["peer"])
            if call["call"] == "LogFile" and call["reply"].startswith("text "):
                was = call["reply"].partition("\n")[2].removesuffix("\n")
                now = made.text(call["number"], was)
                texts.append((was, now))
                call["reply"] = f"text {len(now)}\n{now}" + ("\n" if call["reply"].endswith("\r\n\n") else "")
        connection["written"] = sent_anew(connection["written"], texts)
    if case.get("log"):
        made.take({"call": "Cut", **case["cut"]}, None)
        case["log"] = made.text(int(case["cut"]["reply"].partition(" ")[2]), joined(case["log"]))
    return made.count


def laid_out(line, case):
    """The case as a line that is laid out as this one was."""
    was = json.loads(line)
    layout = next((it for it in LAYOUTS if json.dumps(was, **it) == line), LAYOUTS[1])
    return json.dumps(case, **layout)


def main():
    if sys.argv[1:] not in ([], ["--write"]):
        sys.exit(__doc__)
    lines = FILE.read_bytes().decode("utf-8").removesuffix("\n").split("\n")
    count, others = 0, []
    for at, line in enumerate(lines):
        case = json.loads(line)
        count += anew(case)
        if case != json.loads(line):
            others.append(case["case"])
            lines[at] = laid_out(line, case)
    print(f"{count} log files in {len(lines)} cases were made again; those of {len(others)} cases are others{': ' * bool(others)}{', '.join(others)}")
    if sys.argv[1:]:
        FILE.write_bytes("".join(f"{line}\n" for line in lines).encode("utf-8"))
    elif others:
        sys.exit(1)


main()
