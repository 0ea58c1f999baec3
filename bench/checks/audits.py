"""Audits the log files of generated scripts, and those of the cases: see audits.sh."""
import json
import re
import subprocess
import sys

FILE = re.compile(r"#version:\tcdni/1\.0\r\n.*?#SHA256-hash:\t[0-9a-f]{64}\r\n", re.S)
PROGRAM, ROUNDS, SEEDS = sys.argv[1], sys.argv[2], int(sys.argv[3])


def run(command, given):
    """What the program writes, its notes, and its status."""
    ran = subprocess.run([PROGRAM, *command], input=given, capture_output=True)
    return ran.stdout, ran.stderr, ran.returncode


def files_of(script):
    """The script's log files: it is replayed with a cut and a look at each file behind its last line."""
    passed = script.rstrip(b"\n").rsplit(b"\n", 1)[-1].split(b" ")[:2]
    ends = [b" ".join([*passed, word]) for word in (b"cut", *(b"log %d" % number for number in range(64)))]
    answers = run(["replay"], script + b"\n".join(ends) + b"\n")[0]
    for found in re.finditer(rb"^text (\d+)\n", answers, re.M):
        yield answers[found.end():found.end() + int(found.group(1))]


def texts_in(value):
    """All strings of a JSON value."""
    if isinstance(value, str):
        yield value
    elif isinstance(value, (list, dict)):
        for inner in value.values() if isinstance(value, dict) else value:
            yield from texts_in(inner)


def files_of_cases():
    """The log files that the cases of connections and the worked scripts have."""
    with open("crates/session_cases/stdin") as lines:
        found = {text for line in lines if line.startswith("{") for inner in texts_in(json.loads(line)) for text in FILE.findall(inner)}
    with open("crates/batch_cases/stdout", newline="", encoding="latin-1") as printed:
        return found | set(FILE.findall(printed.read()))


def audit_cases():
    """Each log file of the cases must be accepted."""
    cases = files_of_cases()
    for text in cases:
        assert run(["audit"], text.encode("latin-1"))[2] == 0, text
    print(f"{len(cases)} log files of the cases are accepted")
    return len(cases)


def main():
    files = records = 0
    for seed in range(SEEDS):
        script = run(["generate", ROUNDS, str(seed)], b"")[0]
        for text in files_of(script):
            told, noted, status = run(["audit"], text)
            rows = [line for line in text.decode().split("\r\n") if line and not line.startswith("#")]
            lines = told.decode().split("\n")
            assert status == 0 and noted == b"", (seed, noted)
            assert lines[:-2] == rows and lines[-2].startswith(f"records {len(rows)} total "), (seed, lines[-2])
            at = records % (len(text) - 1)
            changed = text[:at] + bytes([text[at] ^ 1]) + text[at + 1:]
            assert run(["audit"], changed)[2] == 1, (seed, at)
            files, records = files + 1, records + len(rows)
    print(f"{SEEDS} scripts of {ROUNDS} rounds: {records} records in {files} files are accepted, and no file with one bit changed")
    sys.exit(0 if files and audit_cases() else 1)


main()
