#!/usr/bin/env python3
"""Milliseconds that `cdnid replay` takes for the end of a fetch that keeps an object, behind an invalidate by a pattern which hits nothing,
over so many kept objects of 2 bytes: directly behind it, and with so many hits between them. Usage: sweep.py PROGRAM OBJECTS HITS"""
import json
import subprocess
import sys
import time

program, objects, hits = sys.argv[1], int(sys.argv[2]), int(sys.argv[3])
source = {"generic-metadata-type": "MI.SourceMetadata", "generic-metadata-value": {"sources": [{"endpoints": ["o.example"], "protocol": "http/1.1"}]}}
metadata = {"hosts": [{"host": "v.example", "host-metadata": {"metadata": [source]}}]}
node = subprocess.Popen([program, "replay"], stdin=subprocess.PIPE, stdout=subprocess.PIPE)
fetches = deliveries = files = triggers = 0


def get(path):
    return f"0 2000 get GET http/1.1 192.0.2.7 as64496 us http://v.example/{path}\n"


# gives the lines, reads their answers, and tells the milliseconds from the first byte to the last
def play(lines):
    began = time.perf_counter()
    node.stdin.write("".join(lines).encode())
    node.stdin.flush()
    answers = [node.stdout.readline() for _ in lines]
    return (time.perf_counter() - began) * 1000, answers


# misses that are kept, whose rows are in log files that are dropped
def keep(paths):
    global fetches, deliveries, files
    for start in range(0, len(paths), 500):
        lines = []
        for path in paths[start:start + 500]:
            fetches, deliveries = fetches + 1, deliveries + 1
            lines += [get(path), f"0 2000 got {fetches} 200 text/plain 6162\n", f"0 2000 finish {deliveries} 200 200 2\n"]
        files += 1
        play(lines + ["0 2000 cut\n", f"0 2000 droplog {files}\n"])


def invalidate():
    global triggers
    triggers += 1
    command = {"cdn-path": [], "trigger": {"type": "invalidate", "content.patterns": [{"pattern": "*/none/*"}]}}
    _, answers = play([f"0 3000 command {json.dumps(command)}\n", f"0 3000 advance {triggers}\n", f"0 3000 advance {triggers}\n"])
    assert answers[-1].startswith(b"final complete"), answers


# hits, whose deliveries end
def hit(count):
    global deliveries, files
    for start in range(0, count, 500):
        lines = []
        for number in range(start, min(start + 500, count)):
            deliveries += 1
            lines += [get(f"films/{number * 7919 % objects:07}"), f"0 2000 finish {deliveries} 200 200 2\n"]
        files += 1
        _, answers = play(lines + ["0 2000 cut\n", f"0 2000 droplog {files}\n"])
        assert answers[0].startswith(b"hit"), answers[0]


# the end of a fetch that is kept
def fetched(path):
    global fetches, deliveries
    fetches, deliveries = fetches + 1, deliveries + 1
    play([get(path)])
    took, answers = play([f"0 2000 got {fetches} 200 text/plain 6162\n"])
    assert answers[0] == b"ended kept\n", answers
    play([f"0 2000 finish {deliveries} 200 200 2\n"])
    return took


play(["limits 1073741824 100000 10000 64 60000 4611686018427387904\n0 1000 refresh\n"])
play([f"0 1000 meta 1 http://up.example/i {json.dumps(metadata)}\n"])
keep([f"films/{number:07}" for number in range(objects)])
plain = min(fetched(f"plain/{number}") for number in range(5))
invalidate()
swept = fetched("swept")
invalidate()
hit(hits)
walked = fetched("walked")
node.stdin.close()
node.wait()
print(f"{objects} objects: the end of a fetch takes {plain:.3f} ms; behind an invalidate by a pattern {swept:.1f} ms, and with {hits} hits between them {walked:.3f} ms")
sys.exit(0 if walked <= 10 else 1)
