#!/usr/bin/env python3
"""Runs the gate as `rt ci` does, and writes down how long each of its tasks took: the proof, the tests and the wrong bodies of each crate.

With `ways` it runs nothing, and prints what makes a task long beside its proof: how many ways lead through crates.txt from a library to those
below it, since `rt ci` sums up a library's sources, before and after its proof, once for each of them (some two milliseconds a way, one at
a time); and how many gigabytes `rt ci` sets aside for a task, since it starts none that its memory does not hold.
Usage: bench/tools/gate.py OUT | ways"""
import functools
import importlib.machinery
import importlib.util
import os
import sys
import time

sys.dont_write_bytecode = True


def the_kit():
    loader = importlib.machinery.SourceFileLoader("rt", "/opt/rattle/bin/rt")
    kit = importlib.util.module_from_spec(importlib.util.spec_from_loader("rt", loader))
    loader.exec_module(kit)
    return kit


def timed(tasks, run, out):
    """Runs the tasks by `run`, and writes a line for each that ends: its crate, what it is, jobs, and seconds from the start and in all."""
    began = time.time()

    def with_times(key, call):
        def work(given, jobs):
            start = time.time()
            result = call(given, jobs)
            if time.time() - start > 1:
                print(*key, jobs, f"{start - began:.0f}", f"{time.time() - start:.0f}", file=out, flush=True)
            return result

        return work

    result = run({key: (*task[:3], with_times(key, task[3])) for key, task in tasks.items()})
    print("all", f"{time.time() - began:.0f}", file=out, flush=True)
    return result


def print_ways(kit):
    kit.rtlib.Crate = kit.Crate
    crates = {it.name: it for it in kit.rtlib.crates_below(os.getcwd())}

    @functools.lru_cache(None)
    def ways(name):
        return 1 + sum(ways(it.name) for it in crates[name].deps)

    for name in sorted(crates, key=ways):
        kind = "program" if crates[name].is_program else "library"
        print(f"{name:18} {kind} {ways(name):7} ways {kit.need(crates[name]) / 1e9:4.1f} GB")


def main(word):
    os.chdir(os.path.dirname(os.path.dirname(os.path.dirname(os.path.abspath(__file__)))))
    sys.argv = ["rt"]
    kit = the_kit()
    if word == "ways":
        return print_ways(kit)
    with open(word, "w", encoding="ascii") as out:
        run = kit.in_lanes
        kit.in_lanes = lambda tasks: timed(tasks, run, out)
        return kit.main(["ci"])


if __name__ == "__main__":
    if len(sys.argv) != 2:
        sys.exit(__doc__)
    sys.exit(main(sys.argv[1] if sys.argv[1] == "ways" else os.path.abspath(sys.argv[1])))
