"""Compares two profiles of callgrind: what a step takes, as the slope between them, and how it is shared among the crates.

Usage: session_shares.py FEW MANY STEPS PROGRAM. The first line says `N instructions, M allocations`, without those of the crate PROGRAM,
which stands between what is measured and its home; the others say the share of each crate.
"""
import collections
import re
import sys

ALLOCATOR = re.compile(r"(malloc|calloc|realloc|posix_memalign|aligned_alloc)$")
LIBC = re.compile(r"(malloc|calloc|realloc|free|mem(cpy|move|set|cmp|chr)|_int_|unlink_chunk|sysmalloc)")


def names(text, known):
    """The name that `(id) name` or `(id)` stands for."""
    number, name = re.match(r"\((\d+)\)\s*(.*)", text).groups()
    if name:
        known[number] = name
    return known[number]


def read(path):
    """The instructions of each function by itself, and the calls of the allocator."""
    known, own, allocations = {}, collections.Counter(), 0
    function, callee, is_call = None, None, False
    for line in open(path):
        line = line.rstrip("\n")
        if line.startswith("fn="):
            function = names(line[3:], known)
        elif line.startswith("cfn="):
            callee = names(line[4:], known)
        elif line.startswith("calls="):
            is_call = True
            if ALLOCATOR.search(callee):
                allocations += int(line[6:].split()[0])
        elif re.match(r"[\d+*-]", line) and function is not None:
            if not is_call:
                own[function] += int(line.split()[1])
            is_call = False
    return own, allocations


def crate_of(function):
    """The crate of a function, by its name."""
    if LIBC.search(function):
        return "allocator and copies"
    return re.split(r"::|\.", function.lstrip("<"))[0]


def main():
    few, many, steps, program = sys.argv[1], sys.argv[2], int(sys.argv[3]), sys.argv[4]
    (own, allocations), (more, more_allocations) = read(few), read(many)
    crates = collections.Counter()
    for function in more:
        crates[crate_of(function)] += more[function] - own[function]
    beside = crates.pop(program, 0)
    print(f"{sum(crates.values()) // steps} instructions, {(more_allocations - allocations) // steps} allocations")
    print(f"  and {beside // steps} of {program} itself")
    for crate, count in crates.most_common():
        if count >= steps:
            print(f"  {crate} {count // steps}")


main()
