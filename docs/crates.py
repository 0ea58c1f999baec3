#!/usr/bin/env python3
"""Writes crates/README.md: the crates of crates.txt by their groups, each with the first sentence of its root file and the crates that use it.

Usage: docs/crates.py           writes the page anew
       docs/crates.py --check   writes nothing; status 1 where the page is another one than it would write
"""
import pathlib
import re
import sys

ROOT = pathlib.Path(__file__).resolve().parent.parent
PAGE = ROOT / "crates/README.md"
HEAD = """# The crates

Written by `docs/crates.py` from `crates.txt` and from the first sentence of each crate's root file: do not edit it. A crate is used by those whose line
in `crates.txt` names it. [ARCHITECTURE.md](../docs/ARCHITECTURE.md) says what each stands on, and how a request goes through them;
[CHANGING.md](../docs/CHANGING.md) how a crate is laid out; [GLOSSARY.md](../docs/GLOSSARY.md) what its words mean.
"""


def stop(why):
    sys.exit(f"crates: {why}")


def read_crates():
    """The groups of crates.txt in order, each with its crates in order, and for each crate those whose lines name it."""
    groups, users, named = {}, {}, []
    for line in (ROOT / "crates.txt").read_text(encoding="utf-8").splitlines()[1:]:
        if line.startswith("#"):
            group = groups.setdefault(line[1:].strip(), [])
        elif line.strip():
            words, _, below = line.partition(":")
            name = words.split()[0]
            group.append(name)
            users[name] = []
            named.append((name, below.split()))
    for name, below in named:
        for other in below:
            if other in users:
                users[other].append(name)
    return groups, users


def sentence_of(name):
    """The first sentence of the comment with which the crate's root file begins."""
    file = next((it for it in (ROOT / f"crates/{name}/src/lib.rt", ROOT / f"crates/{name}/src/main.rt") if it.exists()), None)
    if not file:
        stop(f"{name} has neither src/lib.rt nor src/main.rt")
    comment = re.match(r"(?://!.*\n)+", file.read_text(encoding="utf-8"))
    if not comment:
        stop(f"{file.relative_to(ROOT)} begins with no //! comment")
    text = " ".join(line[3:].strip() for line in comment[0].splitlines())
    return re.match(r".*?\.(?=\s+[A-Z`]|\s*$)|.*", text)[0].replace("|", "\\|")


def page():
    groups, users = read_crates()
    parts = [HEAD]
    for group, names in groups.items():
        parts.append(f"\n## {group}\n\n| Crate | What it is | Used by |\n|---|---|---|\n")
        for name in names:
            used = ", ".join(f"`{it}`" for it in users[name])
            parts.append(f"| [{name}]({name}) | {sentence_of(name)} | {used} |\n")
    return "".join(parts)


def main():
    if sys.argv[1:] not in ([], ["--check"]):
        stop("usage: docs/crates.py [--check]")
    text = page()
    if not sys.argv[1:]:
        PAGE.write_text(text, encoding="utf-8")
    elif not PAGE.exists() or PAGE.read_text(encoding="utf-8") != text:
        stop("crates/README.md is another one than would be written: run docs/crates.py")


main()
