#!/usr/bin/env python3
"""Sees that each name in docs/STANDARDS.md that has a crate behind it, as in `name` (`crate`), stands in a file of that crate.

Names that stand before one with a crate, with nothing but commas between, are of the same crate.
Usage: docs/standards.py   (ends with status 1 where a name stands in no file of its crate)"""
import pathlib
import re
import sys

ROOT = pathlib.Path(__file__).resolve().parent.parent
NAMES = re.compile(r"((?:`\w+`, )*`\w+`)(?: and \w+ more)? \(`(\w+)`\)")
PARTS = ("src", "specs", "must-fail", "wrong-bodies")


def texts_of(crate):
    """The names of the crate's wrong bodies, and all that its sources and definitions say."""
    files = [it for part in PARTS for it in sorted((ROOT / f"crates/{crate}/{part}").rglob("*")) if it.is_file()]
    return "\n".join(it.stem if it.suffix == ".edit" else it.read_text(encoding="utf-8") for it in files)


def main():
    page = (ROOT / "docs/STANDARDS.md").read_text(encoding="utf-8")
    texts, count, missing = {}, 0, 0
    for names, crate in NAMES.findall(page):
        text = texts.setdefault(crate, texts_of(crate))
        for name in re.findall(r"`(\w+)`", names):
            count += 1
            if not re.search(rf"\b{name}\b", text):
                missing += 1
                print(f"{name} stands in no file of {crate}")
    print(f"{count} names in docs/STANDARDS.md, {missing} of them in no file of their crates")
    return 1 if missing else 0


if __name__ == "__main__":
    sys.exit(main())
