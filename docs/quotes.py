#!/usr/bin/env python3
"""Sees that each quote of docs/BELIEVE.md stands in the file that its heading names, or in one that is named before it in that part.

Usage: docs/quotes.py   (ends with status 1 where a quote stands in none of them)"""
import os
import re
import sys

ROOT = os.path.dirname(os.path.dirname(os.path.abspath(__file__)))
PAGE = f"{ROOT}/docs/BELIEVE.md"
NAMED = re.compile(r"(?:crates|bench|docs)/[\w./-]+\.(?:rt|antt|edit|py)")


def read(path):
    with open(path, encoding="utf-8") as file:
        return file.read()


def main():
    missing = 0
    for part in re.split(r"^#{2,3} ", read(PAGE), flags=re.M):
        for quote in re.finditer(r"^```\w*\n(.*?)^```$", part, re.S | re.M):
            files = [it for it in NAMED.findall(part[: quote.start()]) if os.path.isfile(f"{ROOT}/{it}")]
            if not any(quote.group(1) in read(f"{ROOT}/{it}") for it in files):
                print(f"{part.splitlines()[0]}: no file that is named before it has this:\n{quote.group(1)}", file=sys.stderr)
                missing += 1
    return 1 if missing else 0


if __name__ == "__main__":
    sys.exit(main())
