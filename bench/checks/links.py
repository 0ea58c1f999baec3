"""Looks for dead links, and for names of files that are not there, in README.md and docs/: see docs.sh."""
import pathlib
import re
import sys

ROOT = pathlib.Path(__file__).resolve().parents[2]
LINK = re.compile(r"!?\[[^\]]*\]\(([^)\s]+)\)")
# A path in code: of the repository, or of a crate.
PATH = re.compile(r"(?:bench|docs|crates)/[\w./-]+|\w+/(?:src|specs|proofs|must-fail|wrong-bodies)/[\w./-]+")


def without_blocks(text):
    return re.sub(r"^```.*?^```$", "", text, flags=re.S | re.M)


def anchors(file):
    """The anchors of a page's headings, as they are made of them."""
    text = without_blocks(file.read_text(encoding="utf-8"))
    return {re.sub(r"[^\w\- ]", "", title.strip().lower()).replace(" ", "-") for title in re.findall(r"^#+ (.+)$", text, re.M)}


def faults_of(page):
    text = without_blocks(page.read_text(encoding="utf-8"))
    for link in LINK.findall(text):
        place, _, anchor = link.partition("#")
        if re.match(r"[a-z]+:", link):
            yield f"{link} leads out of the repository, and was not looked at"
            continue
        file = (page.parent / place).resolve() if place else page
        if not file.exists():
            yield f"{link}: no such file"
        elif anchor and anchor not in anchors(file):
            yield f"{link}: no such heading"
    for code in re.findall(r"`([^`\n]+)`", text):
        for path in PATH.findall(code):
            path = path.rstrip(".")
            if "/out/" in path or any((it / path).exists() for it in (ROOT, ROOT / "crates", ROOT / "docs")):
                continue
            yield f"`{path}`: no such file"


def main():
    pages, links, faults = [ROOT / "README.md", *sorted((ROOT / "docs").glob("*.md"))], 0, 0
    for page in pages:
        links += len(LINK.findall(without_blocks(page.read_text(encoding="utf-8"))))
        for fault in faults_of(page):
            faults += 1
            print(f"{page.relative_to(ROOT)}: {fault}")
    print(f"{links} links in {len(pages)} pages, {faults} faults")
    sys.exit(1 if faults else 0)


main()
