#!/usr/bin/env python3
"""Draws the two pictures of ARCHITECTURE.md: layers.svg from crates.txt, and request.svg from the table in "The way of a request".

Usage: docs/pictures.py           draws both anew
       docs/pictures.py --check   draws nothing; status 1 where a committed picture is another one than it would draw

Both need that what they are drawn from is so, and end with status 1 where it is not: a crate stands only on crates above it, in crates.txt and in the
table in "Layers", which have the same crates; and each crate and call that "The way of a request" names is one.
"""
import pathlib
import re
import sys
from xml.sax.saxutils import escape

DOCS = pathlib.Path(__file__).resolve().parent
ROOT = DOCS.parent
WIDTH, MARGIN = 1000, 24
NOT_LAYERS = ("tests", "benchmarks")
# Widths of a letter as a part of its size: of any monospaced face, and of sans-serif faces at the most.
MONO, SANS = 0.61, 0.56
STYLE = """
.paper{fill:#ffffff}
.band{fill:#f3f5f9;stroke:#c3cbd9}
.box{fill:#ffffff;stroke:#5b6b86}
.law{fill:#ffffff;stroke:#5b6b86;stroke-dasharray:5 3}
.side{fill:#fff6e0;stroke:#b58a2c}
.call{fill:#e8f4ec;stroke:#3f8a5b}
.line{stroke:#5b6b86;fill:none}
.head{fill:#5b6b86}
text{font-family:'DejaVu Sans',Verdana,'Segoe UI',Helvetica,Arial,sans-serif;fill:#1c2433}
.code{font-family:'DejaVu Sans Mono',Menlo,Consolas,monospace}
.soft{fill:#4d5a70}
@media (prefers-color-scheme:dark){
.paper{fill:#11161f}
.band{fill:#1a212d;stroke:#3b475b}
.box,.law{fill:#232d3d;stroke:#8fa1bf}
.side{fill:#33290f;stroke:#d0a64a}
.call{fill:#14301f;stroke:#5fb381}
.line{stroke:#8fa1bf}
.head{fill:#8fa1bf}
text{fill:#e8edf5}
.soft{fill:#aab6ca}
}
"""


def stop(why):
    sys.exit(f"pictures: {why}")


# ---- what is drawn


def read_crates():
    """The groups of crates.txt in order, each with its crates in order, and for each crate the crates of this repository that it stands on."""
    groups, stands = {}, {}
    for line in (ROOT / "crates.txt").read_text(encoding="utf-8").splitlines()[1:]:
        if line.startswith("#"):
            group = line[1:].strip()
            groups[group] = []
        elif line.strip():
            words, _, below = line.partition(":")
            name = words.split()[0]
            groups[group].append(name)
            stands[name] = below.split()
    for name, below in stands.items():
        stands[name] = [it for it in below if it in stands]
    return groups, stands


def rows_of(table_under, text):
    """The cells of the rows of the first table behind a heading."""
    part = text.partition(f"\n## {table_under}\n")[2].partition("\n## ")[0]
    rows = [line for line in part.splitlines() if line.startswith("|")]
    return [[cell.strip() for cell in row.strip("|").split("|")] for row in rows[2:]]


def must_agree(groups, stands, architecture):
    """Stops where crates.txt and the table of layers differ, or a crate stands on one that is not above it."""
    listed, group = {}, ""
    for row in rows_of("Layers", architecture):
        group = row[0] or group
        for name in re.findall(r"`(\w+)`", row[1]):
            listed[name] = group
    wanted = {name: group for group, names in groups.items() for name in names}
    if listed != wanted:
        stop(f"the table of layers and crates.txt differ: {sorted(set(listed.items()) ^ set(wanted.items()))}")
    for place, order in ("crates.txt", list(wanted)), ("the table of layers", list(listed)):
        for name, below in stands.items():
            for other in below:
                if order.index(other) > order.index(name):
                    stop(f"in {place} {name} stands on {other}, which is below it")


def read_steps(architecture, stands):
    """The steps of a request: number, what is done, who is outside, the call and its answers, and the crates."""
    history = "".join(file.read_text(encoding="utf-8") for file in (ROOT / "crates/history/src").glob("*.rt"))
    steps = rows_of("The way of a request", architecture)
    for step in steps:
        for name in re.findall(r"`(\w+)`", step[4]):
            if name not in stands:
                stop(f"the way of a request names {name}, which is no crate")
        for name in re.findall(r"`(\w+)`", step[3]):
            if not re.search(rf"^    {name}\b", history, re.M):
                stop(f"the way of a request names {name}, which is no call and no reply")
    return steps


# ---- drawing


def text(x, y, words, size, kind="", anchor="start"):
    return f'<text x="{x:g}" y="{y:g}" font-size="{size}" text-anchor="{anchor}" class="{kind}">{escape(words)}</text>'


def box(x, y, width, height, kind):
    return f'<rect x="{x:g}" y="{y:g}" width="{width:g}" height="{height:g}" rx="6" class="{kind}"/>'


def arrow(x, y, to_x, both=False):
    """A line with a head at its end, or at both."""

    def head(at, from_left):
        back = -8 if from_left else 8
        return f'<path d="M{at:g} {y:g}l{back} -4.5v9z" class="head"/>'

    forth = to_x > x
    return f'<path d="M{x:g} {y:g}H{to_x:g}" class="line"/>' + head(to_x, forth) + (head(x, not forth) if both else "")


def wrapped(words, width, size, part=SANS):
    """The words in lines that are no wider than this."""
    lines, most = [""], int(width / (size * part))
    for word in words.split():
        if lines[-1] and len(lines[-1]) + 1 + len(word) > most:
            lines.append("")
        lines[-1] = f"{lines[-1]} {word}".strip()
    return lines


def svg(height, title, parts, width=WIDTH):
    head = f'<svg xmlns="http://www.w3.org/2000/svg" viewBox="0 0 {width} {height:g}" width="{width}" height="{height:g}" role="img">'
    return "\n".join([head, f"<title>{escape(title)}</title>", f"<style>{STYLE}</style>", box(0, 0, width, height, "paper"), *parts, "</svg>"]) + "\n"


# ---- layers

BOX_HEIGHT, GAP, CODE, COUNT = 30, 10, 13, 11
# The height between two rows, through which lines go, and the width of a line that passes a row.
FALL, PASS = 30, 6
LEFT, LAYERS_WIDTH = 170, 1040


class Row:
    """The crates of a group that are equally high, in order, and the lines that pass between them, each with where its middle is."""

    def __init__(self):
        self.items, self.widths, self.middle = [], {}, {}

    def add(self, item, width):
        self.items.append(item)
        self.widths[item] = width

    def width(self):
        return sum(self.widths.values()) + GAP * (len(self.items) - 1)

    def spread(self, left, room):
        """Puts the items side by side, in the middle of the room."""
        x = left + (room - self.width()) / 2
        for item in self.items:
            self.middle[item] = x + self.widths[item] / 2
            x += self.widths[item] + GAP


def heights_of(names, stands):
    """How many rows below the top each crate is: just below the lowest of those of its group that use it."""
    heights = {}

    def height(name):
        if name not in heights:
            heights[name] = max([height(it) + 1 for it in names if name in stands[it]], default=0)
        return heights[name]

    for name in names:
        height(name)
    return heights


def nearest(names, stands):
    """For each crate those of its group that it stands on, without those that one of these stands on."""
    below = {}
    for name in stands:
        below[name] = set(stands[name]).union(*[below[it] for it in stands[name]])
    return {name: [it for it in stands[name] if it in names and not any(it in below[other] for other in stands[name])] for name in names}


def rows_of_group(names, stands, users):
    """The rows of a group from the top, and its lines: for each the item in each row from the one that stands to the one it stands on."""
    heights, lines = heights_of(names, stands), []
    rows = [Row() for _ in range(max(heights.values()) + 1)]
    for name in names:
        rows[heights[name]].add(name, len(name) * CODE * MONO + len(str(users[name])) * COUNT * MONO + 26)
    for name, others in nearest(names, stands).items():
        for other in others:
            line = [name]
            for at in range(heights[name] + 1, heights[other]):
                line.append((name, other, at))
                rows[at].add(line[-1], PASS)
            lines.append([*line, other])
    return rows, lines


def put_in_order(rows, lines, left, room):
    """Orders each row by the middles of what its items have lines to in the row above, and then below, some times."""
    near = {}
    for line in lines:
        for upper, lower in zip(line, line[1:]):
            near.setdefault(upper, ([], []))[1].append(lower)
            near.setdefault(lower, ([], []))[0].append(upper)
    for row in rows:
        row.spread(left, room)
    for turn in range(8):
        side, order = turn % 2, rows[1:] if turn % 2 == 0 else rows[-2::-1]
        for row in order:
            middles = {item: at for other in rows for item, at in other.middle.items()}

            def wanted(item):
                found = [middles[it] for it in near.get(item, ([], []))[side]]
                return sum(found) / len(found) if found else middles[item]

            row.items.sort(key=wanted)
            row.spread(left, room)


def draw_band(group, names, stands, groups, users, top):
    """A group from this height on: its parts, and how high it is."""
    left, room = MARGIN + LEFT, LAYERS_WIDTH - 2 * MARGIN - LEFT - GAP
    rows, lines = rows_of_group(names, stands, users)
    put_in_order(rows, lines, left, room)
    for row in rows:
        if row.width() > room:
            stop(f"a row of the group {group} is wider than the picture")
    below = [it for it in groups if it != group and any(other in groups[it] for name in names for other in stands[name])]
    said = wrapped(("stands on " + ", ".join(below)) if below else "stands on the kit alone", LEFT - 24, 12)
    inner = len(rows) * BOX_HEIGHT + (len(rows) - 1) * FALL
    title = wrapped(group, LEFT - 24, 16)
    height = max(inner + 2 * GAP, 20 * len(title) + len(said) * 17 + 24)
    parts = [box(MARGIN, top, LAYERS_WIDTH - 2 * MARGIN, height, "band")]
    for at, line in enumerate(title):
        parts.append(text(MARGIN + 16, top + 28 + 20 * at, line, 16))
    for at, line in enumerate(said):
        parts.append(text(MARGIN + 16, top + 28 + 20 * len(title) + 17 * at, line, 12, "soft"))
    tops = [top + (height - inner) / 2 + at * (BOX_HEIGHT + FALL) for at in range(len(rows))]
    place = {item: (middle, tops[at]) for at, row in enumerate(rows) for item, middle in row.middle.items()}
    for line in lines:
        x, y = place[line[0]]
        way = f"M{x:g} {y + BOX_HEIGHT:g}"
        for item in line[1:]:
            x, y = place[item]
            way += f"L{x:g} {y:g}"
            if item != line[-1]:
                way += f"V{y + BOX_HEIGHT:g}"
        parts.append(f'<path d="{way}" class="line"/><circle cx="{x:g}" cy="{y:g}" r="3" class="head"/>')
    for row in rows:
        for name in row.items:
            if name in stands:
                x, y = place[name]
                width = row.widths[name]
                parts.append(box(x - width / 2, y, width, BOX_HEIGHT, "law" if name.endswith("_law") else "box"))
                parts.append(text(x - width / 2 + 10, y + 20, name, CODE, "code"))
                parts.append(text(x + width / 2 - 8, y + 20, str(users[name]), COUNT, "code soft", "end"))
    return parts, height


def draw_layers(groups, stands):
    shown = {group: names for group, names in groups.items() if group not in NOT_LAYERS}
    users = {name: sum(name in below for below in stands.values()) for name in stands}
    parts, y = [], MARGIN
    for group in reversed(shown):
        drawn, height = draw_band(group, shown[group], stands, shown, users, y)
        parts += drawn
        y += height + 14
    for said in (
        "A line leads down to a crate of the same group on which the one above it stands; what follows from other lines has none.",
        "The number is how many crates use it, tests among them. Dashed: laws alone, no code of the program.",
    ):
        parts.append(text(MARGIN, y + 12, said, 13, "soft"))
        y += 20
    return svg(y + 14, "The crates by groups", parts, LAYERS_WIDTH)


# ---- the way of a request

OUT_WIDTH, STEP_WIDTH, CALL_WIDTH, BETWEEN = 150, 400, 258, 72


def plain(words):
    return words.replace("`", "")


def draw_step(step, top):
    """A step from this height on: its parts, and how high it is."""
    number, done, outside, call, crates = step
    said = wrapped(plain(done), STEP_WIDTH - 64, 14)
    names = wrapped(plain(crates), STEP_WIDTH - 64, 12, MONO)
    replies = wrapped(plain(call).partition(": ")[2], CALL_WIDTH - 28, 12, MONO) if call else []
    height = max(len(said) * 19 + len(names) * 16 + 22, len(replies) * 16 + 46 if call else 0)
    x, middle = MARGIN + OUT_WIDTH + BETWEEN, top + height / 2
    parts = [box(x, top, STEP_WIDTH, height, "box"), text(x + 24, middle + 7, number, 18, "soft", "middle")]
    for at, line in enumerate(said):
        parts.append(text(x + 50, top + 24 + 19 * at, line, 14))
    for at, line in enumerate(names):
        parts.append(text(x + 50, top + 22 + 19 * len(said) + 16 * at, line, 12, "code soft"))
    if outside:
        who = outside.partition(" ")[2]
        parts.append(box(MARGIN, middle - 22, OUT_WIDTH, 44, "side"))
        parts.append(text(MARGIN + OUT_WIDTH / 2, middle + 5, who, 14, "", "middle"))
        ends = (MARGIN + OUT_WIDTH + 4, x - 4)
        if outside.startswith("to "):
            ends = ends[::-1]
        parts.append(arrow(*[ends[0], middle, ends[1]], both=outside.startswith("asks ")))
    if call:
        at_x = x + STEP_WIDTH + BETWEEN
        parts.append(box(at_x, top, CALL_WIDTH, height, "call"))
        first = middle + 4 - 9 * len(replies)
        parts.append(text(at_x + 14, first, plain(call).partition(":")[0], 14, "code"))
        for at, line in enumerate(replies):
            parts.append(text(at_x + 14, first + 20 + 16 * at, line, 12, "code soft"))
        parts.append(arrow(x + STEP_WIDTH + 4, middle, at_x - 4, both=True))
    return parts, height


def draw_request(steps):
    x = MARGIN + OUT_WIDTH + BETWEEN
    parts = [
        text(MARGIN + OUT_WIDTH / 2, 38, "outside", 15, "soft", "middle"),
        text(x + STEP_WIDTH / 2, 38, "the connection, in one worker", 15, "soft", "middle"),
        text(x + STEP_WIDTH + BETWEEN + CALL_WIDTH / 2, 38, "the node, one call at a time", 15, "soft", "middle"),
    ]
    y = 56
    for at, step in enumerate(steps):
        drawn, height = draw_step(step, y)
        parts += drawn
        if at + 1 < len(steps):
            middle = x + STEP_WIDTH / 2
            parts.append(f'<path d="M{middle:g} {y + height:g}v18" class="line"/><path d="M{middle:g} {y + height + 22:g}l-4.5 -8h9z" class="head"/>')
        y += height + 22
    return svg(y + 4, "The way of a request", parts)


def main():
    if sys.argv[1:] not in ([], ["--check"]):
        stop("usage: docs/pictures.py [--check]")
    groups, stands = read_crates()
    architecture = (DOCS / "ARCHITECTURE.md").read_text(encoding="utf-8")
    must_agree(groups, stands, architecture)
    drawn = {"layers.svg": draw_layers(groups, stands), "request.svg": draw_request(read_steps(architecture, stands))}
    for name, picture in drawn.items():
        file = DOCS / name
        if sys.argv[1:] == ["--check"]:
            if not file.exists() or file.read_text(encoding="utf-8") != picture:
                stop(f"docs/{name} is another one than would be drawn: run docs/pictures.py")
        else:
            file.write_text(picture, encoding="utf-8")


main()
