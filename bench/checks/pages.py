"""Runs the commands of a page as they stand there, and compares what they print with what stands behind them: see operating.sh."""
import difflib
import re
import subprocess
import sys

# A block of commands, and the block of what they printed, where one follows.
BLOCK = re.compile(r"^```sh\n(?P<commands>.*?)^```\n(?:\n```\n(?P<printed>.*?)^```\n)?", re.S | re.M)
MARK = "@@ block {} @@"
# What differs from run to run: dates, moments, times, UUIDs, hashes, and the numbers of bytes and seconds that are measured.
CHANGING = [
    (r"[A-Z][a-z]{2}, \d\d [A-Z][a-z]{2} \d{4} \d\d:\d\d:\d\d GMT", "DATE"),
    (r"\d{4}-\d\d-\d\d", "DAY"),
    (r"\d\d:\d\d:\d\d\.\d{3}", "TIME"),
    (r"\t\d+\.\d{3}\t", "\tTAKEN\t"),
    (r'"([cm])time":\d+', r'"\1time":MOMENT'),
    (r"[0-9a-f]{8}-[0-9a-f]{4}-[0-9a-f]{4}-[0-9a-f]{4}-[0-9a-f]{12}", "UUID"),
    (r"[0-9a-f]{64}", "HASH"),
    (r"/tmp/tmp\.\w+", "FOLDER"),
    (r"\b\d+(\.\d+)? (ms|s|kB|MB)\b", r"NUMBER \2"),
]


def unchanging(text):
    for pattern, word in CHANGING:
        text = re.sub(pattern, word, text)
    return text


def run(blocks):
    """What each block prints, of one shell that runs them in order."""
    parts = ["trap 'kill $(jobs -p) 2>/dev/null' EXIT\n"]
    for number, block in enumerate(blocks):
        parts.append(f"echo '{MARK.format(number)}'\n{block['commands']}")
    ran = subprocess.run(["bash", "-c", "".join(parts)], stdin=subprocess.DEVNULL, stdout=subprocess.PIPE, stderr=subprocess.STDOUT)
    text = ran.stdout.decode("utf-8", "replace").replace("\r\n", "\n")
    printed, rest = [], text
    for number in range(len(blocks)):
        rest = rest.partition(MARK.format(number) + "\n")[2]
        printed.append(rest.partition(MARK.format(number + 1) + "\n")[0])
    return printed


def shown(block, printed):
    """The block as it stands in a page, with what it printed."""
    text = f"```sh\n{block['commands']}```\n"
    if printed and not printed.endswith("\n"):
        printed += "\n"
    return text + (f"\n```\n{printed}```\n" if printed else "")


def main():
    writes, page = "--write" in sys.argv, [it for it in sys.argv[1:] if it != "--write"][0]
    with open(page, encoding="utf-8") as file:
        text = file.read()
    blocks = list(BLOCK.finditer(text))
    all_printed, differing = run(blocks), 0
    for block, printed in zip(blocks, all_printed):
        if printed and not printed.endswith("\n"):
            printed += "\n"
        was, now = unchanging(block["printed"] or ""), unchanging(printed)
        if was != now and not writes:
            differing += 1
            sys.stdout.writelines(difflib.unified_diff(was.splitlines(True), now.splitlines(True), f"{page} says", "printed now"))
    if writes:
        again = iter(all_printed)
        with open(page, "w", encoding="utf-8") as file:
            file.write(BLOCK.sub(lambda block: shown(block, next(again)), text))
    print(f"{page}: {len(blocks)} blocks of commands run" + (", their output written" if writes else f", {differing} of them print something else"))
    sys.exit(1 if differing else 0)


main()
