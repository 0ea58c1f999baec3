"""Prints the resident memory of `cdnid replay --summary`, in KiB, after 1,000,000 and after 10,000,000 calls of one script."""
import re
import subprocess
import sys
import time

POINTS = (1_000_000, 10_000_000)
GET = "0 2000 get GET http/1.1 192.0.2.7 as64496 us http://v.example/films/{}\n"


def first_lines():
    with open("crates/cdnid/stdin", encoding="ascii") as file:
        return ["limits 65536 100000 1000 16 60000 4611686018427387904\n", *file.readlines()[:2]]


def rounds():
    """A miss, the end of its fetch, a hit, and both ends; after each thousand a log file is cut and dropped."""
    number = 0
    while True:
        number += 1
        lines = [
            GET.format(number),
            f"0 2000 got {number} 200 video/mp2t 30313233343536373839616263646566\n",
            GET.format(number),
            f"0 3000 finish {2 * number - 1} 200 150 16\n",
            f"0 3000 finish {2 * number} 200 150 16\n",
        ]
        if number % 1000 == 0:
            lines += ["0 3000 cut\n", f"0 3000 droplog {number // 1000}\n"]
        yield lines


def resident(child):
    with open(f"/proc/{child.pid}/status", encoding="ascii") as it:
        return int(re.search(r"VmRSS:\s*(\d+)", it.read())[1])


def used(child):
    """The processor time that the program has taken, in ticks."""
    with open(f"/proc/{child.pid}/stat", encoding="ascii") as it:
        fields = it.read().rsplit(")", 1)[1].split()
    return int(fields[11]) + int(fields[12])


def settled(child):
    """Waits until the program takes no more time, that is until it waits for more lines."""
    before = -1
    while used(child) != before:
        before = used(child)
        time.sleep(0.5)


def main():
    child = subprocess.Popen([sys.argv[1], "replay", "--summary"], stdin=subprocess.PIPE, stdout=subprocess.PIPE, text=True)
    child.stdin.writelines(first_lines())
    calls, found = 0, []
    for lines in rounds():
        child.stdin.writelines(lines)
        calls += len(lines)
        if calls >= POINTS[len(found)]:
            child.stdin.flush()
            settled(child)
            found.append(resident(child))
            if len(found) == len(POINTS):
                break
    child.stdin.close()
    summary = dict(line.rsplit(" ", 1) for line in child.stdout.read().splitlines())
    assert int(summary["hit"]) == int(summary["miss"]) and int(summary["logged"]) == 2 * int(summary["hit"]), summary
    print(*found)


main()
