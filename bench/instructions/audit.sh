#!/usr/bin/env bash
# `cdnid audit` of 100,000 records: its peak memory as a multiple of the file, and its instructions a byte as the slope between 2,000 and
# 10,000 records under callgrind, those of SHA-256 apart.
# It ends with status 1 where a byte takes more than 60 instructions beside SHA-256, or the memory is more than 2.5 times the file.
# Usage: bench/instructions/audit.sh   (needs valgrind and python3; builds the program by `rt run` where it is not built, unless CDNID names one)
set -eu
cd "$(dirname "$0")/../.."
source bench/tools/counting.sh
program=${CDNID:-$PWD/crates/cdnid/out/cdnid}
[[ -x $program ]] || (cd crates/cdnid && rt run -- replay <stdin >/dev/null)
room=$(mktemp -d)
trap 'rm -rf "$room"' EXIT

# Argument: how many records. Prints the bytes of their file, and the instructions of SHA-256 and of all else.
count() {
    python3 bench/tools/log_file.py "$1" >"$room/file"
    valgrind --tool=callgrind --callgrind-out-file="$room/counts" "$program" audit <"$room/file" 2>/dev/null | tail -n 1 >"$room/told"
    grep -q "^records $1 " "$room/told" || { cat "$room/told" >&2; exit 1; }
    callgrind_annotate --threshold=100 "$room/counts" | python3 -c '
import os, re, sys

hashing = rest = 0
for line in sys.stdin:
    found = re.match(r"\s*([\d,]+) \([ \d.]+%\)\s+(\S.*)", line)
    if found and "PROGRAM TOTALS" not in line:
        number = int(found[1].replace(",", ""))
        hashing, rest = (hashing + number, rest) if "sha2::" in found[2] else (hashing, rest + number)
print(os.path.getsize(sys.argv[1]), hashing, rest)' "$room/file"
}

read -r bytes hashing rest <<<"$(count 2000)"
read -r more_bytes more_hashing more_rest <<<"$(count 10000)"
size=$((more_bytes - bytes))
hashing=$(((more_hashing - hashing) / size)) rest=$(((more_rest - rest) / size))
echo "a byte: $rest instructions, and $hashing of SHA-256"

python3 bench/tools/log_file.py 100000 >"$room/file"
read -r seconds memory <<<"$(python3 - "$program" "$room/file" <<'END'
import os, subprocess, sys, time

began = time.time()
with open(sys.argv[2], "rb") as file:
    child = subprocess.Popen([sys.argv[1], "audit"], stdin=file, stdout=subprocess.DEVNULL)
    _, status, use = os.wait4(child.pid, 0)
assert status == 0, status
print(f"{time.time() - began:.2f}", use.ru_maxrss * 1024)
END
)"
times=$((100 * memory / $(wc -c <"$room/file")))
echo "100,000 records of $(wc -c <"$room/file") bytes: $seconds seconds, $memory bytes of memory, $((times / 100)).$(printf %02d $((times % 100))) times the file"
within "instructions of a byte beside SHA-256" "$rest" 60
within "memory in hundredths of the file" "$times" 250
