#!/usr/bin/env bash
# What reading metadata costs: a HostIndex of about 1 and about 8 MiB in each of four shapes, through `cdnid replay`. It prints
# the instructions for each byte of the text, counted under callgrind as the slope between the two sizes, the seconds and
# the peak of memory beyond that of a small document, as a multiple of the text, and how much of it the text and the JSON value
# alone take. With the word `shortest` the shapes are three that hold nothing but the shortest items: windows of 22 bytes,
# countries of 5, and lists of one list each, 120 deep, at a property that is not read. No bound is claimed for them, since an item
# takes the same memory however short its text is.
# Without the word it ends with status 1 where a byte takes more than 150 instructions, or the memory is more than 12 times the text.
# Usage: bench/instructions/metadata.sh [shortest]   (needs valgrind and python3; builds the program by `rt run` where it is not built)
set -eu
source "$(dirname "$0")/../tools/counting.sh"
source "$(dirname "$0")/../tools/replaying.sh"
shapes="paths blocks names windows"
[[ ${1-} == shortest ]] && shapes="short_windows countries deep_lists"

python3 - "$room" $shapes <<'PYTHON'
import json, sys
room, *shapes = sys.argv[1:]
def generic(kind, value):
    return {"generic-metadata-type": kind, "generic-metadata-value": value}
def source(number):
    return generic("MI.SourceMetadata", {"sources": [{"endpoints": [f"origin{number}.example:8080"], "protocol": "http/1.1"}]})
def tree(levels):
    return {"hosts": [{"host": "v.example", "host-metadata": levels}]}
def paths(size):  # objects and patterns, padded so that 10,000 objects suffice
    pad = "x" * 1500
    return tree({"paths": [{"path-pattern": {"pattern": f"/{n}/*"}, "path-metadata": {"metadata": [source(n)], "note": pad}} for n in range(size // 1760)]})
def blocks(size):  # one location list of many blocks
    values = [f"10.{n // 256 % 256}.{n % 256}.0/24" for n in range(size // 17)]
    return tree({"metadata": [generic("MI.LocationACL", {"locations": [{"footprints": [{"footprint-type": "ipv4cidr", "footprint-value": values}]}]})]})
def names(size):  # many long names
    return tree({"metadata": [generic("MI.Cache", {"ignore-query-string": [f"{n:064d}" for n in range(size // 67)]})]})
def windows(size):  # one time list of many windows
    return tree({"metadata": [generic("MI.TimeWindowACL", {"times": [{"windows": [{"start": 1700000000 + n, "end": 1700000100 + n} for n in range(size // 38)]}]})]})
def short_windows(size):  # the shortest objects that read
    return tree({"metadata": [generic("MI.TimeWindowACL", {"times": [{"windows": [{"start": 0, "end": 1} for n in range(size // 22)]}]})]})
def countries(size):  # the shortest footprints
    return tree({"metadata": [generic("MI.LocationACL", {"locations": [{"footprints": [{"footprint-type": "countrycode", "footprint-value": ["aa"] * (size // 5)}]}]})]})
def deep_lists(size):  # lists of one list each
    deep = 1
    for _ in range(120):
        deep = [deep]
    return {**tree({}), "note": [deep] * (size // 242)}
for shape in (globals()[name] for name in shapes):
    for label, size in (("none", 0), ("few", 1 << 20), ("many", 8300000)):
        text = json.dumps(shape(size), separators=(",", ":"))
        assert len(text) <= 8388608
        with open(f"{room}/{shape.__name__}.{label}", "w") as script:
            script.write("0 0 refresh\n0 0 meta 1 http://up.example/i " + text + "\n")
PYTHON

instructions() {
  replay_instructions "$1"
  [[ $(tail -n 1 "$room/answers") == "installed 1" ]] || { echo "the metadata was not installed" >&2; exit 1; }
}

# the seconds, and the peak of memory in kB: the program answers each line at once, so it is read while its input is still open
run() {
  python3 - "$program" "$1" <<'PYTHON'
import resource, subprocess, sys
with open(sys.argv[2], "rb") as script:
    text = script.read()
program = subprocess.Popen([sys.argv[1], "replay"], stdin=subprocess.PIPE, stdout=subprocess.PIPE)
program.stdin.write(text)
program.stdin.flush()
for _ in range(text.count(b"\n")):
    program.stdout.readline()
with open(f"/proc/{program.pid}/status") as status:
    peak = next(line.split()[1] for line in status if line.startswith("VmHWM"))
program.stdin.close()
program.wait()
used = resource.getrusage(resource.RUSAGE_CHILDREN)
print(f"{used.ru_utime + used.ru_stime:.2f} {peak}")
PYTHON
}

for shape in $shapes; do
  few=$(wc -c <"$room/$shape.few") many=$(wc -c <"$room/$shape.many")
  more=$(instructions "$room/$shape.many")
  less=$(instructions "$room/$shape.few")
  slope=$(((more - less) / (many - few)))
  read -r _ least < <(run "$room/$shape.none")
  read -r seconds most < <(run "$room/$shape.many")
  sed 's/MI\.[A-Za-z]*/MI.X/g' "$room/$shape.many" >"$room/$shape.other"  # nothing is understood, so nothing is kept beside the JSON value
  read -r _ value < <(run "$room/$shape.other")
  awk -v shape="$shape" -v bytes="$many" -v slope="$slope" -v seconds="$seconds" -v grown="$((most - least))" -v value="$((value - least))" \
    'BEGIN { printf "%s, %d bytes: %d instructions a byte, %s s, %.1f times the text in memory, of which the text and the JSON value take %.1f\n", shape, bytes, slope, seconds, grown * 1024 / bytes, value * 1024 / bytes }'
  if [[ ${1-} != shortest ]]; then
    within "instructions of a byte ($shape)" "$slope" 150
    within "memory as a multiple of the text, in tenths ($shape)" "$(((most - least) * 10240 / many))" 120
  fi
done
