#!/usr/bin/env bash
# Load that anybody can make again: `cdnid generate ROUNDS 7 | cdnid replay --summary`. Instructions a line of the script, of both
# programs together, as the slope between 2,000 and 20,000 rounds under callgrind; and the seconds and the peak memory of the
# whole run of 1,000,000 rounds, which ends with all deliveries finished.
# It ends with status 1 where a line takes more than 6,000 instructions, or both programs together more than 64 MiB.
# Usage: bench/instructions/generated.sh   (needs valgrind and python3; builds the program by `rt run` where it is not built)
set -eu
source "$(dirname "$0")/../tools/counting.sh"
source "$(dirname "$0")/../tools/replaying.sh"

# Argument: how many rounds. Prints the lines of the script, and the instructions of making it and of summing it up.
count() {
  valgrind --tool=callgrind --callgrind-out-file="$room/made" "$program" generate "$1" 7 >"$room/script" 2>"$room/notes"
  valgrind --tool=callgrind --callgrind-out-file="$room/summed" "$program" replay --summary <"$room/script" \
    >"$room/answers" 2>"$room/notes"
  grep -qx "logged $1" "$room/answers" || { cat "$room/answers" >&2; exit 1; }
  echo "$(wc -l <"$room/script") $(sed -n 's/^summary: //p' "$room/made") $(sed -n 's/^summary: //p' "$room/summed")"
}

read -r lines made summed <<<"$(count 2000)"
read -r more_lines more_made more_summed <<<"$(count 20000)"
line=$((more_lines - lines))
made=$(((more_made - made) / line)) summed=$(((more_summed - summed) / line))
echo "a line: $made instructions to make it, $summed to sum it up, $((made + summed)) together"
within "instructions of a line" "$((made + summed))" 6000

whole=$(python3 - "$program" <<'END'
import os, subprocess, sys, time

began = time.time()
make = subprocess.Popen([sys.argv[1], "generate", "1000000", "7"], stdout=subprocess.PIPE)
sum_up = subprocess.Popen([sys.argv[1], "replay", "--summary"], stdin=make.stdout, stdout=subprocess.PIPE)
make.stdout.close()
summary = sum_up.stdout.read()
ends = [os.wait4(child.pid, 0) for child in (make, sum_up)]
assert all(status == 0 for _, status, _ in ends) and b"\nlogged 1000000\n" in summary, summary
print(f"{time.time() - began:.1f}", *(use.ru_maxrss for _, _, use in ends))
END
)
read -r seconds making summing <<<"$whole"
echo "1,000,000 rounds: $seconds seconds, $making KiB to make the script, $summing KiB to sum it up"
within "KiB of the whole run" "$((making + summing))" 65536
