# Sourced by the benchmarks of `cdnid replay`: goes to the top of the repository, builds the program by `rt run` where it is not
# built, and makes a folder `room` that goes when the benchmark ends. Needs valgrind.
cd "$(dirname "${BASH_SOURCE[0]}")/../.."
program=crates/cdnid/out/cdnid
[[ -x $program ]] || (cd crates/cdnid && rt run -- replay <stdin >/dev/null)
room=$(mktemp -d)
trap 'rm -rf "$room"' EXIT

# The instructions of a replay of this script, counted under callgrind. The answers are in `room`.
replay_instructions() {
  valgrind --tool=callgrind --callgrind-out-file="$room/out" "$program" replay <"$1" >"$room/answers" 2>"$room/notes"
  sed -n 's/^summary: //p' "$room/out"
}
