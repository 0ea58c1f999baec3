#!/usr/bin/env bash
# Tries the wrong bodies of crates/CRATE/wrong-bodies/, which the prover has to refuse as those of crates/CRATE/must-fail/: the gate tries the few in
# must-fail/ alone, since each takes some 20 seconds. They stand in the crate's must-fail/ while they are tried, and then those of the gate are put back.
# For each crate it writes into bench/tools/wrong-bodies.txt when it was tried: the commit, the day, how many were refused, and of how many.
# It ends with status 1 where one is not refused. Needs the crate's libraries, which it proves where they are not; some hours for all, which was not timed.
# Usage: bench/tools/wrong-bodies.sh [CRATE..]   (all crates that have some, where none is named)
set -eu
cd "$(dirname "$0")/../.."
[[ $# -gt 0 ]] || set -- $(cd crates && ls -d */wrong-bodies | sed 's#/.*##')
runs=bench/tools/wrong-bodies.txt
commit=$(git rev-parse --short HEAD)
[[ -z $(git status --porcelain crates crates.txt) ]] || commit+=+changes
put_back() {
  [[ -z ${crate:-} ]] || rm -rf "crates/$crate/must-fail"
  [[ ! -d $room/gate ]] || mv "$room/gate" "crates/$crate/must-fail"
  crate=
}
# the crate, and how many of so many were refused
note() {
  { sed "/^$1 /d; s/ Not yet run.*//" "$runs"; echo "$1 $commit $(date -u +%F) $2 of $3"; } | LC_ALL=C sort >"$room/runs"
  cp "$room/runs" "$runs"
}
room=$(mktemp -d)
trap 'put_back; rm -rf "$room"' EXIT
missed=0
for name in "$@"; do
  crate=$name
  [[ ! -d crates/$crate/must-fail ]] || mv "crates/$crate/must-fail" "$room/gate"
  cp -r "crates/$crate/wrong-bodies" "crates/$crate/must-fail"
  rt must-fail "$crate" | tee "$room/said"
  [[ ${PIPESTATUS[0]} == 0 ]] || missed=1
  put_back
  all=("crates/$name/wrong-bodies/"*.edit)
  note "$name" "$(grep -c "^rt: must-fail $name/.*: refused, as it must be" "$room/said" || true)" "${#all[@]}"
done
exit "$missed"
