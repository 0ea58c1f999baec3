#!/usr/bin/env bash
# Refuses each allocation of a run in turn, in the built programs, by a small library that is laid over the C library's allocator. Of the
# sample script each run must end with the whole answer, or with a front of it and status 5 (want of memory). Of one whole answer and of a
# realistic connection, as cases of `session_cases` (bench/memory/refusing.py), each run must end with what is to pass, or for want of memory: and
# where the session was begun, with every admitted delivery finished, which the program compares.
# Usage: bench/memory/allocations.sh   (needs gcc and python3; builds the programs by `rt run` where they are not built)
set -eu
cd "$(dirname "$0")/../../crates"
[[ -x cdnid/out/cdnid ]] || (cd cdnid && rt run -- replay <stdin >/dev/null)
[[ -x session_cases/out/session_cases ]] || (cd session_cases && rt run <stdin >/dev/null)
room=$(mktemp -d)
trap 'rm -rf "$room"' EXIT
cat >"$room/refuse.c" <<'C'
#define _GNU_SOURCE
#include <dlfcn.h>
#include <errno.h>
#include <stdlib.h>
#include <unistd.h>
static long made, refused;
static int started;
static int refuse(void) {
  if (!started) { char *n = getenv("REFUSE"); refused = n ? atol(n) : 0; started = 1; }
  made++;
  if (made == refused) { ssize_t told = write(9, "x", 1); (void)told; errno = ENOMEM; return 1; }
  return 0;
}
#define REAL(type, name, ...) static type (*real)(__VA_ARGS__); if (!real) real = dlsym(RTLD_NEXT, name)
void *malloc(size_t n) { REAL(void *, "malloc", size_t); return refuse() ? NULL : real(n); }
void *realloc(void *p, size_t n) { REAL(void *, "realloc", void *, size_t); return refuse() ? NULL : real(p, n); }
void *aligned_alloc(size_t a, size_t n) { REAL(void *, "aligned_alloc", size_t, size_t); return refuse() ? NULL : real(a, n); }
int posix_memalign(void **p, size_t a, size_t n) { REAL(int, "posix_memalign", void **, size_t, size_t); return refuse() ? ENOMEM : real(p, a, n); }
C
gcc -O1 -shared -fPIC -o "$room/refuse.so" "$room/refuse.c" -ldl

# Arguments: which allocation is refused, the input, and the program with its words. Leaves what it wrote in `room/answers` and its status
# in `status`. It fails where there is no such allocation.
run() {
  local number=$1 input=$2
  shift 2
  status=0
  : >"$room/told"
  REFUSE=$number LD_PRELOAD="$room/refuse.so" "$@" <"$input" >"$room/answers" 2>/dev/null 9>"$room/told" || status=$?
  [[ -s $room/told ]]
}

number=1 ended=0
while run "$number" cdnid/stdin cdnid/out/cdnid replay; do
  size=$(wc -c <"$room/answers")
  if [[ $status == 5 ]] && cmp -s -n "$size" "$room/answers" cdnid/stdout; then
    ended=$((ended + 1))
  elif [[ $status != 0 ]] || ! cmp -s "$room/answers" cdnid/stdout; then
    echo "allocation $number: status $status"; cat "$room/answers"; exit 1
  fi
  number=$((number + 1))
done
echo "$((number - 1)) allocations of the sample script; refusing $ended of them ends with status 5 and a front of the answers, the others with the whole"

for name in answer connection; do
  python3 ../bench/memory/refusing.py "$name" >"$room/case"
  number=1 passed=0
  while run "$number" "$room/case" session_cases/out/session_cases; do
    if [[ $(cat "$room/answers") == "1 cases, 0 differ" ]]; then
      passed=$((passed + 1))
    elif [[ $status == 0 || -s $room/answers ]]; then
      echo "$name, allocation $number: status $status"; cat "$room/answers"; exit 1
    fi
    number=$((number + 1))
  done
  [[ $(cat "$room/answers") == "1 cases, 0 differ" ]] || { echo "$name: not as told"; cat "$room/answers"; exit 1; }
  echo "$((number - 1)) allocations of the $name and its case; refusing $passed of them, in the session or where nothing needs it, ends as told or for want of memory with all deliveries finished; the others are of the program around it"
done
