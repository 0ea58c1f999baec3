#!/usr/bin/env bash
# What a purge costs. First the time from the POST of a purge to its status resource saying `complete`, by URL, by pattern and by ccid, with
# 100, 10,000 and 100,000 objects kept: medians. Then the slowest hundredth of 20,000 hits while another process makes 500 purges a second
# by URL, of `cdnid serve` (each completed trigger is deleted), of Varnish, and of nginx, which has no purge of its own: there the object is
# fetched anew past the cache (the purge module of Debian's package ends the worker). All have four workers or as many threads as they
# choose. It ends with status 1 where the hits of cdnid are slower than those of either.
# Usage: bench/peers/purge.sh [OBJECTS]   (the most objects, 100,000 where it is left out; needs nginx, varnishd and python3:
# apt-get install nginx-light varnish; builds the program where it is not built)
set -eu
cd "$(dirname "$0")/../.."
program=$PWD/crates/cdnid/out/cdnid
[[ -x $program ]] || (cd crates/cdnid && rt run -- replay <stdin >/dev/null)
for needed in nginx varnishd; do
    command -v "$needed" >/dev/null || { echo "$needed is missing" >&2; exit 2; }
done
exec python3 bench/peers/purge.py "$program" "${1:-100000}"
