#!/usr/bin/env bash
# Tries docs/haproxy.cfg: two nodes behind HAProxy, whose certificate and socket alone are put elsewhere. It asks for 60 URLs, three times each:
# the origin must be asked once for each, and both nodes must have rows. It tries to reach the control host through the front in eight forms, of which
# none may get through. It purges all URLs at both nodes, and each must be fetched once more. It puts one node into maintenance, drains it with
# docs/drain.sh, and stops it: each URL must still be answered, and all records must be in the collected files. It starts it anew and kills it without
# notice: each URL must be answered. It ends with status 1 at the first thing that is not so.
# Usage: bench/checks/front.sh   (needs haproxy, openssl, ss and python3: apt-get install haproxy openssl iproute2; the ports 8081, 8082 and 8443;
# builds the program where it is not built)
set -eu
cd "$(dirname "$0")/../.."
program=$PWD/crates/cdnid/out/cdnid
[[ -x $program ]] || (cd crates/cdnid && rt run -- replay <stdin >/dev/null)
for needed in haproxy openssl ss; do
    command -v "$needed" >/dev/null || { echo "$needed is missing" >&2; exit 2; }
done
exec python3 bench/checks/front.py "$program"
