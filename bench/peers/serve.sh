#!/usr/bin/env bash
# Processor time of a request to `cdnid serve`, as a ratio to nginx (a cache on tmpfs, its access log on) with as many workers, and the
# first answer beside 100 idle and 100 half-sent connections. Each measurement runs in a network namespace of its own, whose loopback has
# an MTU of 1,500, with both servers started anew; it makes 19,000 requests with a client of a fixed number of connections, which connects
# again where an answer says that the connection closes. Processor time is that of all tasks of the server. Both servers take turns;
# what is printed are medians of 9. With the word `cut` a further client of cdnid cuts the rows five times a second beside all others, reads
# each log file whole and drops it. It ends with status 1 where a ratio is past its goal.
# Usage: bench/peers/serve.sh [WORKERS [TIMES [REQUESTS [cut]]]]   (needs nginx and python3, and leave to make network namespaces: apt-get
# install nginx-light; builds the program by `rt run` where it is not built; the workers are 1 and the times 9 where they are left out)
set -eu
cd "$(dirname "$0")/../.."
program=$PWD/crates/cdnid/out/cdnid
[[ -x $program ]] || (cd crates/cdnid && rt run -- replay <stdin >/dev/null)
command -v nginx >/dev/null || { echo "nginx is missing" >&2; exit 2; }
exec python3 bench/peers/serving.py "$program" "${1:-1}" "${2:-9}" "${3:-19000}" ${4:-}
