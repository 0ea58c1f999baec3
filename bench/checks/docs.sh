#!/usr/bin/env bash
# Looks through the pages: each link of README.md and docs/ goes to a file, and to a heading of it, that is there, and each file that they name in
# code is there; both pictures are what docs/pictures.py would draw, crates/README.md is what docs/crates.py would write, the quotes of
# docs/BELIEVE.md stand in their files, and the names of docs/STANDARDS.md in their crates; and where the tools are there, the man page is shown without a warning, and systemd takes the units, with
# the paths of this repository in place of those where docs/OPERATING.md installs. It ends with status 1 where something is not so.
# Usage: bench/checks/docs.sh   (needs python3; looks further with man, mandoc and systemd-analyze, and at the units where the program is built)
set -u
cd "$(dirname "$0")/../.."
status=0
python3 bench/checks/links.py || status=1
docs/pictures.py --check && echo "the pictures are as they would be drawn" || status=1
docs/crates.py --check && echo "the list of crates is as it would be written" || status=1
docs/quotes.py && echo "the quotes of docs/BELIEVE.md stand in their files" || status=1
docs/standards.py || status=1
if command -v man >/dev/null; then
    warned=$(man --warnings -l docs/cdnid.1 2>&1 >/dev/null)
    [[ -z $warned ]] && echo "man shows the page without a warning" || { echo "$warned"; status=1; }
fi
if command -v mandoc >/dev/null; then
    mandoc -Tlint docs/cdnid.1 && echo "mandoc finds nothing in the page" || status=1
fi
if command -v systemd-analyze >/dev/null && [[ -x crates/cdnid/out/cdnid ]]; then
    units=$(mktemp -d)
    for unit in cdnid.service cdnid-collect.service cdnid-collect.timer; do
        sed "s#/usr/local/bin/cdnid#$PWD/crates/cdnid/out/cdnid#; s#/usr/local/lib/cdnid#$PWD/docs#" "docs/$unit" >"$units/$unit"
    done
    warned=$(systemd-analyze verify --man=no "$units"/* 2>&1) && [[ -z $warned ]] && echo "systemd takes the units" || { echo "$warned"; status=1; }
    rm -r "$units"
fi
exit $status
