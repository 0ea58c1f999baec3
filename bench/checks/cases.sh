#!/usr/bin/env bash
# Makes the log files in the cases of session_cases again and compares them with those that stand there, with their UUIDs and hashes. It ends with status 1
# where one is another. Usage: bench/checks/cases.sh   (needs python3 alone)
set -eu
cd "$(dirname "$0")/../.."
exec bench/tools/session_cases.py
