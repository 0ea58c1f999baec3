# Sourced by the benchmarks that count instructions of a small program.

# The instructions of a run of this program with these arguments, counted under callgrind.
instructions() {
    valgrind --tool=callgrind --callgrind-out-file=/dev/null "$@" 2>&1 > /dev/null |
        awk '/Collected/ { print $4 }'
}

# Ends with status 1 where a figure is past what is asked for. Arguments: what it is, the figure, and the most of it.
within() {
    if (($2 > $3)); then
        echo "$1: $2, and $3 is asked for" >&2
        exit 1
    fi
}
