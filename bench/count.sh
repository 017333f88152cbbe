#!/bin/sh
# Counts the instructions of every case on some servers, with callgrind.
# usage: bench/count.sh BENCH FOLDER SERVER...    (BENCH: the harness; counts.py reads what stands in FOLDER then)
set -eu
[ $# -ge 3 ] || { sed -n 's/^# usage: /usage: /p' "$0" >&2; exit 2; }
bench=$1
work=$2
shift 2
rm -f "$work"/count.* "$work"/cases.*
# Callgrind counts inside measured_region alone and writes a file at its end, one for each case, in the order of the cases.
for server in "$@"; do
    echo "+ instructions, $server"
    valgrind -q --tool=callgrind --toggle-collect='*measured_region*' --dump-after=bench::measure::measured_region \
        --callgrind-out-file="$work/count.$server" "$bench" count table "$server" >"$work/cases.$server" 2>"$work/valgrind.$server"
done
