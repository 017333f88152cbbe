#!/bin/sh
# Measures the servers side by side and makes the table and the plot of docs/PERFORMANCE.md again.
# usage: bench/run.sh [ROUNDS]    (41 rounds a case unless said otherwise)
# It needs cargo, a C compiler, valgrind and python3; it is no part of the gate, since times depend on the machine.
set -eu
cd "$(dirname "$0")/.."
rounds=${1:-41}
bench=bench/target/release/bench
work=target/bench
. tests/lib/library.sh

library
run cargo build --quiet --release --offline -j1 --manifest-path bench/Cargo.toml
mkdir -p "$work"

echo "+ times, $rounds rounds"
"$bench" times table "$rounds" >"$work/times.tsv"
"$bench" times growth "$rounds" >"$work/growth.tsv"

bench/count.sh "$bench" "$work" proved plain incremental reference
python3 bench/counts.py "$work" >"$work/counts.tsv"
python3 bench/counts.py "$work" profiles >"$work/profiles.tsv"
run python3 bench/report.py "$work/times.tsv" "$work/growth.tsv" "$work/counts.tsv" "$work/profiles.tsv" \
    docs/PERFORMANCE.md docs/performance.svg
