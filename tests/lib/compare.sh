#!/bin/sh
# Cases of the independent program through the C library, held to its answers.
# usage: tests/lib/compare.sh kinds|matches COUNT SEED...
set -eu
cd "$(dirname "$0")/../.."
[ $# -ge 3 ] || { echo "usage: tests/lib/compare.sh kinds|matches COUNT SEED..." >&2; exit 2; }
what=$1 count=$2
shift 2
. tests/lib/library.sh
library
run cc -std=c11 -Wall -Wextra -Werror -Iinclude -o "target/compare-$what" "tests/$what/compare.c" "$library"
run cargo build --quiet --release -j1 --manifest-path tests/reference/Cargo.toml
for seed in "$@"; do
    echo "+ reference $what --seed $seed --count $count | target/compare-$what"
    tests/reference/target/release/reference "$what" --seed "$seed" --count "$count" >"target/$what.txt"
    "target/compare-$what" <"target/$what.txt"
done
