#!/bin/sh
# The independent program's tests, random runs of its server against its observer with a fixed seed, and the vectors that it
# made for the proved programs: they are still what it makes.
set -eu
cd "$(dirname "$0")/.."
run() { printf '+ %s\n' "$*"; "$@"; }
manifest=tests/reference/Cargo.toml
run cargo test --quiet --release -j1 --manifest-path "$manifest"
run cargo build --quiet --release -j1 --manifest-path "$manifest"
run tests/reference/target/release/reference selftest --seed 1 --calls 60000
mkdir -p target
run tests/reference/target/release/reference names --seed 7 --in target/names.in --out target/names.out
run cmp target/names.in crates/wire_names/stdin
run cmp target/names.out crates/wire_names/stdout
run tests/reference/target/release/reference pushes --seed 7 --in target/pushes.in --out target/pushes.out
run cmp target/pushes.in crates/push_runs/stdin
run cmp target/pushes.out crates/push_runs/stdout
