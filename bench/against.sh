#!/bin/sh
# Measures this tree's library beside that of an earlier commit, in one process and in turns: what a change costs.
# usage: bench/against.sh COMMIT [RUNS]    (7 runs of 41 rounds a case unless said otherwise; COMMIT's library is proved and built once)
# COMMIT's library is built with the kit at hand, so COMMIT is one that this kit reads: none from before docs/PORT.md was written.
# With HEAD, where nothing has changed since, it shows how far two equal builds differ on the machine. Where a call of the earlier
# build answers or writes something else in a case, the first run says so.
# It needs cargo, a C compiler, binutils, valgrind and python3; it is no part of the gate, since times depend on the machine.
set -eu
cd "$(dirname "$0")/.."
usage() {
    sed -n 's/^# usage: /usage: /p' bench/against.sh >&2
    exit 2
}
[ $# -eq 1 ] || [ $# -eq 2 ] || usage
runs=${2:-7}
case $runs in '' | *[!0-9]* | 0*) usage ;; esac
if ! commit=$(git rev-parse --verify --quiet "$1^{commit}"); then
    echo "against.sh: '$1' is no commit" >&2
    exit 2
fi
before=$PWD/target/against/$commit
work=target/against/work
. tests/lib/library.sh

# Of the earlier tree only the library and its header stay: no other crates may stand in this one.
if [ ! -f "$before/$library" ]; then
    if ! git show "$commit:crates.txt" | grep -q '^weavemitten staticlib:'; then
        echo "against.sh: $1 is from before this kit, which can't build its library" >&2
        exit 2
    fi
    tree=$(mktemp -d)
    trap 'rm -rf "$tree"' EXIT
    git archive "$commit" | tar -x -C "$tree"
    (cd "$tree/crates/weavemitten" && run rt lib)
    mkdir -p "$before/include" "$before/${library%/*}"
    cp "$tree/include/weavemitten.h" "$before/include/"
    cp "$tree/$library" "$before/$library"
fi
library
# Each function of the harness begins a cache line, as those of the two libraries do (build.rs).
export WEAVEMITTEN_BEFORE="$before" RUSTFLAGS='-C llvm-args=-align-all-functions=6'
run cargo build --quiet --release --offline -j1 --features before --manifest-path bench/Cargo.toml --target-dir target/against/bench
bench=target/against/bench/release/bench
mkdir -p "$work"
rm -f "$work"/times.*
for number in $(seq "$runs"); do
    echo "+ times, run $number"
    "$bench" times table >"$work/times.$number" 2>"$work/otherwise.$number" || { cat "$work/otherwise.$number" >&2; exit 1; }
    [ "$number" -gt 1 ] || cat "$work/otherwise.$number"
done
bench/count.sh "$bench" "$work" proved before
python3 bench/counts.py "$work" >"$work/counts.tsv"
python3 bench/against.py "$work/counts.tsv" "$work"/times.*
