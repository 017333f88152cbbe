#!/bin/sh
# The replay program: the examples, the vectors, random scripts, and inputs at the edges of what a line is. The independent
# program says what is expected.
# usage: tests/replay.sh [SEED...]     (seeds of random scripts; default: the gate's)
set -eu
cd "$(dirname "$0")/.."
[ $# -gt 0 ] || set -- 1 2 3 4
. tests/lib/library.sh
run cargo build --quiet --release -j1 --manifest-path tests/reference/Cargo.toml
reference=tests/reference/target/release/reference
replay_program
dir=target/replay
mkdir -p "$dir"

# same INPUT EXPECTED: the program writes for one file what the other has.
same() {
  printf '+ %s <%s | cmp - %s\n' "$replay" "$1" "$2"
  "$replay" <"$1" >"$dir/out"
  cmp "$dir/out" "$2"
}

# edge NAME: the input is in $dir/in; the independent program says what is expected.
edge() {
  printf '+ edge: %s, %s bytes\n' "$1" "$(wc -c <"$dir/in")"
  "$reference" replay <"$dir/in" >"$dir/expected"
  "$replay" <"$dir/in" >"$dir/out"
  cmp "$dir/out" "$dir/expected"
}

# wrote TEXT: the last edge's output, said here and not only by the independent program.
wrote() { printf "$1" | cmp - "$dir/out"; }

run examples/try.sh first
run examples/try.sh bench
same examples/first.script examples/first.expected
same examples/bench.script examples/bench.expected
for name in loud silent; do
  same "examples/$name.script" "examples/$name.expected"
  "$reference" replay <"examples/$name.script" | cmp - "examples/$name.expected"
  # What session 0 gets behind its open.
  sed -n '/^[a-z]*\t[0-9]*\t0\t/p' "examples/$name.expected" | sed 1d >"$dir/$name"
done
run cmp "$dir/loud" "$dir/silent"
[ "$(wc -l <"$dir/loud")" -eq 3 ]
run "$reference" bench --in "$dir/bench.in" --out "$dir/bench.out"
run cmp "$dir/bench.in" examples/bench.script
run cmp "$dir/bench.out" examples/bench.expected

run "$reference" vectors --seed 8765 --in "$dir/vectors.in" --out "$dir/vectors.out"
run cmp "$dir/vectors.in" crates/replay/stdin
run cmp "$dir/vectors.out" crates/replay/stdout
same crates/replay/stdin crates/replay/stdout
run "$reference" reach --in crates/replay/stdin --out crates/replay/stdout

: >"$dir/in"
edge 'no input'
wrote ''
printf 'tick\t1' >"$dir/in"
edge 'last LF missing'
wrote 'tick\t1\t-\t-\n'
printf '\n' >"$dir/in"
edge 'an empty line'
wrote '?\t19\t-\t-\n'
printf 'tick\t1\n\ntick\t1\r\nti\000ck\t1\n\377\376\ntick\t2\n' >"$dir/in"
edge 'empty, CR, NUL and no text'
wrote 'tick\t1\t-\t-\n?\t19\t-\t-\n?\t19\t-\t-\n?\t19\t-\t-\n?\t19\t-\t-\ntick\t1\t-\t-\n'
head -c 1048576 /dev/zero | tr '\000' a >"$dir/in"
edge 'a line of a megabyte, without LF'
wrote '?\t19\t-\t-\n'
printf '\ntick\t3\n' >>"$dir/in"
edge 'a line of a megabyte, and one behind it'
wrote '?\t19\t-\t-\ntick\t1\t-\t-\n'
head -c 300000 /dev/zero >"$dir/in"
edge 'NUL octets'
head -c 300000 /dev/zero | tr '\000' '\n' >"$dir/in"
edge 'empty lines'

# Pieces of the input that end anywhere, and an output that is read slowly.
for size in 1 7 1021; do
  printf '+ dd bs=%s of the examples | %s | dd bs=3\n' "$size" "$replay"
  dd if=examples/bench.script bs="$size" 2>"$dir/dd" | "$replay" | dd bs=3 2>"$dir/dd" >"$dir/out"
  cmp "$dir/out" examples/bench.expected
done
printf '+ dd bs=4093 of the vectors | %s\n' "$replay"
dd if=crates/replay/stdin bs=4093 2>"$dir/dd" | "$replay" | cat >"$dir/out"
cmp "$dir/out" crates/replay/stdout

for seed in "$@"; do
  "$reference" script --seed "$seed" --lines 3000 >"$dir/in"
  edge "random script, seed $seed"
done

# ends_with ERROR: the last run ended with status 1 and said that error.
ends_with() {
  cat "$dir/error"
  grep -q "^Error: .*$1" "$dir/error" && [ "$status" -eq 1 ]
}
printf '+ %s >/dev/full\n' "$replay"
status=0
"$replay" <examples/first.script >/dev/full 2>"$dir/error" || status=$?
ends_with StorageFull
printf '+ %s <%s\n' "$replay" "$dir"
status=0
"$replay" <"$dir" >"$dir/out" 2>"$dir/error" || status=$?
ends_with IsADirectory
echo "replay: all as expected"
