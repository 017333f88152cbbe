#!/bin/sh
# Shows the replay program at work at once, without the proofs: `rt try` runs it on the interpreter and compiled with checks, and
# fails where the two differ. What it wrote is held to the expected lines, and then printed. It proves nothing.
# usage: examples/try.sh [first|bench|loud|silent]     (which script of this folder; default: first)
set -eu
cd "$(dirname "$0")/.."
name=${1:-first}
if [ $# -gt 1 ] || [ ! -f "examples/$name.expected" ]; then
    sed -n 's/^# usage: /usage: /p' "$0" >&2
    exit 2
fi
wrote=$(mktemp)
trap 'rm -f "$wrote"' EXIT
(cd crates/replay && rt try) <"examples/$name.script" >"$wrote"
diff "examples/$name.expected" "$wrote" >&2
cat "$wrote"
