#!/bin/sh
# At least 5,000 questions beside records a seed.
# usage: tests/matches.sh [SEED...]     (default: the gate's seeds)
[ $# -gt 0 ] || set -- 1 2 3
exec sh "$(dirname "$0")/lib/compare.sh" matches 10000 "$@"
