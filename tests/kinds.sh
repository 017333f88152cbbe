#!/bin/sh
# The kind of at least 20,000 messages a seed.
# usage: tests/kinds.sh [SEED...]     (default: the gate's seeds)
[ $# -gt 0 ] || set -- 1 2 3
exec sh "$(dirname "$0")/lib/compare.sh" kinds 25000 "$@"
