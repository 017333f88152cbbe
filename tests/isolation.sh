#!/bin/sh
# One session cannot disturb another: random pairs of runs through the C library, which differ in other sessions' messages alone.
# The session that is looked at must get the same in both until it ends. Any difference prints the pair's seed and the fewest lines
# that show it, and ends with status 1.
# usage: tests/isolation.sh              the pairs of the gate, with fixed seeds
#        tests/isolation.sh --calls N S  N calls in the replay program's lines, N / 2 in those of the service, fewer under the
#                                        sanitizers, seeds from S on
set -eu
cd "$(dirname "$0")/.."
. tests/lib/runs.sh
usage() { sed -n 's/^# usage: //p;s/^#        //p' "$0" >&2; exit 2; }
whole() { case $1 in '' | *[!0-9]*) usage ;; esac; }

case $#:${1-} in
    0:) ;;
    3:--calls) whole "$2"; whole "$3"; calls=$2 seed=$3 ;;
    *) usage ;;
esac

programs isolation-service

# pairs LANGUAGE CALLS PROGRAM..: no difference, and no pair that can't be compared to its end.
pairs() {
    language=$1 most=$2
    shift 2
    run "$reference" pairs --language "$language" --seed "$seed" --calls "$most" -- "$@" >target/isolation.txt || { cat target/isolation.txt; exit 1; }
    cat target/isolation.txt
    if grep -q 'pairs that differ in more\|pairs without one number' target/isolation.txt; then
        echo "isolation: pairs were left out"
        exit 1
    fi
}
pairs replay "$calls" target/isolation-service
pairs service "$((calls / 2))" target/isolation-service service
pairs service "$((calls * 3 / 20))" target/isolation-service-checked service
