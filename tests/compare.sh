#!/bin/sh
# Random runs through the replay program and through the C library, each held line by line to the independent program. Any
# difference prints the run's seed and the fewest lines that show it, and ends with status 1.
# usage: tests/compare.sh                the runs of the gate, with fixed seeds
#        tests/compare.sh --minutes N    new seeds, for about so long; prints how many calls a second were compared
#        tests/compare.sh --calls N S    N calls through each, seeds from S on
set -eu
cd "$(dirname "$0")/.."
. tests/lib/runs.sh
usage() { sed -n 's/^# usage: //p;s/^#        tests/tests/p' "$0" >&2; exit 2; }
whole() { case $1 in '' | *[!0-9]*) usage ;; esac; }

minutes=0
case $#:${1-} in
    0:) ;;
    2:--minutes) whole "$2"; minutes=$2 seed=$(date +%s)000000 ;;
    3:--calls) whole "$2"; whole "$3"; calls=$2 seed=$3 ;;
    *) usage ;;
esac

replay_program
programs compare-service

# all SEED CALLS: the same runs through both programs, and runs that only the C library can be asked for, under the sanitizers.
all() {
    run "$reference" compare --language replay --seed "$1" --calls "$2" -- "$replay"
    run "$reference" compare --language replay --seed "$1" --calls "$2" -- target/compare-service
    run "$reference" compare --language service --seed "$1" --calls "$(($2 / 4))" -- target/compare-service-checked service
}

all "$seed" "$calls"
end=$(($(date +%s) + 60 * minutes))
while [ "$(date +%s)" -lt "$end" ]; do
    seed=$((seed + calls))
    all "$seed" "$calls"
done
