#!/bin/sh
# The service through its C header: every call, then calls on damaged memory; each built plain and with two sanitizers. The
# header's sizes and answer numbers are held to the source's, and what the library asks its host for to two functions.
# usage: tests/service.sh [SEED...]     (default: the gate's seed)
set -eu
cd "$(dirname "$0")/.."
[ $# -gt 0 ] || set -- 1
. tests/lib/library.sh

# A constant of a crate's source, with those that its value names.
value() (
    set -f
    text=$(set +f; cat crates/"$1"/src/*.rt | sed -n "s/^.*const $2: [a-z0-9]* = \(.*\);\$/\1/p" | sort -u)
    case $text in
    '' | *"
"*) echo "service: crates/$1/src has no one const $2" >&2; exit 1 ;;
    *[A-Z]*)
        sum=
        for word in $text; do
            case $word in [A-Z]*) word=$(value "$1" "$word") ;; esac
            sum="$sum $word"
        done
        echo $(($sum)) ;;
    *) echo "$text" ;;
    esac
)
sizes="-DSOURCE_SESSIONS=$(value server SESSIONS) -DSOURCE_WORDS=$(value words WORDS) -DSOURCE_VALUES=$(value words VALUES)"
sizes="$sizes -DSOURCE_OUTPUT=$(value server OUTPUT) -DSOURCE_NAME=$(value server MAX_NAME)"
sizes="$sizes -DSOURCE_RECORDS=$(value zone AREA) -DSOURCE_SUBSCRIPTIONS=$(value session AREA)"

# Each answer's number in the source stands in the header under the same name. Opened and Ended are the header's DONE.
numbers=$(sed -n 's/^ *[A-Za-z]*::\([A-Za-z]*\)[^=]*=> \([0-9]*\),$/\1 \2/p' crates/server/src/number.rt | sed '/^Opened 1$/d; /^Ended 1$/d' |
    sed 's/\([a-z]\)\([A-Z]\)/\1_\2/g; s/_A_\{0,1\}Name/_A_Name/' | tr 'a-z' 'A-Z')
echo "$numbers" | while read -r name number; do
    grep -q "WEAVEMITTEN_ANSWER_$name = $number[, ]" include/weavemitten.h || { echo "service: the header has no WEAVEMITTEN_ANSWER_$name = $number" >&2; exit 1; }
done
[ "$(echo "$numbers" | wc -l)" -eq "$(grep -c 'WEAVEMITTEN_ANSWER_[A-Z_]* = ' include/weavemitten.h)" ] ||
    { echo "service: the header's answers are not the source's" >&2; exit 1; }
echo "service: $(echo "$numbers" | wc -l) answer numbers as in the source"

library
# A freestanding host has to bring what the library asks for.
needed=$(nm -u "$library" | awk '$1 == "U" { print $2 }' | sort -u | tr '\n' ' ')
[ "$needed" = "memcpy memset " ] || { echo "service: the library asks its host for $needed" >&2; exit 1; }
echo "service: the library asks its host for memcpy and memset alone"
if command -v c++ >/dev/null; then
    run c++ -std=c++11 -Wall -Wextra -Werror -pedantic -fsyntax-only -x c++ include/weavemitten.h
else
    echo "service: no C++ compiler here, so the header is not tried as C++"
fi
build() {
    out=$1 source=$2
    shift 2
    # shellcheck disable=SC2086
    run cc -std=c11 -O1 -g -Wall -Wextra -Werror $sizes "$@" -Iinclude -o "target/$out" "tests/service/$source.c" "$library"
}
for source in service corrupt; do
    build "$source-plain" "$source"
    build "$source-sanitized" "$source" -fsanitize=address,undefined -fno-sanitize-recover=all
done
for kind in plain sanitized; do
    run "target/service-$kind"
    for seed in "$@"; do
        run "target/corrupt-$kind" "$seed" 200000
    done
done
