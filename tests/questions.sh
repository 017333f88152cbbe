#!/bin/sh
# The C example: built against the library, plain and with sanitizers, run, and held to examples/questions.stdout.
set -eu
cd "$(dirname "$0")/.."
. tests/lib/library.sh
library
try() { # NAME FLAGS...
    name=$1
    shift
    run cc -std=c11 -Wall -Wextra -Werror "$@" -Iinclude -o "target/$name" examples/questions.c "$library"
    echo "+ target/$name | diff examples/questions.stdout -"
    "target/$name" >"target/$name.stdout"
    diff examples/questions.stdout "target/$name.stdout"
    echo "questions: $(wc -l <"target/$name.stdout") answers as expected"
}
try questions
try questions-sanitized -g -fsanitize=address,undefined -fno-sanitize-recover=all
