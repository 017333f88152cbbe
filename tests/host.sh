#!/bin/sh
# The example host, with warnings as errors and then with sanitizers, against example clients on loopback.
set -eu
cd "$(dirname "$0")/.."
. tests/lib/library.sh
build() { # NAME FLAGS...
    name=$1
    shift
    run cc -std=c11 -D_POSIX_C_SOURCE=200809L -Wall -Wextra -Werror "$@" -Iinclude -Iexamples -o "target/$name" \
        examples/host.c examples/edit_line.c "$library"
}
library
build host -O2
build host-sanitized -g -fsanitize=address,undefined -fno-sanitize-recover=all
run timeout 300 python3 tests/host/check.py target/host examples/client.py 1
run timeout 300 python3 tests/host/check.py target/host-sanitized examples/client.py 2
