# The runs of the gate, for tests/compare.sh, tests/isolation.sh and tests/mutants.sh: a first seed and how many calls are compared; and what they
# build.
. tests/lib/library.sh
seed=1
calls=200000
reference=tests/reference/target/release/reference

# programs NAME: the C library behind the lines of a script, as target/NAME and, with two sanitizers, target/NAME-checked; and the independent
# program. Tests that run side by side take names of their own.
programs() {
    library
    flags='-std=c11 -O2 -Wall -Wextra -Werror -Iinclude'
    # shellcheck disable=SC2086
    run cc $flags -o "target/$1" tests/compare/service.c "$library"
    # shellcheck disable=SC2086
    run cc $flags -g -fsanitize=address,undefined -fno-sanitize-recover=all -o "target/$1-checked" tests/compare/service.c "$library"
    run cargo build --quiet --release -j1 --manifest-path tests/reference/Cargo.toml
}
