# For tests that link the C library or run the replay program: printing what is run, and both of them, proved and built anew only
# where a source is newer. The gate's own check leaves the replay program behind. Tests may run side by side; one of them builds.
run() { printf '+ %s\n' "$*"; "$@"; }

library=crates/weavemitten/out/libweavemitten.a
replay=crates/replay/out/replay

# made FILE CRATE COMMAND..: FILE, by the command in the crate's folder unless it is newer than every source.
made() (
    file=$1 crate=$2
    shift 2
    mkdir -p target
    exec 9>target/made.lock
    flock 9
    if [ -e "$file" ] && [ -z "$(find crates.txt crates/*/src crates/*/specs crates/*/proofs -newer "$file" | head -n 1)" ]; then
        echo "$file is newer than every source"
    else
        cd "crates/$crate" || exit
        run "$@" </dev/null 9>&-
    fi
)
library() { made "$library" weavemitten rt lib; }
# rt run proves, builds and runs the program: on no input, for which it writes nothing.
replay_program() { made "$replay" replay rt run; }
