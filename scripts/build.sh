#!/usr/bin/env bash
# Proves and builds what is linked and run outside the crates, and puts it where it is looked for:
#     build.sh libraries    target/staticlib/libhoursquall.a, libhoursquall_heads.a and libhoursquall_replay.a
#     build.sh programs     target/bin/play and target/bin/vectors
set -euo pipefail
cd "$(dirname "$0")/.."

library() { # CRATE NAME
    (cd "crates/$1" && rt lib)
    mkdir -p target/staticlib
    cp "crates/$1/out/lib$1.a" "target/staticlib/lib$2.a"
}

# `rt run` links a program and runs it; on no words it ends at once.
program() { # CRATE
    (cd "crates/$1" && rt run >/dev/null)
    mkdir -p target/bin
    cp "crates/$1/out/$1" "target/bin/$1"
}

case ${1-} in
libraries)
    library hoursquall_c hoursquall
    library hoursquall_heads hoursquall_heads
    library hoursquall_replay hoursquall_replay
    ;;
programs)
    program play
    program vectors
    ;;
*)
    printf 'usage: %s libraries|programs\n' "$0" >&2
    exit 2
    ;;
esac
