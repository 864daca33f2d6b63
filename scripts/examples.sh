#!/usr/bin/env bash
# Builds an example over the static library, which must be there, runs it, and shows what it prints.
# Exits 0 only if that is examples/stdout.
set -euo pipefail
cd "$(dirname "$0")/.."
unset HOURSQUALL_LIB # what is linked are the libraries that are built here

c() {
    cc -std=c11 -Wall -Wextra -Werror -pedantic -Iinclude -o target/examples/c \
        examples/c/main.c target/staticlib/libhoursquall.a
    target/examples/c
}

rust() {
    cargo run --release --offline --quiet --manifest-path examples/rust/Cargo.toml
}

case ${1-} in
c | rust) ;;
*)
    printf 'usage: %s c|rust\n' "$0" >&2
    exit 2
    ;;
esac
printf 'examples/%s:\n' "$1"
mkdir -p target/examples
"$1" | tee "target/examples/$1.stdout"
diff examples/stdout "target/examples/$1.stdout"
