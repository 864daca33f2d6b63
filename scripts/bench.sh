#!/usr/bin/env bash
# Times the library beside plain Rust and prints two Markdown tables, the second of the sums alone. Where a loop stands
# in a cache line can double its time, and where the stack stands matters too. So the program is built in four layouts,
# each 16 bytes on from the one before, which is how functions are aligned, and each is run six times.
# A third table is of the program play beside one in plain Rust, on a log of 100 MB that is made and deleted here.
set -euo pipefail
cd "$(dirname "$0")/../rust"

play=../target/bin/play
[ -x "$play" ] || {
    printf 'target/bin/play is missing: scripts/build.sh programs builds it\n' >&2
    exit 1
}
work=$(mktemp -d)
trap 'rm -rf "$work"' EXIT
for pad in 0 16 32 48; do
    BENCH_PAD=$pad cargo build --release --offline --quiet -p bench
    cp target/release/bench "$work/bench.$pad"
done
for run in 1 2 3 4 5 6; do
    for pad in 0 16 32 48; do
        for part in rounds sums; do
            "$work/bench.$pad" "$part" >"$work/$part.$run.$pad"
        done
    done
done
"$work/bench.0" table "$work"/rounds.*
printf '\n'
"$work/bench.0" sums-table "$work"/sums.*
printf '\n'
target/release/play_bench "$play" target/release/plain_play
printf '\nThe clock: %s\n' "$("$work/bench.0" clock)"
