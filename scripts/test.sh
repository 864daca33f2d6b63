#!/usr/bin/env bash
# The gate: proofs, must-fail edits, programs and layout (`rt ci`), documents, lints, and the examples and the
# Rust tests over the static libraries. With the word 'quick' it tries no edits, and proves only what changed since the
# last run. Its last line is 'N passed, M failed', over all of them; it exits 0 only if M is 0.
set -u
case ${1-} in
'' | quick) mode=${1-} ;;
*)
    printf 'usage: %s [quick]\n' "$0" >&2
    exit 2
    ;;
esac
exec 2>&1 # one stream, so that the tally comes last
cd "$(dirname "$0")/.." || exit 1

unset HOURSQUALL_LIB # what is tested are the libraries that are built here
passed=0
failed=0
times=()

pass() { passed=$((passed + $1)); }
fail() { failed=$((failed + $1)); }

finish() {
    if [ "${#times[@]}" -gt 0 ]; then
        printf '\nSeconds:\n'
        printf '%s\n' "${times[@]}"
    fi
    printf '%d passed, %d failed\n' "$passed" "$failed"
    exit $((failed > 0))
}

need() { # TOOL
    command -v "$1" >/dev/null && return
    printf '%s is needed, and is not in PATH\n' "$1"
    fail 1
    finish
}

# Runs a part of the gate, which counts for itself, and notes how long it took.
part() { # LABEL COMMAND...
    local label=$1 began=$SECONDS status
    shift
    printf '\n== %s\n' "$label"
    "$@"
    status=$?
    times+=("$(printf '%6d  %s' $((SECONDS - began)) "$label")")
    return "$status"
}

# Runs a command that counts as one test.
one() { # COMMAND...
    if "$@"; then
        pass 1
    else
        printf 'FAILED: %s\n' "$*"
        fail 1
        return 1
    fi
}

# Counts what a run of many tests said of itself. A run that ended badly, or in which nothing
# passed, has at least one failure.
many() { # STATUS PASSED FAILED
    local bad=$3
    if [ "$1" -ne 0 ] || [ "$2" -eq 0 ]; then bad=$((bad > 0 ? bad : 1)); fi
    pass "$2"
    fail "$bad"
}

within() { # FOLDER COMMAND...
    (cd "$1" && "${@:2}")
}

# Runs a component of cargo that an installation may lack, on all Rust code.
component() { # NAME WORDS...
    if cargo "$1" --version >/dev/null 2>&1; then
        one within rust cargo "$@"
        one within examples/rust cargo "$@"
    else
        printf 'skipped: cargo %s is not installed\n' "$1"
    fi
}

# The kit's own gate, of every crate. An edit that cannot be applied or read counts for nothing there, so it fails here.
rt_ci() {
    local status tally='^([0-9]+) passed, ([0-9]+) failed'
    rt ci 2>&1 | tee "$log"
    status=${PIPESTATUS[0]}
    if grep -qE '^rt: ok.*, [1-9][0-9]* bad' "$log"; then
        printf 'FAILED: rt ci has bad edits\n'
        status=1
    fi
    if [[ $(tail -n 1 "$log") =~ $tally ]]; then
        many "$status" "${BASH_REMATCH[1]}" "${BASH_REMATCH[2]}"
    else
        many "$status" 0 0
    fi
}

builds() {
    one quietly scripts/build.sh libraries && one quietly scripts/build.sh programs
}

# Shows what a command said only if it fails.
quietly() { # COMMAND...
    local said status
    said=$("$@" 2>&1)
    status=$?
    [ "$status" -eq 0 ] || printf '%s\n' "$said"
    return "$status"
}

examples() {
    one scripts/examples.sh c
    one scripts/examples.sh rust
}

cargo_test() {
    local status sums
    within rust cargo test --release --offline --no-fail-fast -- --nocapture 2>&1 | tee "$log"
    status=${PIPESTATUS[0]}
    sums=$(sed -n 's/^test result: .* \([0-9]*\) passed; \([0-9]*\) failed;.*/\1 \2/p' "$log" |
        awk '{ passed += $1; failed += $2 } END { print passed + 0, failed + 0 }')
    many "$status" "${sums% *}" "${sums#* }"
}

need rt
need cargo
need cc
log=$(mktemp) || exit 1
trap 'rm -f "$log"' EXIT

if [ "$mode" = quick ]; then
    part 'rt all check' one quietly rt all check
else
    part 'rt ci' rt_ci
fi
part 'documents' one scripts/documents.sh
part 'wrong answers apply' one scripts/wrong-answers.sh apply
part 'cargo fmt' component fmt --check
part 'cargo clippy' component clippy --release --offline --all-targets -- -D warnings
if part 'libraries and programs' builds; then
    part 'examples' examples
    part 'cargo test' cargo_test
else
    printf 'the examples and cargo test are not run: there is no library to link\n'
fi
finish
