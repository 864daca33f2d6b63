#!/usr/bin/env bash
# The wrong answers beside the gate: crates/NAME/wrong-answers/*.edit, each an edit that the prover must refuse.
#     wrong-answers.sh try [CRATE]    tries them all, or a crate's, in a copy of the tree; the last line is
#                                     'N passed, M failed', and it exits 0 only if M is 0
#     wrong-answers.sh apply          says which of them no longer fit the sources: each 'old:' text must stand
#                                     exactly once in its file, as the lines above it left it
set -u
cd "$(dirname "$0")/.." || exit 1

usage() {
    printf 'usage: %s try [CRATE] | apply\n' "$0" >&2
    exit 2
}

# `rt must-fail` looks in must-fail/, so in the copy that is where they stand, and no others.
try() { # [CRATE]
    local edits crate crates=() all passed
    copy=$(mktemp -d) || exit 1
    trap 'rm -rf "$copy"' EXIT
    cp -R crates crates.txt "$copy" # with out/, so that what is proved already need not be proved again
    rm -rf "$copy"/crates/*/must-fail
    for edits in "$copy"/crates/${1:-*}/wrong-answers; do
        [ -d "$edits" ] || continue
        crate=$(basename "$(dirname "$edits")")
        crates+=("$crate")
        mv "$edits" "$copy/crates/$crate/must-fail"
    done
    [ "${#crates[@]}" -gt 0 ] || {
        printf 'no wrong answers of %s\n0 passed, 1 failed\n' "${1:-any crate}"
        exit 1
    }
    (cd "$copy" && rt must-fail "${crates[@]}" 2>&1) | grep '^rt: ' | tee "$copy/said"
    all=$(find "$copy"/crates/*/must-fail -name '*.edit' | wc -l)
    passed=$(grep -c '^rt: must-fail .*: refused, as it must be\(:\|$\)' "$copy/said")
    printf '%d passed, %d failed\n' "$passed" $((all - passed))
    [ "$passed" -eq "$all" ]
}

apply() {
    awk '
        function start_edit() { delete texts; file = ""; old = ""; pairs = 0; crate = FILENAME; sub(/\/wrong-answers\/.*/, "", crate) }
        function end_edit() { if (edit != "" && !pairs) complain("it has no old: and new: pair") }
        function complain(what) { printf "%s: %s\n", edit, what; bad = 1 }
        function text_of(path,   line, text) {
            while ((getline line < path) > 0) text = text line "\n"
            close(path)
            return text
        }
        FNR == 1 { end_edit(); edit = FILENAME; start_edit() }
        /^file: / { file = substr($0, 7) }
        /^old: / { old = substr($0, 6) }
        /^new:/ {
            new = substr($0, 5)
            sub(/^ /, "", new)
            pairs++
            path = crate "/" file
            if (!(path in texts)) texts[path] = text_of(path)
            at = index(texts[path], old)
            behind = substr(texts[path], at + length(old))
            if (old == "" || !at) complain("not in " file ": " old)
            else if (index(behind, old)) complain("more than once in " file ": " old)
            else texts[path] = substr(texts[path], 1, at - 1) new behind
        }
        END { end_edit(); exit bad }
    ' crates/*/wrong-answers/*.edit
}

[ $# -le 2 ] || usage
case ${1-} in
try) try "${2-}" ;;
apply) apply ;;
*) usage ;;
esac
