#!/usr/bin/env bash
# Runs the gate, and writes to docs/TIMES.md how long each part of it took, and how many edits each crate has.
# Given a file with what a gate printed, it goes by that, and runs nothing.
set -euo pipefail
cd "$(dirname "$0")/.."

if [ $# -gt 0 ]; then
    log=$1
else
    log=$(mktemp)
    trap 'rm -f "$log"' EXIT
    : >>docs/TIMES.md # README links it, and the gate holds links to the tree
    scripts/test.sh | tee "$log"
fi
cores=$(nproc)
day=$(date -u -r "$log" +%F)
kit=$(rt version)

page=$(awk -v cores="$cores" -v day="$day" -v kit="$kit" '
    # rt: must-fail NAME/EDIT: refused, as it must be: PLACE
    /^rt: must-fail [^ ]+: refused/ {
        split($3, name, "/")
        if (!(name[1] in edits)) crates[++n] = name[1]
        edits[name[1]]++
        all_edits++
    }
    # rt: ok; ..
    /^rt: ok/ { said = $0 }
    # after "Seconds:", a line for each part, and the tally
    /^Seconds:$/ { in_parts = 1; next }
    in_parts && /^ *[0-9]+  / {
        seconds = $1
        whole += seconds
        sub(/^ *[0-9]+  /, "")
        parts[++m] = $0
        took[m] = seconds
    }
    /^[0-9]+ passed, [0-9]+ failed$/ { tally = $0 }
    END {
        print "# Times\n"
        print "```sh\nmake times\n```\n"
        print "runs the gate and writes this page. The last run was on " day ", on " cores " cores, with `" kit "`: " tally ".\n"
        print "`rt ci` keeps what it passed on a machine, and proves again what changed and what stands on it. Of this run it says:"
        print "`" said "`\n"
        print "| part of the gate | s |"
        print "|---|---:|"
        for (i = 1; i <= m; i++) printf "| %s | %d |\n", parts[i], took[i]
        printf "| all | %d |\n\n", whole
        print "| crate | must-fail edits |"
        print "|---|---:|"
        for (i = 1; i <= n; i++) printf "| `%s` | %d |\n", crates[i], edits[crates[i]]
        printf "| all | %d |\n", all_edits
    }' "$log")
printf '%s\n' "$page" >docs/TIMES.md
