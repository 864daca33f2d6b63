#!/usr/bin/env bash
# Holds the documents to the tree, and prints what is not so: each link leads somewhere; of docs/PROMISES.md each
# name stands in a source file, each path is there, each name in a column that names a file is defined in that file,
# and each public function of a library crate and each edit has its place; and no crate has more edits in the gate
# than its budget.
set -u
cd "$(dirname "$0")/.." || exit 1

name="[A-Za-z_][A-Za-z0-9_'-]*"
promises=docs/PROMISES.md

broken_links() {
    local page link
    for page in README.md docs/*.md docs/*/*.md; do
        [ -f "$page" ] || continue # no such folder
        while read -r link; do
            [ -e "$(dirname "$page")/$link" ] || printf '%s: no %s\n' "$page" "$link"
        done < <(grep -oE '\]\([^)#]+' "$page" | cut -c 3- | grep -v '://')
    done
}

# What stands between backticks, a line each.
code() { grep -oE '`[^`]+`' "$promises" | tr -d '`'; }

edits() { find crates -name '*.edit' -exec basename -a -s .edit {} +; }

known_names() {
    grep -rohE "$name" --include='*.antt' --include='*.rt' --include='*.rs' crates rust/*/src rust/*/tests
    edits
    ls crates
    find crates rust include docs scripts -name target -prune -o -name '*.*' -exec basename -a {} + | grep -oE "$name"
}

missing_names() {
    comm -23 <(code | grep -v / | grep -oE "$name" | sort -u) <(known_names | sort -u) |
        sed "s|^|$promises: nothing is called |"
}

missing_paths() {
    local path
    code | grep -E '^(crates|rust|include|docs|scripts)/[^ ]*$' | grep -vE 'LABEL|NAME|::' | sort -u | while read -r path; do
        [ -e "$path" ] || printf '%s: no %s\n' "$promises" "$path"
    done
}

unnamed_edits() {
    comm -23 <(edits | sort -u) <(code | grep -oE "$name" | sort -u) |
        sed "s|^|$promises: no word of the edit |"
}

# Of a table whose column's title names files, the names in that column must be defined in one of them; of a row with a
# cell that is a file, those in the cell before it must be defined there.
misplaced_names() {
    awk -v page="$promises" '
        function defines(path, what,   line, token) {
            if (!(path in read)) {
                read[path] = 1
                while ((getline line < path) > 0) {
                    sub(/^ +/, "", line)
                    while (sub(/^(abbrev|unfoldable|pub|record|data) /, "", line)) continue
                    token = line
                    sub(/ .*/, "", token)
                    if (line ~ /^[^ ]+ [:({]/) defined[path, token] = 1
                }
                close(path)
            }
            return (path, what) in defined
        }
        # the words of a cell that stand between backticks, into list
        function words(cell, list,   n, k, m) {
            n = split(cell, parts, "`")
            m = 0
            for (k = 2; k <= n; k += 2) list[++m] = parts[k]
            return m
        }
        function hold(cell, files,   n, m, i, j, found, paths, names, where) {
            m = words(files, paths)
            n = words(cell, names)
            for (i = 1; i <= n; i++) {
                if (names[i] ~ /\//) continue
                found = 0
                where = ""
                for (j = 1; j <= m; j++) {
                    if (paths[j] !~ /^crates\/.*\.antt$/) continue
                    where = where " " paths[j]
                    if (defines(paths[j], names[i])) found = 1
                }
                if (where != "" && !found) printf "%s: %s is not defined in%s\n", page, names[i], where
            }
        }
        !/^\|/ { in_table = 0; next }
        {
            n = split($0, cells, "|")
            if (!in_table) {
                in_table = 1
                columns = n
                for (i = 1; i <= n; i++) titles[i] = cells[i]
                next
            }
            for (i = 2; i < n; i++) {
                if (titles[i] ~ /`crates\//) hold(cells[i], titles[i])
                else if (cells[i] ~ /^ `crates\/[^`]*\.antt` $/) hold(cells[i - 1], cells[i])
            }
        }' "$promises"
}

# A line CRATE FUNCTION for each function that is public outside its crate, a method with its type or trait. The parts of
# the program `vectors` only print.
public_functions() {
    local crate
    for crate in crates/*/; do
        crate=$(basename "$crate")
        case $crate in report | *_vectors) continue ;; esac
        [ -f "crates/$crate/src/lib.rt" ] || continue
        find "crates/$crate/src" -name '*.rt' -exec awk -v crate="$crate" '
            FNR == 1 || /^}/ { type = ""; in_trait = 0 }
            /^impl/ && !/ for / {
                type = $0
                sub(/^impl(<[^>]*>)? /, "", type)
                sub(/[<{ ].*/, "::", type)
            }
            /^pub trait / {
                type = $3
                sub(/[:<{].*/, "", type)
                type = type "::"
                in_trait = 1
            }
            /^ *pub (extern "C" )?fn / || (in_trait && /^    fn /) {
                sub(/^.*fn /, "")
                sub(/[<(].*/, "")
                print crate, type $0
            }' {} +
    done | sort -u
}

# The same of the tables of functions: a section begins with its crate, and the first column has the functions.
promised_functions() {
    awk '
        /^## / { crate = "" }
        /^`[a-z_]+` \(/ { split($0, parts, "`"); crate = parts[2] }
        /^\| `/ && crate != "" {
            split($0, cells, "|")
            n = split(cells[2], parts, "`")
            for (i = 2; i <= n; i += 2) {
                m = split(parts[i], path, "::")
                print crate, (m > 1 && path[m - 1] ~ /^[A-Z]/ ? path[m - 1] "::" : "") path[m]
            }
        }' "$promises" | sort -u
}

unpromised_functions() {
    comm -23 <(public_functions) <(promised_functions) | sed "s|^|$promises: no promise of |"
    comm -13 <(public_functions) <(promised_functions) | sed "s|^|$promises: no such public function: |"
}

over_budget() {
    local folder crate most count
    for folder in crates/*/must-fail; do
        crate=$(basename "$(dirname "$folder")")
        most=12
        [ "$crate" = hoursquall ] && most=8
        count=$(find "$folder" -name '*.edit' | wc -l)
        [ "$count" -le "$most" ] || printf '%s: %d edits, over its budget of %d\n' "$folder" "$count" "$most"
    done
}

exec 2>&1 # what a part of it complains of counts too
said=$(
    broken_links
    missing_names
    missing_paths
    misplaced_names
    unpromised_functions
    unnamed_edits
    over_budget
)
[ -z "$said" ] || {
    printf '%s\n' "$said"
    exit 1
}
