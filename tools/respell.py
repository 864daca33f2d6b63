#!/usr/bin/env python3
"""Brings this repository's own definitions and lemmas to today's spelling: words in snake case.

usage: python3 tools/respell.py        at the top, once, directly after the kit's port.py

Renamed are the names that crates/*/specs and the lemma files crates/*/proofs/*.antt define, their records' fields and their
constructors: `stepOf` becomes `step_of`, `any-loss` becomes `any_loss`. A dash that joins two names stays, as in
`length-bytes`. A definition that would bear the name of the function of src/ whose contract cites it gets `_def`, and a lemma
that would bear a definition's name `_lem`. Turned are .antt files, the clauses of .rt files, the texts of .edit files and, between
backticks, the pages. Functions of src/, exported names and strings keep theirs.
"""

import glob
import re
import sys

# what the parts of a name may be where a dash joins them: names of their own
NAMES = set("length append nil drop take get flatten snoc cons suc replace zeros map sum total bytes word".split())
# definitions that have, or would have, the name of a function in a file whose clauses cite them
LIKE_FUNCTIONS = set(
    "is_zero open_in no_state is_free is_alone state_in is_of positions_of is_unread state_of open_of player_of same_words"
    " state_after lacks_data runs_past no_receiver passes_as length_of is_hit".split()
)
DEFINED = re.compile(r"^ *(?:(?:abbrev|unfoldable|pub|record|data|constructor) )*([^\s:(){}λ,.;]+) :(?= )")
NAME = re.compile(r"[A-Za-z_][A-Za-z0-9_'₀-₉-]*")
MEMBER = re.compile(r"(?:[a-z0-9_')\]]|(?<![A-Za-z])[A-Z])\.$")  # a name behind it is a field or a module of a function


def is_old(name):
    return "-" in name or bool(name[0].islower() and re.search(r"[a-z0-9][A-Z]", name))


def snake(name):
    parts = [re.sub(r"(?<=[a-z0-9])([A-Z])", lambda m: "_" + m.group(1).lower(), p) if p[:1].islower() else p for p in name.split("-")]
    out = parts[0]
    for before, part in zip(parts, parts[1:]):
        out += ("-" if before in NAMES and part in NAMES else "_") + part
    return out


def defined_names():
    """The defined names, each with whether a file of specs/ or an `abbrev` defines it."""
    names = {}
    for path in glob.glob("crates/*/specs/**/*.antt", recursive=True) + glob.glob("crates/*/proofs/*.antt"):
        with open(path, encoding="utf-8") as file:
            for line in file:
                found = DEFINED.match(line)
                if found and NAME.fullmatch(found.group(1)):
                    names.setdefault(found.group(1), "/specs/" in path)
    return names


def renamings(names):
    renamed = {}
    taken = {n for n in names if not is_old(n)} | {snake(n) for n in names if is_old(n) and "-" not in n}
    for name in sorted(names):
        new = snake(name) if is_old(name) else name
        if "-" not in name and new in LIKE_FUNCTIONS:
            new += "_def"
        elif "-" in name and new in taken and new not in LIKE_FUNCTIONS:
            new += "_lem"
        if new != name:
            renamed[name] = new
    return renamed


def turn(text, renamed):
    def new_name(found):
        name = found.group(0)
        if name in LIKE_FUNCTIONS and MEMBER.search(text[max(0, found.start() - 2) : found.start()]):
            return name
        return renamed.get(name, name)

    return NAME.sub(new_name, text)


def turn_source(text, renamed):
    """Of a .rt file the `ghost use` lines and the clauses."""
    out, in_clause = [], False
    for line in text.split("\n"):
        begins = re.match(r" *(ghost use |requires |ensures |ghost )", line)
        in_clause = bool(begins) or (in_clause and line.strip() not in ("{", ""))
        label = re.match(r" *(?:requires|ensures) [a-z0-9_]+ (?=\{)", line)
        kept = label.group(0) if label else ""
        out.append(kept + turn(line[len(kept) :], renamed) if in_clause and not line.lstrip().startswith("//") else line)
    return "\n".join(out)


def turn_edit(text, renamed):
    return "\n".join(line if line.startswith("file:") else turn(line, {o: n for o, n in renamed.items() if is_old(o)}) for line in text.split("\n"))


def turn_page(text, renamed):
    def cell(found):
        return found.group(0) if "/" in found.group(0) else turn(found.group(0), {o: n for o, n in renamed.items() if is_old(o)})

    return re.sub(r"`[^`\n]+`", cell, text)


def main():
    names = defined_names()
    renamed = renamings(names)
    final = {renamed.get(n, n) for n in names}
    edits = {}  # the same, and what port.py turned
    together = 0
    paths = glob.glob("crates/*/specs/**/*.antt", recursive=True) + glob.glob("crates/*/proofs/**/*.antt", recursive=True)
    pages = ["README.md"] + [p for p in glob.glob("docs/**/*.md", recursive=True) if not p.startswith("docs/PORT")]
    others = glob.glob("crates/*/*/*.edit") + pages
    for path in others:
        with open(path, encoding="utf-8") as file:
            for name in set(NAME.findall(file.read())):
                if is_old(name):
                    new = snake(name)
                    if name in renamed:
                        edits[name] = renamed[name]
                    elif new in LIKE_FUNCTIONS and new + "_def" in final:
                        edits[name] = new + "_def"
                    elif new in final:
                        edits[name] = new
    for path in paths + glob.glob("crates/*/src/**/*.rt", recursive=True) + others:
        with open(path, encoding="utf-8") as file:
            old = file.read()
        if path.endswith(".antt"):
            new = turn(old, renamed)
            seen = {}
            for name in sorted(set(NAME.findall(old))):
                was = seen.setdefault(renamed.get(name, name), name)
                if was != name and not {was, name} & LIKE_FUNCTIONS:
                    together += 1
                    print(f"{path}: {was} and {name} fall together")
        elif path.endswith(".rt"):
            new = turn_source(old, renamed)
        elif path.endswith(".edit"):
            new = turn_edit(old, edits)
        else:
            new = turn_page(old, edits)
        if new != old:
            with open(path, "w", encoding="utf-8") as file:
                file.write(new)
    print(f"{len(renamed)} names renamed, {together} fall together", file=sys.stderr)


main()
