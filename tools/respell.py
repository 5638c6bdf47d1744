#!/usr/bin/env python3
"""Spells this repository's own definitions and lemmas as today's Rattle does: words in snake case, facts as types.

Run once, at the top, right after the kit's port.py; tools/respell.tsv has a row for each name (old, tab, new). In .antt and
.rt files every name of the code turns, and in comments those in backquotes; in must-fail edits the names of the texts that
are exchanged. `respell.py pages FILE..` turns the names in backquotes of Markdown pages, by all rows.
Functions of src/, exported names, strings, inputs and outputs have no row.
"""
import glob
import re
import sys

WORD = re.compile(r"[^\s(){}.;,@\"«»:\[\]`]+")
SPAN = re.compile(r"`[^`\n]+`")
# names that are facts, each only in the files named (elsewhere the word is English, or another's)
FACTS = {
    "crates/stepping": {"admitted": "IsAdmitted"},
    "crates/ffi": {"admitted": "IsAdmitted", "walker": "IsWalker"},
    "crates/driven": {"admitted": "IsAdmitted", "walker": "IsWalker"},
    "crates/several/proofs/Far.antt": {"is_at": "IsAt"},
    "crates/onward/proofs/Ways.antt": {"is_none": "IsNone"},
}


def rows(pages):
    table = {}
    for line in open("tools/respell.tsv", encoding="utf-8"):
        old, new, *more = line.rstrip("\n").split("\t")
        if pages or not more:
            table[old] = new
    return table


def turn(text, table):
    return WORD.sub(lambda m: table.get(m.group(0), m.group(0)), text)


def spans(text, table):
    return SPAN.sub(lambda m: turn(m.group(0), table), text)


def source(text, mark, table):
    out = []
    for line in text.split("\n"):
        bare = line.lstrip()
        if bare.startswith(mark):
            out.append(spans(line, table))
            continue
        code, sep, said = line.partition(" " + mark)
        out.append(turn(code, table) + sep + spans(said, table))
    return "\n".join(out)


def edit(text, table):
    out = []
    for line in text.split("\n"):
        head, sep, said = line.partition(":")
        out.append(head + sep + turn(said, table) if head in ("old", "new") else spans(line, table))
    return "\n".join(out)


def write(path, change):
    text = open(path, encoding="utf-8").read()
    new = change(text)
    if new != text:
        with open(path, "w", encoding="utf-8") as f:
            f.write(new)


def main(argv):
    if argv[:1] == ["pages"]:
        table = rows(True)
        for path in argv[1:]:
            write(path, lambda t: spans(t, table))
        return
    for path in sorted(glob.glob("crates/**/*.antt", recursive=True) + glob.glob("crates/**/*.rt", recursive=True)):
        table = rows(False)
        for head, facts in FACTS.items():
            if path == head or path.startswith(head + "/"):
                table.update(facts)
        mark = "//" if path.endswith(".rt") else "--"
        write(path, lambda t: source(t, mark, table))
    table = rows(True)
    for path in sorted(glob.glob("crates/*/must-fail/*.edit")):
        write(path, lambda t: edit(t, table))


main(sys.argv[1:])
