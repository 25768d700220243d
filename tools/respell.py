#!/usr/bin/env python3
"""Brings this repository's own words in specs/ and proofs/ to one spelling: words in snake case, types in camel case.

usage: respell.py [--list]        at the top of the repository, once

A word is one that a file of specs/ or proofs/ declares: a definition, a lemma, a field of a record or a
constructor. Names that Rattle makes (goals and the labels of steps) and names of src/ stay as they are.
--list prints the table of old and new names and writes nothing.
"""

import collections
import glob
import os
import re
import sys

NAME = r"[A-Za-z][A-Za-z0-9'_-]*"
TOKEN = re.compile(r"(?<![A-Za-z0-9'_·-])" + NAME + r"(?![A-Za-z0-9'_·-])")
TOP = re.compile(rf"^(?:abbrev |unfoldable |pub )*(record |data )?({NAME})((?: \{{[^{{}}]*\}}| \([^()]*\))*) :(?!:)")
# A field, a constructor, or a word of a module with parameters or of a `where`: it stands indented.
MEMBER = re.compile(rf"^ +(?:abbrev |unfoldable |pub |record |data )*({NAME})((?: \{{[^{{}}]*\}}| \([^()]*\)| {NAME})*) :(?!:)")
# Two names that a dash joins, as the library spells its lemmas.
JOINED = {
    ("first", "append"), ("first", "map"), ("length", "tabulated"), ("take", "tabulated"), ("get_or", "tabulated"),
    ("sum_by", "append"), ("or_else", "assoc"), ("drop", "map"), ("take", "plus"),
}

# Where the plain spelling would meet another name.
OTHERWISE = {
    "end-of": "end_from", "part-of": "part_from", "countFits": "count_suits", "children-to": "children_to_lem",
    "frame-number": "frame_number_lem", "kind-said": "kind_said_lem", "of-child": "of_child_lem", "use-of": "use_of_lem",
    "in-module": "in_the_module", "in-block": "in_the_block", "Laid_out": "LaidOut", "Laid-out": "LaidOut", "sheetNode": "sheet_node", "sheetChild": "sheet_child",
}
# The same, in some files alone: a lemma, and the word of the file, in the older spelling, that it would meet.
THERE = {
    "proofs/Whole.antt": ("is_body", "isBody"),
    "proofs/Reach.antt": ("parent_of", ""),
    "proofs/Record.antt": ("parent_of", ""),
}


def antt():
    return sorted(p for p in glob.glob("crates/*/specs/**/*.antt", recursive=True) + glob.glob("crates/*/proofs/**/*.antt", recursive=True))


def snake(word):
    return re.sub(r"(?<=[a-z0-9])(?=[A-Z])", "_", word).lower()


def new_name(old):
    if old in OTHERWISE:
        return OTHERWISE[old]
    old = old.replace("getD", "get_or")
    if old[0].isupper():
        return "".join(part[:1].upper() + part[1:] for part in old.split("-"))
    # A capital after a dash or at the start of a part is a constructor's or a type's: only camel case inside a part turns.
    parts = [p if p[:1].isupper() else snake(p) for p in old.split("-")]
    out = parts[0]
    for a, b in zip(parts, parts[1:]):
        out += ("-" if (a, b) in JOINED else "_") + b
    return out


def declared():
    """The words that the repository's texts declare, with the files that declare them."""
    found = collections.defaultdict(set)
    for path in antt():
        for line in open(path, encoding="utf-8"):
            if re.match(r" *(--|use |pub mod |mod |let |in |where )", line) or re.search(r":\s*(goal|need|given)\.", line):
                continue
            m = TOP.match(line)
            if m:
                found[m[2]].add(path)
                continue
            m = MEMBER.match(line)
            if m:
                for name in [m[1]] + re.findall(rf" ({NAME})", re.sub(r"\{{[^{{}}]*\}}|\([^()]*\)", "", m[2])):
                    found[name].add(path)
    return found


def main():
    words = declared()
    table = {old: new_name(old) for old in sorted(set(words) | set(OTHERWISE))}
    table = {o: n for o, n in table.items() if o != n}
    texts = {p: open(p, encoding="utf-8").read() for p in antt()}
    rust = {p: open(p, encoding="utf-8").read() for p in sorted(glob.glob("crates/*/src/**/*.rt", recursive=True))}
    taken = collections.defaultdict(set)
    for path, text in list(texts.items()) + list(rust.items()):
        for t in TOKEN.findall(text):
            taken[t].add(path)
    twice = collections.Counter(table.values())
    for old, new in table.items():
        at = {p for p in taken[new]} & {p for p in taken[old]}
        if at or twice[new] > 1 or new in words or "--all" in sys.argv and taken[new]:
            print(f"look: {old} -> {new}: {'declared too; ' if new in words else ''}{len(at)} files have both: {', '.join(sorted(at)[:4])}")
    if "--list" in sys.argv:
        for old, new in table.items():
            print(f"{old}\t{new}")
        return

    def turn(text):
        return TOKEN.sub(lambda m: table.get(m[0], m[0]), text)

    changed = 0
    for path, text in texts.items():
        lemma, meets = THERE.get(path.split("/", 2)[2], ("", ""))
        out = turn(TOKEN.sub(lambda m: m[0] + "_lem" if m[0] == lemma and meets in text else m[0], text))
        if out != text:
            open(path, "w", encoding="utf-8").write(out)
            changed += 1
    for path, text in rust.items():
        # Of src/ the clauses, the ghost items and what they import: a line of code has no word of these spellings.
        lines = []
        for line in text.split("\n"):
            code = line.lstrip()
            lines.append(line if code.startswith("//") else turn(line))
        out = "\n".join(lines)
        if out != text:
            open(path, "w", encoding="utf-8").write(out)
            changed += 1
    print(f"respell: {len(table)} names, {changed} files")


if __name__ == "__main__":
    main()
