#!/usr/bin/env python3
"""Counts the places of the design pass (docs/DESIGN-PASS.md) in the crates' code.

usage: places.py [COMMIT] [--list POINT]     at the top of the repository

Without a commit it reads the working tree. --list prints the places of one point, 1 to 8.
"""
import collections
import re
import subprocess
import sys


def git(*words):
    return subprocess.run(("git",) + words, capture_output=True, text=True, check=True).stdout


def sources(commit, pattern):
    names = git("ls-tree", "-r", "--name-only", commit) if commit else git("ls-files")
    for name in names.splitlines():
        if re.match(pattern, name):
            yield name, git("show", f"{commit}:{name}") if commit else open(name).read()


def functions(text):
    """Each function: its line, its name, its head with the clauses, and its body."""
    for found in re.finditer(r"^( *)(?:pub(?:\(crate\))? )?fn (\w+)", text, re.M):
        open_at = re.search(r"^%s\{$|\{$" % found[1], text[found.start():], re.M)
        close_at = re.search(r"^%s\}$" % found[1], text[found.start():], re.M)
        if not open_at or not close_at or open_at.start() > close_at.start():
            continue
        start = found.start()
        yield (text.count("\n", 0, start) + 1, found[2], text[start:start + open_at.start()],
               text[start + open_at.end():start + close_at.start()])


def code(text):
    """The lines of code, without comments and ghost lines."""
    for number, line in enumerate(text.splitlines(), 1):
        if not re.match(r"\s*(//|ghost |ensures|requires)", line):
            yield number, line


def lines_with(pattern, files):
    return [f"{name}:{number}: {line.strip()}" for name, text in files for number, line in code(text)
            if re.search(pattern, line)]


def shape(body):
    """A body without names, numbers and blanks."""
    return re.sub(r"\s+", " ", re.sub(r"\b[A-Za-z_]\w*\b|\b\d+\b", "x", body)).strip()


def options(files):
    """1: numbers for kinds and refusals, and options and results handed on by hand."""
    found = []
    for name, text in files:
        for number, fn, _, body in functions(text):
            if len(re.findall(r"=> \d+,", body)) > 1 or len(re.findall(r"^ +\d+ => \w", body, re.M)) > 1:
                found.append(f"{name}:{number}: fn {fn}: cases as numbers")
    return found + lines_with(r"None => None|Err\((\w+)\) => Err\(|return None;|Some\((\w+)\) => Some\(\2\)", files)


def twins(files):
    """2: functions of four lines and more that are alike but for names and numbers."""
    alike = collections.defaultdict(list)
    for name, text in files:
        for number, fn, _, body in functions(text):
            if body.count("\n") > 3:
                alike[shape(body)].append(f"{name}:{number}: fn {fn}")
        for kind in re.finditer(r"^pub (struct|enum) (\w+)[^{;]*\{\n(.*?)^\}", text, re.M | re.S):
            fields = [l.strip() for l in kind[3].splitlines() if l.strip() and not l.strip().startswith(("//", "ghost"))]
            if len(fields) > 1:
                alike[kind[1] + " " + re.sub(r"\d+", "n", " ".join(fields))].append(f"{name}: {kind[1]} {kind[2]}")
    return [f"{' ~ '.join(places)}" for places in alike.values() if len(places) > 1]


def loops(files):
    """3: loops that count an index by hand: whiles, and counted ranges whose number indexes or fetches."""
    found = []
    for name, text in files:
        lines = text.splitlines()
        for number, line in enumerate(lines, 1):
            loop = re.match(r"( *)for (\w+) in [^{]*\.\.", line) or re.match(r"( *)(while) ", line)
            if not loop:
                continue
            end = next((i for i in range(number, len(lines)) if lines[i].startswith(loop[1] + "}")), len(lines))
            body = "\n".join(lines[number:end])
            if loop[2] == "while" or re.search(r"[\[(][^\])]*\b%s\b" % loop[2], body):
                found.append(f"{name}:{number}: {line.strip()}")
    return found


def by_hand(files):
    """4: numbers of wrapped ids compared, and functions that compare or convert."""
    return (lines_with(r"\.0 [=!]= \w|\.number\(\) [=!]=", files)
            + lines_with(r"fn (is|comes_before|is_let|(?!visit)\w+_from|(block|label|binding|parent)_(id|number)|binding_id)\(", files))


def repeated(files):
    """5: a clause that stands three times and more, and parameters that travel together in three functions and more."""
    clauses = collections.defaultdict(list)
    pairs = collections.defaultdict(list)
    for name, text in files:
        for number, fn, head, _ in functions(text):
            for clause in re.findall(r"(?:requires|ensures) \w* ?\{(.*)\}", head):
                clauses[clause.strip()].append(f"{name}:{number}")
            parameters = re.findall(r"(\w+): (&(?:mut )?[A-Z]\w*|&\[u8\])", head.split("->")[0])
            names = sorted({f"{n}: {t}" for n, t in parameters})
            for i, one in enumerate(names):
                for other in names[i + 1:]:
                    pairs[one, other].append(f"{name}:{number}")
    return ([f"clause {clause[:90]}: {len(places)} times" for clause, places in clauses.items() if len(places) > 2]
            + [f"{one}, {other}: {len(places)} functions" for (one, other), places in pairs.items() if len(places) > 2])


def buffers(files):
    """6: arrays in fields and variables, and halving by hand."""
    return lines_with(r":\s*&?(mut )?\[[^\]]*; ?\w+\]|= \[\w+; ?\w+\]|low < high", files)


def switches(files):
    """7: traits, dyn, and function pointers."""
    return lines_with(r"\btrait \w|\bdyn \w|: fn\(", files)


def answers(commit):
    """8: answers in the proof files."""
    return [f"{name}: {len(re.findall(r'^pub ', text, re.M))} answers"
            for name, text in sources(commit, r"crates/.*/proofs/.*/Answers\.antt")]


def main(words):
    listed = int(words.pop(words.index("--list") + 1)) if "--list" in words else 0
    words = [w for w in words if w != "--list"]
    commit = words[0] if words else None
    files = list(sources(commit, r"crates/[^/]*/src/.*\.rt"))
    for point, count in enumerate((options, twins, loops, by_hand, repeated, buffers, switches, None), 1):
        places = count(files) if count else answers(commit)
        doc = (count or answers).__doc__
        total = len(places) if count else sum(int(p.split(": ")[1].split()[0]) for p in places)
        print(f"{doc} {total}")
        if listed == point:
            print("\n".join("    " + place for place in places))


main(sys.argv[1:])
