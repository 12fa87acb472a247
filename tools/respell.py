#!/usr/bin/env python3
"""Brings the repository's own definitions and lemmas to the spelling of today's Rattle, and renames the crate hex.

usage: respell.py          at the top of the repository, once, after the kit's port.py

Words are in snake case: a definition `sameBytes` becomes `same_bytes`, a lemma `accepted-good` becomes `accepted_good`. Where a definition and a
lemma fall together, the definition has the plain name and the lemma ends in `_lem`. Names that begin with a capital keep their spelling, and so do
functions of src/, texts, and what the prover itself makes (goals and steps in the proof of a function). The kit has a library `hex`, so the crate of that name is
`hexadecimal` now. The edits in must-fail/ are turned with the files that they edit.
"""
import collections
import glob
import os
import re
import subprocess

NAME = r"[^\s(){}.;,:\"«»\[\]\\`λ]+"
DECLARED = re.compile(r"^\s*(?:(?:pub|abbrev|unfoldable)\s+)*(%s)\s*:\s" % NAME)
TOKEN = re.compile(r"[^\s(){}.;,:\"«»\[\]\\`λ/]+")
# lemmas that port.py gave the name of a definition here
LEMMAS = "as_many own_first read_as in_order none_over record_of found_of entry_place".split()


def files(*patterns):
    return sorted(p for pattern in patterns for p in glob.glob(pattern, recursive=True))


def snake(name):
    if name[0].isupper():
        return name
    parts = []
    for part in name.split("-"):
        if re.search(r"[a-z0-9][A-Z]", part):
            part = re.sub(r"(?<=[a-z0-9])(?=[A-Z])", "_", part).lower()
        parts.append(part)
    return "_".join(parts)


def declared():
    names = set()
    for path in files("crates/*/specs/**/*.antt", "crates/*/proofs/**/*.antt"):
        for line in open(path, encoding="utf-8"):
            found = DECLARED.match(line)
            if found and not line.lstrip().startswith("--"):
                # the goals of a walk have the prover's names
                if path.endswith("/Proof.antt") and re.search(r":\s*tie\.(Need-|invariant|decreases)", line):
                    continue
                names.add(found.group(1))
    return names


def renamings():
    names = declared()
    groups = collections.defaultdict(list)
    for name in names:
        groups[snake(name)].append(name)
    new = {}
    for plain, group in groups.items():
        for name in group:
            if name == "-" or not re.match(r"[a-z]", name):
                continue
            lemma = len(group) > 1 and ("-" in name or name in LEMMAS)
            to = plain + "_lem" if lemma else plain
            if to != name:
                new[name] = to.replace("get_d_", "get_or_")
    assert len(set(new.values())) == len(new), "two names fall together"
    assert not set(new.values()) & (names - set(new)), "a new name is taken"
    return new


def turn(text, new):
    return TOKEN.sub(lambda m: new.get(m.group(0), m.group(0)), text)


def turn_line(line, new, mark):
    """The line turned: code but for its texts, and what stands between backticks in a comment."""
    at = line.find(mark) if mark else 0
    code, said = (line, "") if at < 0 else (line[:at], line[at:])
    code = "".join(part if part.startswith('"') else turn(part, new) for part in re.split(r'("(?:[^"\\]|\\.)*")', code))
    return code + re.sub(r"`[^`\n]+`", lambda m: turn(m.group(0), new), said)


def main():
    new = renamings()
    marks = {".antt": "--", ".rt": "//", ".edit": "//", ".md": None}
    for path in files("crates/*/specs/**/*.antt", "crates/*/proofs/**/*.antt", "crates/*/src/**/*.rt", "crates/*/must-fail/*.edit", "README.md", "docs/**/*.md"):
        old = open(path, encoding="utf-8").read()
        mark = marks[os.path.splitext(path)[1]]
        # a function of src/ may have the name of a lemma
        these = new if path.endswith(".antt") else {name: to for name, to in new.items() if name not in LEMMAS}
        out = "".join(turn_line(line, these, mark) for line in old.splitlines(keepends=True))
        if path.endswith((".antt", ".rt")):
            out = re.sub(r"\bRattle\.hex\b", "Rattle.hexadecimal", out)
        if path.endswith((".rt", ".edit")):
            out = re.sub(r"\bhex::", "hexadecimal::", out)
        if out != old:
            open(path, "w", encoding="utf-8").write(out)
    listed = open("crates.txt", encoding="utf-8").read()
    open("crates.txt", "w", encoding="utf-8").write(re.sub(r"\bhex\b", "hexadecimal", listed))
    os.rename("crates/hex", "crates/hexadecimal")
    for crate in sorted(os.listdir("crates")):
        subprocess.run(["rt", "fmt"], cwd=os.path.join("crates", crate), check=True, stdout=subprocess.DEVNULL)
    with open("/dev/stdout", "w") as out:
        for name in sorted(new):
            print(name, "->", new[name], file=out)


main()
