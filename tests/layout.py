#!/usr/bin/env python3
"""Says whether the repository is laid out as its documents say.

- The picture in README.md shows each crate of crates.txt once, and by its arrows each crate stands over just those that crates.txt names.
- README's table has a row for each crate, and names the crates of its arrows.
- `specs/` cites no file of `proofs/`, and no definition there has a proof in it.
- Must-fail edits change `src/`, and their labels are words joined by `-`.
"""
import re
import sys
from pathlib import Path

TOP = Path(__file__).resolve().parents[1]


def listed():
    """Each crate of crates.txt, with the crates of the repository that it stands over."""
    lines = [line.split('#')[0].split(':') for line in (TOP / 'crates.txt').read_text().splitlines()]
    over = {line[0].split()[0]: line[1].split() for line in lines if len(line) == 2}
    return {name: {below for below in names if below in over} for name, names in over.items()}


def pictured(readme):
    """The crates of the picture, in order, and for each the crates that an arrow leads from."""
    lines = readme.split('```mermaid')[1].split('```')[0].splitlines()
    nodes = [line.strip() for line in lines if re.fullmatch(r' {4}\w+', line)]
    arrows = {name: set() for name in nodes}
    for line in lines:
        if '-->' in line:
            below, above = line.split('-->')
            arrows.setdefault(above.strip(), set()).update(name.strip() for name in below.split('&'))
    return nodes, arrows


def reached(arrows, name):
    """All crates below one."""
    below = set(arrows.get(name, ()))
    for other in arrows.get(name, ()):
        below |= reached(arrows, other)
    return below


def faults():
    readme = (TOP / 'README.md').read_text()
    over = listed()
    nodes, arrows = pictured(readme)
    if sorted(nodes) != sorted(over):
        yield 'README.md: the picture and crates.txt differ in %s' % sorted(set(nodes) ^ set(over))
    for name in sorted(over.keys() & arrows.keys()):
        if reached(arrows, name) != over[name]:
            yield 'README.md: by the picture %s stands over other crates than crates.txt says' % name
    rows = dict(re.findall(r'^\| `(\w+)` \| ([\w ]*?) ?\| ', readme, re.M))
    for name in over:
        if set(rows.get(name, '-').split()) != arrows.get(name):
            yield 'README.md: the row of %s does not name the crates of its arrows' % name
    for path in sorted((TOP / 'crates').glob('*/specs/**/*.antt')):
        text = re.sub(r'--.*', '', path.read_text())
        if re.search(r'^use (?!Rattle\.std\.proofs\.Math\.)\S*\bproofs\b', text, re.M):
            yield '%s cites proofs' % path.relative_to(TOP)
        if re.search(r'\b(omega|search|simp|rw|cc|refl|absurd|subst)\b', text):
            yield '%s has a proof in it' % path.relative_to(TOP)
    for path in sorted((TOP / 'crates').glob('*/must-fail/*')):
        if not re.fullmatch(r'[a-z0-9]+(-[a-z0-9]+)*\.edit', path.name) or not re.search(r'^file: src/', path.read_text(), re.M):
            yield '%s: its label or its file' % path.relative_to(TOP)


def main():
    found = list(faults())
    print('\n'.join(found + ['layout: %s' % ('as the documents say' if not found else '%d faults' % len(found))]))
    sys.exit(bool(found))


main()
