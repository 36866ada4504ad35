#!/usr/bin/env python3
"""Respells this repository's own ghost names: types in camel case, everything else in snake case.

usage: python3 tools/respell.py          at the top of a tree that port.py of the Rattle kit has just turned
       python3 tools/respell.py --docs   then the names in backticks of README.md and docs/, but for docs/PORT.md, which lists old names

The table beside it, tools/respell.txt, has a line `OLD NEW` for each name: below [names] those that this script turns, below [turned] those that
port.py has turned and documents still have. A name is a whole word of antt. Steps and goals that Rattle itself names (`c.` and `goal.` stand
before them, and goals are declared under their own names) keep theirs. A lemma keeps a dash that joins two names, as in `map-meeting`.
"""

import pathlib
import re
import sys

WORD = re.compile(r"(?<![\w'-])(c\.|goal\.)?([A-Za-z_][\w']*(?:-[\w']+)*)(?![\w'-])")


def table(section):
    rows, here = {}, None
    for line in pathlib.Path(__file__).with_name("respell.txt").read_text().splitlines():
        if line.startswith("["):
            here = line.strip("[]")
        elif line and here in section:
            old, new = line.split()
            rows[old] = new
    return rows


def respelled(text, names):
    def one(m):
        if m.group(1):
            return m.group(0)
        return names.get(m.group(2), m.group(2))

    # A goal is declared under its own name, and its equation begins with it.
    goals = set(re.findall(r"(?m)^(?:abbrev )?pub ([\w'-]+) : goal\.\1", text))
    return WORD.sub(lambda m: m.group(0) if m.group(2) in goals else one(m), text)


def crates():
    names = table({"names"})
    for path in sorted(pathlib.Path("crates").rglob("*")):
        if path.suffix in (".rt", ".antt") and "out" not in path.parts:
            old = path.read_text()
            new = respelled(old, names)
            if new != old:
                path.write_text(new)


def docs():
    names = table({"names", "turned"})
    for path in [pathlib.Path("README.md"), *sorted(pathlib.Path("docs").glob("*.md"))]:
        if path.name == "PORT.md":
            continue
        old = path.read_text()
        new = re.sub(r"`[^`\n]+`", lambda m: respelled(m.group(0), names), old)
        if new != old:
            path.write_text(new)


if __name__ == "__main__":
    docs() if "--docs" in sys.argv[1:] else crates()
