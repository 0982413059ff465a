#!/usr/bin/env python3
"""Respells the names of our own definitions and lemmas: snake case, and camel case for facts.

usage: python3 tools/respell.py        at the top of the repository, once, after port.py

tools/respell.txt has a line 'OLD NEW' for each name, with the word 'field' for the fields of records. Only whole names in .antt files, in the
clauses of .rt files and in must-fail edits are turned; behind a dot only fields, and names behind a module's.
"""

import os
import re
import sys

HERE = os.path.dirname(os.path.realpath(__file__))
NAME = re.compile(r"(?<![\w'₀-₉-])[A-Za-z][\w'₀-₉-]*")
MODULE = re.compile(r"(?:^|[\s({,.])[A-Z]\w*\.$")


def files(top):
    for folder, dirs, names in os.walk(os.path.join(top, "crates")):
        dirs[:] = sorted(d for d in dirs if d not in ("out", ".git"))
        for n in sorted(names):
            if n.endswith((".antt", ".rt", ".edit")):
                yield os.path.join(folder, n)


def main():
    top = os.path.dirname(HERE)
    with open(os.path.join(HERE, "respell.txt"), encoding="utf-8") as f:
        rows = [line.split() for line in f if line.strip()]
    table = {row[0]: row[1] for row in rows}
    fields = {row[0] for row in rows if "field" in row[2:]}
    paths = list(files(top))
    together = 0
    for path in paths:
        with open(path, encoding="utf-8") as f:
            text = f.read()
        seen = {}

        def turn(m):
            name, before = m.group(0), text[max(0, m.start() - 80) : m.start()]
            if before.endswith(".") and not before.endswith(".."):
                turns = name in fields or MODULE.search(before) or name[0].isupper()
                return table.get(name, name) if turns else name
            seen.setdefault(table.get(name, name), set()).add(name)
            return table.get(name, name)

        out = NAME.sub(turn, text)
        for new, olds in sorted(seen.items()):
            if len(olds) > 1:
                together += 1
                print(f"fall together in {os.path.relpath(path, top)}: {' '.join(sorted(olds))} -> {new}")
        if out != text:
            with open(path, "w", encoding="utf-8") as f:
                f.write(out)
    print(f"{len(paths)} files, {together} names fall together")


if __name__ == "__main__":
    sys.exit(main())
