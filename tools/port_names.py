#!/usr/bin/env python3
"""Respells this repository's definitions and lemmas as the library spells its own: words in snake case, types in camel case.

usage: python3 tools/port_names.py [FOLDER]      at the top of the checkout, or of the one in FOLDER

The table is port_names.tsv beside this script: an old name, a tab, the new one. Whole names turn, in .antt files and in the clauses and ghost items
of .rt files; strings, functions of src/ and exported names keep their spelling. A second run changes nothing.
"""

import os
import re
import sys

HERE = os.path.dirname(os.path.realpath(__file__))
WORD = re.compile(r'"(?:[^"\\\n]|\\.)*"|[^\s(){}.;,@"«»`]+')


def table():
    with open(os.path.join(HERE, "port_names.tsv"), encoding="utf-8") as f:
        return dict(line.rstrip("\n").split("\t") for line in f if line.strip())


def turned(text, names):
    return WORD.sub(lambda m: names.get(m.group(0), m.group(0)), text)


def main():
    root = sys.argv[1] if len(sys.argv) > 1 else "."
    names = table()
    changed = 0
    for folder, dirs, files in os.walk(os.path.join(root, "crates")):
        dirs[:] = sorted(d for d in dirs if d not in ("out", ".git"))
        for name in sorted(files):
            if not name.endswith((".rt", ".antt")):
                continue
            path = os.path.join(folder, name)
            with open(path, encoding="utf-8") as f:
                old = f.read()
            new = turned(old, names)
            if new != old:
                changed += 1
                with open(path, "w", encoding="utf-8") as f:
                    f.write(new)
    print(f"port_names: {changed} files changed")


if __name__ == "__main__":
    main()
