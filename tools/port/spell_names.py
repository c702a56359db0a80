#!/usr/bin/env python3
"""Gives the repository's own definitions, fields and lemmas the spelling of today's library: words in snake case.

usage: python3 tools/port/spell_names.py [FOLDER]     (right after port.py; FOLDER is the top of a checkout)

The table beside it, names.tsv, has each old name and its new one. Names are changed in specs/, proofs/ and in the
clauses of src/; comments, strings and Rust code have none of them.
"""
import os
import re
import sys

HERE = os.path.dirname(os.path.abspath(__file__))
# A name of antt ends at a blank, a bracket or a mark.
STOP = r"\s(){}.;,⌜⌝«»\"@"


def table():
    with open(os.path.join(HERE, "names.tsv"), encoding="utf-8") as f:
        return dict(line.rstrip("\n").split("\t") for line in f)


def main():
    root = sys.argv[1] if len(sys.argv) > 1 else "."
    names = table()
    word = re.compile(rf"(?<![^{STOP}])[^{STOP}]+(?![^{STOP}])")
    changed = 0
    for folder, dirs, files in os.walk(os.path.join(root, "crates")):
        dirs[:] = sorted(d for d in dirs if d != "out")
        for name in sorted(files):
            if not name.endswith((".antt", ".rt")):
                continue
            comment = "--" if name.endswith(".antt") else "//"
            path = os.path.join(folder, name)
            with open(path, encoding="utf-8") as f:
                old = f.read()
            lines = []
            for line in old.split("\n"):
                code, mark, rest = line.partition(comment) if line.lstrip().startswith(comment) else (line, "", "")
                lines.append(word.sub(lambda m: names.get(m.group(), m.group()), code) + mark + rest)
            new = "\n".join(lines)
            if new != old:
                changed += 1
                with open(path, "w", encoding="utf-8") as f:
                    f.write(new)
    print(f"spell_names: {changed} files")


main()
