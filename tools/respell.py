#!/usr/bin/env python3
"""Spells the repository's own definitions and lemmas as today's Rattle spells names, by the table respell.tsv beside this file.

usage: python3 tools/respell.py [FOLDER]      FOLDER: a checkout, by default the one that holds this script

A row of the table: the old name, a tab, the new name. A word turns where it stands alone between dots, brackets, quotes and blanks, in every .rt,
.antt and .edit file below crates/. Functions, fields and constants of src/ have no dash and stay. A second run changes nothing.
"""

import os
import re
import sys

HERE = os.path.dirname(os.path.realpath(__file__))
WORD = re.compile(r"[^\s(){}\[\].;,:@\"«»`]+")


def main(argv):
    root = argv[0] if argv else os.path.dirname(HERE)
    with open(os.path.join(HERE, "respell.tsv"), encoding="utf-8") as f:
        table = dict(line.rstrip("\n").split("\t") for line in f)
    changed = 0
    for folder, dirs, files in os.walk(os.path.join(root, "crates")):
        dirs[:] = [d for d in dirs if d != "out"]
        for name in files:
            if not name.endswith((".rt", ".antt", ".edit")):
                continue
            path = os.path.join(folder, name)
            with open(path, encoding="utf-8") as f:
                old = f.read()
            new = WORD.sub(lambda m: table.get(m[0], m[0]), old)
            if new != old:
                with open(path, "w", encoding="utf-8") as f:
                    f.write(new)
                changed += 1
    print(f"respell: {changed} files changed")


if __name__ == "__main__":
    main(sys.argv[1:])
