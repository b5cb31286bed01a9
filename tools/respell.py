#!/usr/bin/env python3
"""Respells the definitions and lemmas of this repository in snake case.

usage: python3 tools/respell.py [FOLDER]

Run once, over the crates of FOLDER (this checkout if none is given), right
after the kit's own port.py. The table tools/respelled.txt has the old name and
the new one on each line. A name that is spelled with a dash is left alone in
comments and in lines with a string, where it may be plain English.
"""

import os
import re
import sys

HERE = os.path.dirname(os.path.realpath(__file__))
NAME = re.compile(r"(?<![\w'-])[A-Za-z_][A-Za-z0-9_'-]*")
COMMENT = {".antt": "--", ".rt": "//"}


def table():
    with open(os.path.join(HERE, "respelled.txt"), encoding="utf-8") as f:
        return dict(line.split() for line in f)


def respell_line(line, mark, names):
    at = line.find(mark)
    code, comment = (line, "") if at < 0 else (line[:at], line[at:])

    def in_code(m):
        return names.get(m.group(), m.group())

    def in_prose(m):
        return m.group() if "-" in m.group() else names.get(m.group(), m.group())

    parts = code.split('"')
    parts[0::2] = [NAME.sub(in_code, x) for x in parts[0::2]]
    return '"'.join(parts) + NAME.sub(in_prose, comment)


def main():
    root = sys.argv[1] if len(sys.argv) > 1 else os.path.dirname(HERE)
    names = table()
    for folder, dirs, files in os.walk(os.path.join(root, "crates")):
        dirs[:] = [d for d in dirs if d != "out"]
        for name in sorted(files):
            mark = COMMENT.get(os.path.splitext(name)[1])
            if mark is None:
                continue
            path = os.path.join(folder, name)
            with open(path, encoding="utf-8") as f:
                old = f.read()
            new = "".join(respell_line(x, mark, names) for x in old.splitlines(keepends=True))
            if new != old:
                with open(path, "w", encoding="utf-8") as f:
                    f.write(new)


main()
