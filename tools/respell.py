#!/usr/bin/env python3
"""Respells the repository's own definitions and lemmas: words in snake case, types and facts in camel case.

usage: python3 tools/respell.py TABLE        in the repository, after the kit's port.py, once

TABLE has a line 'OLD NEW' for each name. Only whole names are turned, in .rt, .antt and .edit files below crates/,
and never inside a string of code.
"""

import glob
import re
import sys

NAME = re.compile(r"(?<![\w'.-])[^\W\d][\w']*(?:-[\w']+)*|(?<=\.)[^\W\d][\w']*(?:-[\w']+)*")
STRING = re.compile(r'b?"(?:[^"\\\n]|\\.)*"')


def turned(text, table):
    return NAME.sub(lambda m: table.get(m.group(0), m.group(0)), text)


def outside_strings(text, table):
    out, at = [], 0
    for m in STRING.finditer(text):
        out += [turned(text[at : m.start()], table), m.group(0)]
        at = m.end()
    return "".join(out) + turned(text[at:], table)


def main():
    with open(sys.argv[1], encoding="utf-8") as f:
        table = dict(line.split() for line in f if line.strip())
    for kind in ("rt", "antt", "edit"):
        for path in sorted(glob.glob(f"crates/**/*.{kind}", recursive=True)):
            if "/out/" in path:
                continue
            with open(path, encoding="utf-8") as f:
                old = f.read()
            new = turned(old, table) if kind == "antt" else outside_strings(old, table)
            if new != old:
                with open(path, "w", encoding="utf-8") as f:
                    f.write(new)


main()
