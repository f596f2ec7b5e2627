#!/usr/bin/env python3
"""Respells the repository's own definitions and lemmas: words in snake case, types and facts in camel case.

usage: python3 tools/respell.py     at the top of the repository, once, right after the kit's port.py

tools/respell.txt has a line `old new` for each name. A name is replaced only where it stands whole. In a source file nothing
changes inside a string, so names of functions, exported names, inputs and outputs stay as they are.
"""

import os
import re

HERE = os.path.dirname(os.path.realpath(__file__))
TOKEN = re.compile(r"[^\s(){}\[\];,.@\"`∷⟨⟩|]+")
STRING = re.compile(r'(b?"(?:[^"\\\n]|\\.)*")')


def main():
    with open(os.path.join(HERE, "respell.txt"), encoding="utf-8") as f:
        names = dict(line.split() for line in f if line.strip())

    def turned(text):
        return TOKEN.sub(lambda m: names.get(m.group(0), m.group(0)), text)

    count = 0
    for folder, dirs, files in os.walk("crates"):
        dirs[:] = sorted(d for d in dirs if d != "out")
        for name in sorted(files):
            if not name.endswith((".rt", ".antt")):
                continue
            path = os.path.join(folder, name)
            with open(path, encoding="utf-8") as f:
                old = f.read()
            if name.endswith(".antt"):
                new = turned(old)
            else:
                new = "".join(p if i % 2 else turned(p) for i, p in enumerate(STRING.split(old)))
            if new != old:
                with open(path, "w", encoding="utf-8") as f:
                    f.write(new)
                count += 1
    print(f"respelled {count} files")


main()
