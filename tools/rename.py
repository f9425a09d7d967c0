#!/usr/bin/env python3
"""Spells the names of definitions and lemmas as tools/renames.txt says, in specs/, proofs/ and the clauses of src/.

usage: python3 tools/rename.py [ROOT]     ROOT is a checkout, by default the one that this file lies in

A name is turned where it stands as a whole word; comments and strings stay as they are. Functions of src/ have no such
names. Run once, after /opt/rattle/port/port.py.
"""
import os
import re
import sys

HERE = os.path.dirname(os.path.realpath(__file__))
WORD = re.compile(r"[^\s(){}\[\];,.«»\"]+")
# a string or a comment, or a word
PART = re.compile(r"\"(?:\\.|[^\"\\\n])*\"|//[^\n]*|(?<![^\s(){}])--[^\n]*|" + WORD.pattern)


def names():
    with open(os.path.join(HERE, "renames.txt"), encoding="utf-8") as f:
        return dict(line.split() for line in f if line.strip())


def turned(text, new):
    return PART.sub(lambda m: new.get(m.group(0), m.group(0)), text)


def main(argv):
    root = argv[0] if argv else os.path.dirname(HERE)
    new, count = names(), 0
    for folder, dirs, files in os.walk(os.path.join(root, "crates")):
        dirs[:] = sorted(d for d in dirs if d != "out")
        for name in sorted(files):
            if name.endswith((".rt", ".antt")):
                path = os.path.join(folder, name)
                with open(path, encoding="utf-8") as f:
                    old = f.read()
                text = turned(old, new)
                if text != old:
                    with open(path, "w", encoding="utf-8") as f:
                        f.write(text)
                    count += 1
    print(f"rename: {len(new)} names, {count} files")


if __name__ == "__main__":
    main(sys.argv[1:])
