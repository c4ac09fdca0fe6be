#!/usr/bin/env python3
"""Spells the repository's definitions and lemmas as respelled.tsv says: old, a tab, new, and where a third column stands, only in those files.

usage: respell.py [FOLDER]    in the sources, specs, proofs and must-fail edits below FOLDER/crates

Whole names turn, in code and in comments. Of an edit only the lines 'old:' and 'new:' turn. Run it once, after port.py.
"""

import os
import re
import sys

HERE = os.path.dirname(os.path.abspath(__file__))


def rows():
    with open(os.path.join(HERE, "respelled.tsv"), encoding="utf-8") as f:
        for line in f:
            old, new, *where = line.rstrip("\n").split("\t")
            yield old, new, where[0].split() if where else None


def pattern(names):
    return re.compile("(?<![\\w'-])(?:" + "|".join(re.escape(n) for n in sorted(names, key=len, reverse=True)) + ")(?![\\w'-])")


def files(top):
    for folder, dirs, names in os.walk(os.path.join(top, "crates")):
        dirs[:] = sorted(d for d in dirs if d != "out")
        for name in sorted(names):
            if name.endswith((".rt", ".antt", ".edit")):
                yield os.path.join(folder, name)


def main(top):
    everywhere = {old: new for old, new, where in rows() if where is None}
    scoped = {}
    for old, new, where in rows():
        for path in where or ():
            scoped.setdefault(path, {})[old] = new
    for path in files(top):
        table = everywhere | scoped.get(os.path.relpath(path, top), {})
        words = pattern(table)
        with open(path, encoding="utf-8") as f:
            text = f.read()
        turn = lambda t: words.sub(lambda m: table[m[0]], t)
        if path.endswith(".edit"):
            new = "".join(turn(l) if l.startswith(("old:", "new:")) else l for l in text.splitlines(keepends=True))
        else:
            new = turn(text)
        if new != text:
            with open(path, "w", encoding="utf-8") as f:
                f.write(new)


if __name__ == "__main__":
    main(sys.argv[1] if len(sys.argv) > 1 else os.path.dirname(HERE))
