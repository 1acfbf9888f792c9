#!/usr/bin/env python3
"""Spells the repository's own definitions and lemmas as names.tsv beside this script says, in every crate.

usage: python3 tools/respell_names.py [--prose FILE..]

A row of names.tsv is the older name, a tab, the newer name. Whole words turn, in .antt and .rt files below crates/, in one pass.
It goes by spelling alone: a name of the library that a row has turns too, as `or-true` in laws/proofs/Indicators.antt, and has to be
put back by hand. Behind a dot stands a field or a step of
a call and never a lemma, so there the ending `_lem`, which sets a lemma apart from the definition of its name, is left off.
With --prose the words inside code spans of the named pages turn instead.
"""

import os
import re
import sys

HERE = os.path.dirname(os.path.realpath(__file__))
WORD = re.compile(r'(\.?)([^\s(){}.;,@"«»\[\]`]+)')
SPAN = re.compile(r"`[^`\n]+`")


def rows():
    with open(os.path.join(HERE, "names.tsv"), encoding="utf-8") as f:
        return dict(line.rstrip("\n").split("\t") for line in f)


def turned(text, table):
    def word(found):
        dot, name = found.group(1), found.group(2)
        if name not in table:
            return found.group(0)
        return dot + (table[name].removesuffix("_lem") if dot else table[name])

    return WORD.sub(word, text)


def rewrite(path, change):
    with open(path, encoding="utf-8") as f:
        old = f.read()
    new = change(old)
    if new != old:
        with open(path, "w", encoding="utf-8") as f:
            f.write(new)
    return new != old


def main(words):
    table = rows()
    if words[:1] == ["--prose"]:
        changed = [p for p in words[1:] if rewrite(p, lambda t: SPAN.sub(lambda s: turned(s.group(0), table), t))]
    else:
        top = os.path.join(os.path.dirname(HERE), "crates") if not words else os.path.join(words[0], "crates")
        changed = []
        for folder, folders, files in os.walk(top):
            folders[:] = sorted(d for d in folders if d != "out")
            for name in sorted(files):
                path = os.path.join(folder, name)
                if name.endswith((".antt", ".rt")) and rewrite(path, lambda t: turned(t, table)):
                    changed.append(path)
    print(f"{len(changed)} files changed")


main(sys.argv[1:])
