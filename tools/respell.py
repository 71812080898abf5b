#!/usr/bin/env python3
"""Brings the repository's own definitions and lemmas to today's spelling of names: words in snake case, types and modules in camel case.

usage: python3 tools/respell.py [FOLDER..]     rewrites each .rt and .antt file below the folders (crates, if none is given) by respelled.tsv
       python3 tools/respell.py --text FILE..  rewrites these files, whatever they are (documents, edits, programs that name definitions)

respelled.tsv beside this file has a line for each name: the old one, a tab, the new one. A name is a whole word of antt, so a dash belongs to it.
Where the name in snake case was one of src/'s or of a variable already, the new one ends in _of, or in _lem behind another short word.
Run once, right after port.py. A second run changes nothing.
"""

import os
import re
import sys

HERE = os.path.dirname(os.path.realpath(__file__))
# What ends a name: space, brackets, and the signs that join names in paths.
WORD = re.compile(r"[^\s(){}.,;:·«»⟦⟧⌜⌝\"'`\[\]|/]+")


def table():
    with open(os.path.join(HERE, "respelled.tsv"), encoding="utf-8") as it:
        return dict(line.rstrip("\n").split("\t") for line in it if line.strip())


# Names that are only fields and variables outside these folders keep no ending.
ONLY_IN = {"send_id_of": "crates/recording/", "ask_id_of": "crates/recording/"}
# Fields whose name is also a definition's.
FIELD = re.compile(r"(?<=\.)(source|destination)_port_of\b|\b(source|destination)_port_of(?= =| : ℕ$)", re.M)


def turned(text, names, path=""):
    text = WORD.sub(lambda m: names.get(m.group(), m.group()), text)
    for name, folder in ONLY_IN.items():
        if folder not in os.path.abspath(path):
            text = re.sub(rf"\b{name}\b", name[:-3], text)
    return FIELD.sub(lambda m: (m[1] or m[2]) + "_port", text)


def files(folders):
    for top in folders:
        for folder, dirs, names in os.walk(top):
            dirs[:] = sorted(d for d in dirs if d not in ("out", ".git"))
            yield from (os.path.join(folder, n) for n in sorted(names) if n.endswith((".rt", ".antt")))


def main(argv):
    names = table()
    paths = argv[1:] if argv[:1] == ["--text"] else files(argv or ["crates"])
    changed = 0
    for path in paths:
        with open(path, encoding="utf-8") as it:
            old = it.read()
        new = turned(old, names, path)
        if new != old:
            with open(path, "w", encoding="utf-8") as it:
                it.write(new)
            changed += 1
    print(f"respell: {changed} files changed")


if __name__ == "__main__":
    main(sys.argv[1:])
