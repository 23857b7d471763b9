#!/usr/bin/env python3
"""Brings this repository's own definitions and lemmas to the kit's spelling: words in snake case, types in camel case.

usage: tools/respell.py [FOLDER]      rewrites crates/ of FOLDER (the repository, if left out) in place, once

tools/respelled.tsv has a line for each name: as the kit's port.py left it, as it is, and `field` where it is a field, which is also read behind a dot.
Functions of src/, exported names, strings, inputs and outputs keep their names. A lemma that would have a definition's name ends in `_lem`.
"""
import os
import re
import sys

HERE = os.path.dirname(os.path.realpath(__file__))
NAME = re.compile(r"(?<![\w'-])[^\W\d][\w'₀-₉-]*(?:-[\w']+)*")


def table():
    names, fields = {}, set()
    with open(os.path.join(HERE, "respelled.tsv"), encoding="utf-8") as f:
        for line in f:
            was, now, *kind = line.rstrip("\n").split("\t")
            names[was] = now
            if kind:
                fields.add(was)
    return names, fields


NAMES, FIELDS = table()
# a plain word may be the name of a function of src/ too: it is read in .antt files alone
ODD = {n for n in NAMES if "-" in n or re.search(r"[a-z][A-Z]", n)}


def turn(text, plain):
    def one(m):
        n = m.group(0)
        if n not in NAMES or (n not in ODD and not plain):
            return n
        behind = m.start() > 0 and text[m.start() - 1] == "." and not text[: m.start()].endswith("..")
        return n if behind and n not in FIELDS else NAMES[n]

    return NAME.sub(one, text)


def prose(text):
    """Of a comment: names in camel case, and what stands between backticks."""
    text = re.sub(r"`[^`]*`", lambda m: turn(m.group(0), True), text)
    return re.sub(r"(?<![\w'.-])[a-z]+[A-Z]\w*", lambda m: NAMES.get(m.group(0), m.group(0)), text)


def code(line, mark, plain):
    """A line of code: strings stay, a comment is prose."""
    out, at = [], 0
    for m in re.finditer(r'"(?:[^"\\]|\\.)*"|' + re.escape(mark) + r".*$", line):
        out.append(turn(line[at : m.start()], plain))
        out.append(prose(m.group(0)) if m.group(0).startswith(mark) else m.group(0))
        at = m.end()
    return "".join(out) + turn(line[at:], plain)


def respell(path):
    with open(path, encoding="utf-8") as f:
        was = f.read()
    if path.endswith(".edit"):
        now = "\n".join(l if l.startswith("file:") else turn(l, True) for l in was.split("\n"))
    else:
        antt = path.endswith(".antt")
        now = "\n".join(code(l, "--" if antt else "//", antt) for l in was.split("\n"))
    if now != was:
        with open(path, "w", encoding="utf-8") as f:
            f.write(now)
    return now != was


def main(argv):
    root = argv[0] if argv else os.path.dirname(HERE)
    changed = 0
    for folder, dirs, files in os.walk(os.path.join(root, "crates")):
        dirs[:] = sorted(d for d in dirs if d != "out")
        for f in sorted(files):
            if f.endswith((".antt", ".rt", ".edit")):
                changed += respell(os.path.join(folder, f))
    print(f"respelled {changed} files")


if __name__ == "__main__":
    main(sys.argv[1:])
