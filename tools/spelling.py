#!/usr/bin/env python3
"""Gives the repository's own names the spelling of today's Rattle: words in snake case.

usage: python3 tools/spelling.py [FOLDER]

The table beside this script, spelling.tsv, has a row for each name: the old one, a tab, the new one. Every whole name of
specs/, proofs/, clauses and must-fail edits below FOLDER (default: the repository) is turned, and in the pages each name
between backticks. It ran once, straight after the kit's own script, and is not to run again: some new names are other names' old ones.
"""

import glob
import os
import re
import sys

HERE = os.path.dirname(os.path.realpath(__file__))
ROOT = sys.argv[1] if sys.argv[1:] else os.path.dirname(HERE)
NAME = r"[^\s(){}\[\];,.@\"«»\\`]+"
TOKEN = re.compile(r"\"(?:[^\"\\\n]|\\.)*\"|" + NAME)
SPAN = re.compile(r"`[^`\n]+`")

with open(os.path.join(HERE, "spelling.tsv"), encoding="utf-8") as rows:
    NEW = dict(row.rstrip("\n").split("\t") for row in rows if row.strip())


def turn(text):
    return TOKEN.sub(lambda it: NEW.get(it[0], it[0]), text)


def write(path, change):
    with open(path, encoding="utf-8", newline="") as it:
        text = it.read()
    new = change(text)
    if new != text:
        with open(path, "w", encoding="utf-8", newline="") as it:
            it.write(new)


def main():
    inside = os.path.join(ROOT, "crates", "*")
    for kind in ("specs/**/*.antt", "proofs/**/*.antt", "src/**/*.rt", "must-fail/*.edit"):
        for path in glob.glob(os.path.join(inside, kind), recursive=True):
            write(path, turn)
    for path in glob.glob(os.path.join(ROOT, "*.md")) + glob.glob(os.path.join(ROOT, "docs", "*.md")):
        write(path, lambda text: SPAN.sub(lambda it: turn(it[0]), text))


main()
