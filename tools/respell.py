#!/usr/bin/env python3
"""Brings the names of this repository's definitions, lemmas, fields and ghost values to one spelling: words in snake case, types in
camel case. The table respell.tsv beside it has each old name with its new one. It rewrites the files of specs/ and proofs/, and in
src/ each line that is no comment and has no string, since only ghost names have a dash there; in must-fail/ only edits of specs/.
Names of functions, strings and outputs stay.

usage: respell.py FOLDER      a checkout of this repository
"""
import glob
import os
import re
import sys

TABLE = os.path.join(os.path.dirname(os.path.realpath(__file__)), "respell.tsv")
WORD = re.compile(r"[^\s(){}\[\].,;:«»|=\"]+")


def names():
    with open(TABLE, encoding="utf-8") as f:
        return dict(line.rstrip("\n").split("\t") for line in f)


def respelled(text, table):
    return WORD.sub(lambda m: table.get(m[0], m[0]), text)


def source(text, table):
    """In code only what is ghost: nothing else may have a dash in a name."""
    return "\n".join(l if l.lstrip().startswith("//") or '"' in l else respelled(l, table) for l in text.split("\n"))


def main(root):
    table = names()
    if len(set(table.values())) != len(table):
        raise SystemExit("respell: two names fall together")
    for kind, turn in (("specs/**/*.antt", respelled), ("proofs/**/*.antt", respelled), ("src/**/*.rt", source)):
        for path in glob.glob(os.path.join(root, "crates/*", kind), recursive=True):
            with open(path, encoding="utf-8") as f:
                old = f.read()
            new = turn(old, table)
            if new != old:
                with open(path, "w", encoding="utf-8") as f:
                    f.write(new)
    for path in glob.glob(os.path.join(root, "crates/*/must-fail/*.edit")):
        with open(path, encoding="utf-8") as f:
            old = f.read()
        if old.startswith("file: specs/"):
            new = respelled(old, table)
            if new != old:
                with open(path, "w", encoding="utf-8") as f:
                    f.write(new)


if __name__ == "__main__":
    if len(sys.argv) != 2:
        raise SystemExit(__doc__)
    main(sys.argv[1])
