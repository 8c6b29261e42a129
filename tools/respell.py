#!/usr/bin/env python3
"""Brings the repository's own definitions and lemmas to one spelling: words in snake case, joined by `_`.

usage: python3 tools/respell.py        at the top of the repository, once

tools/names.txt lists each old name and its new one. A name is respelled where it stands as a whole word: in specs/ and proofs/, in the
clauses of src/ (names of Rust code have neither a hump nor a dash, so they are not touched), and in the pages. Edits of must-fail/ are left alone.
"""
import glob
import os
import re

WORD = re.compile(r"(?<![\w'′-])[A-Za-z][\w'′]*(?:-[\w'′]+)*(?![\w'′-])")
HERE = os.path.dirname(os.path.abspath(__file__))


def names():
    with open(os.path.join(HERE, "names.txt"), encoding="utf-8") as f:
        return dict(line.split() for line in f)


def respelled(text, new):
    return WORD.sub(lambda m: new.get(m.group(0), m.group(0)), text)


def files(top):
    for pattern in ("crates/*/specs/**/*.antt", "crates/*/proofs/**/*.antt", "crates/*/src/**/*.rt", "docs/*.md", "README.md"):
        yield from sorted(glob.glob(os.path.join(top, pattern), recursive=True))


def main():
    new = names()
    marked = {old: word for old, word in new.items() if re.search(r"-|[a-z0-9][A-Z]", old)}
    for path in files(os.path.dirname(HERE)):
        with open(path, encoding="utf-8") as f:
            text = f.read()
        changed = respelled(text, new if path.endswith(".antt") else marked)
        if changed != text:
            with open(path, "w", encoding="utf-8") as f:
                f.write(changed)


main()
