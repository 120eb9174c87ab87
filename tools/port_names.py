#!/usr/bin/env python3
"""Respells the repository's own definitions and lemmas: words in snake case, a lemma named as its function gets _lem.

usage: python3 tools/port_names.py        once, at the top of the checkout, right after the kit's port.py

tools/port_names.tsv has a row for each name: old, a tab, new. In files of specs/ and proofs/ a name turns where it
stands as a whole word; behind a dot only a name in camel case or a field of a record of ours does, since what else
stands there is generated. In files of src/, must-fail edits, pages and tests only names in camel case turn: Rust, C
and Python code here has none of them.
"""

import os
import re

HERE = os.path.dirname(os.path.realpath(__file__))
ROOT = os.path.dirname(HERE)
# Fields of records of ours that have a dash.
FIELDS = {
    "text-filled", "rows-filled", "text-is", "mid-line", "with-state", "not-closed", "no-skip", "no-brace",
    "known-what", "known-kind", "its-token",
}
WORD = re.compile(r"(?<![^\s(){}.;,@\"«»`])[^\s(){}.;,@\"«»`]+")
CAMEL = re.compile(r"(?<![\w-])[a-z]\w*(?:-\w+)*'?(?![\w-])")
PAGES = (".md", ".py", ".sh", ".edit", ".rt", ".rs", ".c", ".h")


def table():
    with open(os.path.join(HERE, "port_names.tsv"), encoding="utf-8") as f:
        return dict(line.rstrip("\n").split("\t") for line in f)


def turned_proof(text, names):
    """A file of specs/ or proofs/, with its names turned."""

    def new(found):
        word = found.group()
        behind = found.start() > 0 and text[found.start() - 1] == "."
        own = re.search(r"[a-z0-9][A-Z]", word) or word in FIELDS
        return names.get(word, word) if own or not behind else word

    return WORD.sub(new, text)


def turned_page(text, names):
    """Any other file: names in camel case alone."""

    def new(found):
        word = found.group()
        return names.get(word, word) if re.search(r"[a-z0-9][A-Z]", word) else word

    return CAMEL.sub(new, text)


def main():
    names = table()
    for folder, folders, files in os.walk(ROOT):
        folders[:] = sorted(f for f in folders if f not in ("out", ".git", "target"))
        for name in sorted(files):
            path = os.path.join(folder, name)
            if not name.endswith((".antt",) + PAGES) or os.path.dirname(path) == HERE:
                continue
            with open(path, encoding="utf-8") as f:
                text = f.read()
            turn = turned_proof if name.endswith(".antt") else turned_page
            new = turn(text, names)
            if new != text:
                with open(path, "w", encoding="utf-8") as f:
                    f.write(new)


if __name__ == "__main__":
    main()
