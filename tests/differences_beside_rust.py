#!/usr/bin/env python3
"""Runs the Rust, and the program `layout` where it is built, on the lists of docs/DIFFERENCES.md's table.

    python3 tests/differences_beside_rust.py

The column "by the Rust, and ours" must be the Rust's text, the column "by the comment" must not. The program takes the
default options alone. Lists with a source are passed over.
"""
import os
import re
import subprocess

import definition_beside_rust as beside
import program_beside_rust as program

KINDS = {lexemes[0].decode(): kind for kind, lexemes in beside.LEXEMES.items() if kind > 1}
TRIVIA = ["LineComment", "DocComment", "BlockComment", "BlankLine"]
SIDE = r"\[(%s)\]" % "|".join(TRIVIA)


def token(word):
    lead = re.match("(?:%s)*" % SIDE, word).group()
    trail = re.search("(?:%s)*$" % SIDE, word[len(lead):]).group()
    name = word[len(lead):len(word) - len(trail)]
    sides = [[(TRIVIA.index(x), b"" if x == "BlankLine" else b"c") for x in re.findall(SIDE, side)] for side in (lead, trail)]
    kind, lexeme = {"NL": (1, b""), "EOF": (0, b"")}.get(name, (KINDS.get(name, 22), name.encode()))
    return (kind, lexeme, *sides)


def options(cell):
    style, widths = (0 if "S" in cell else 1), ([0, 0] if "Z" in cell else [40, 40])
    for place, name in enumerate(("sig", "list")):
        found = re.search(name + r" (\d+)", cell)
        widths[place] = int(found[1]) if found else widths[place]
    return (style, 4, *widths)


# Two lists of the table with the default options, whose lines would be too long there.
BY_DEFAULT = [
    (
        "record { record { a } ,",
        "record⏎{⏎____record⏎____{⏎________a,⏎____},",
        "record⏎{⏎____record⏎____{⏎________a,⏎____},⏎",
    ),
    (
        "record { record { a } }",
        "record⏎{⏎____record⏎____{⏎________a,⏎____}⏎}",
        "record⏎{⏎____record⏎____{⏎________a,⏎____},⏎}",
    ),
]


def shown(cell):
    return cell.strip("`").replace("⏎", "\n").replace("_", " ").encode()


def rows():
    for words, said, comment in BY_DEFAULT:
        yield words, options(""), shown(comment), shown(said)
    text = open(os.path.join(beside.ROOT, "docs", "DIFFERENCES.md"), encoding="utf-8").read()
    for line in text.split("\n"):
        cells = [c.strip() for c in line.split("|")]
        if len(cells) == 8 and cells[3].startswith("`") and cells[6].startswith("`"):
            yield cells[3].strip("`"), options(cells[4]), *[shown(c) for c in cells[5:7]]


def main():
    table = list(rows())
    lists = [(values, [token(word) for word in words.split()]) for words, values, _, _ in table]
    binary = os.path.join(beside.ROOT, "target", "bin", "layout")
    ran = 0
    for (words, values, comment, said), (_, tokens), text in zip(table, lists, beside.rust(lists)):
        assert text == said != comment, (words, values, text, said, comment)
        if values == program.DEFAULTS and os.path.exists(binary):
            out = subprocess.run([binary], input=program.sheet(tokens), capture_output=True, check=True).stdout
            assert out.split(b"\n", 2)[2] == said, (words, out)
            ran += 1
    print("%d lists: the Rust's texts stand in the table; %d of them by the program too" % (len(table), ran))


if __name__ == "__main__":
    main()
