#!/usr/bin/env python3
"""Runs the program `layout` beside the Rust on random token lists, with the default options.

    tools/build.sh layout && python3 tests/program_beside_rust.py [LISTS [SEED]]

Texts are compared with those of format.rs, the plain mark with the model of definition_beside_rust.py.
"""
import os
import random
import subprocess
import sys

import definition_beside_rust as beside

LISTS = int(sys.argv[1]) if len(sys.argv) > 1 else 1000
SEED = int(sys.argv[2]) if len(sys.argv) > 2 else 1
DEFAULTS = (1, 4, 40, 40)


def sheet(tokens):
    line = lambda what, kind, w: b"%s %d %s\n" % (what, kind, w.replace(b"\\", b"\\\\").replace(b"\n", b"\\n"))
    rows = [b"what kind text\n"]
    for kind, lexeme, leading, trailing in tokens:
        rows += [line(b"L", k, c) for k, c in leading] + [line(b"T", kind, lexeme)] + [line(b"R", k, c) for k, c in trailing]
    return b"".join(rows)


def main():
    rng = random.Random(SEED)
    lists = []
    for _ in range(LISTS):
        tokens = [t for _ in range(rng.randrange(1, 6)) for t in beside.make(rng)[1]]
        lists.append((DEFAULTS, tokens))
    program = os.path.join(beside.ROOT, "target", "bin", "layout")
    marked = 0
    for (_, tokens), text in zip(lists, beside.rust(lists)):
        out = subprocess.run([program], input=sheet(tokens), capture_output=True, check=True).stdout
        names, values, got = out.split(b"\n", 2)
        length, commas, mark = map(int, values.split())
        assert names == b"length commas plain" and got == text and length == len(text), (tokens, out, text)
        assert mark == (1 if beside.plain(tokens) else 0), (tokens, mark)
        marked += mark
    print("%d lists: the Rust's texts, by the program; %d bear the plain mark" % (LISTS, marked))


if __name__ == "__main__":
    main()
