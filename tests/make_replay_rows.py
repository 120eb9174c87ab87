#!/usr/bin/env python3
"""Makes crates/replay_rows/stdin and stdout: rows, and what the checks, spaces and lookaheads must answer.

    python3 tests/make_replay_rows.py

The answers are those of the model below, which was written from format.rs (`needs_space`, `next_has_comment`,
`block_is_single_line`, `sig_measure`, `group_measure`, `should_break_list`, the signature's test in the
LeftParen arm) and the specification, 'Refusals', and shares nothing with the Rattle code. A lookahead is
asked for where format.rs asks for it.
"""
import os
import random
import struct

HERE = os.path.dirname(os.path.abspath(__file__))
FOLDER = os.path.join(HERE, "..", "crates", "replay_rows")

KINDS = """Eof Newline LeftBrace RightBrace LeftParen RightParen LeftBracket RightBracket Comma Colon Semicolon Question
Dot DotDot ColonColon Hash Bang BangHash Minus Else Fn Record Identifier NumberLiteral ByteLiteral StringLiteral
CharacterLiteral FloatLiteral BoolLiteral Null Array Map Set Result Other""".split()
KIND = {name: i for i, name in enumerate(KINDS)}
LEADING, TOKEN, TRAILING = 0, 1, 2
BLANK_LINE = 3


def named(*names):
    return {KIND[n] for n in names}


# ---- the model

def needs_space(prev, curr):
    if prev in named("LeftParen", "LeftBracket", "Dot", "DotDot", "ColonColon", "Hash", "Bang", "BangHash"):
        return False
    if curr in named("RightParen", "RightBracket", "Dot", "DotDot", "ColonColon", "Comma", "Colon", "Semicolon", "Question"):
        return False
    if (prev, curr) == (KIND["LeftBrace"], KIND["RightBrace"]):
        return False
    if curr == KIND["LeftParen"] and prev in named("Identifier", "RightParen", "RightBracket"):
        return False
    if curr == KIND["LeftBracket"] and prev in named("Identifier", "RightParen", "RightBracket", "Array", "Map", "Set", "Result"):
        return False
    return True


def space(first, second):
    for place, kind in enumerate((first, second)):
        if kind >= len(KINDS):
            return 3, place
    return 0, int(needs_space(first, second))


def check(options, data, size):
    for position, (value, most) in enumerate(zip(options, (1, 16, 65535, 65535))):
        if value > most:
            return 1, position
    if len(data) % 16 or len(data) // 16 > 65535:
        return 2, 0
    rows = list(struct.iter_unpack("<4I", data))
    for i, (what, kind, start, end) in enumerate(rows):
        if what not in (LEADING, TOKEN, TRAILING) or kind not in range(35 if what == TOKEN else 4) or start > end or end > size:
            return 3, i
        if what == TRAILING and (i == 0 or rows[i - 1][0] == LEADING):
            return 3, i
    if rows and rows[-1][0] == LEADING:
        return 3, len(rows) - 1
    return 0, 0


class Token:
    def __init__(self, kind, length, leading):
        self.kind, self.length, self.leading, self.trailing = KINDS[kind], length, leading, []


def tokens(rows):
    found, leading = [], []
    for what, kind, start, end in rows:
        if what == LEADING:
            leading.append(kind)
        elif what == TOKEN:
            found.append(Token(kind, end - start, leading))
            leading = []
        elif found:
            found[-1].trailing.append(kind)
    return found


def sig_measure(ts):
    parens = brackets = commas = width = 0
    saw = False
    for t in ts:
        if t.kind == "LeftParen":
            parens += 1
        elif t.kind == "RightParen":
            parens -= 1
            if parens == 0:
                break
        elif t.kind == "LeftBracket":
            brackets += 1
        elif t.kind == "RightBracket":
            brackets = max(brackets - 1, 0)
        elif t.kind == "Comma" and parens == 1 and brackets == 0:
            commas += 1
        elif t.kind == "Eof":
            break
        width += t.length + 1
        saw = True
    return commas + 1 if saw else 0, width


def group_measure(ts):
    is_paren = ts[0].kind == "LeftParen"
    parens = brackets = commas = width = 0
    for t in ts:
        top = parens + brackets == 1 and is_paren == (parens == 1)
        if t.kind == "LeftParen":
            parens += 1
        elif t.kind == "RightParen":
            parens = max(parens - 1, 0)
            if is_paren and parens == brackets == 0:
                break
        elif t.kind == "LeftBracket":
            brackets += 1
        elif t.kind == "RightBracket":
            brackets = max(brackets - 1, 0)
            if not is_paren and parens == brackets == 0:
                break
        elif t.kind == "Comma" and top:
            commas += 1
        elif t.kind == "Eof":
            break
        width += t.length + 1
    return commas, width


def block_is_single_line(ts):
    depth = 0
    for t in ts:
        if t.leading or t.trailing:
            return False
        if t.kind == "LeftBrace":
            depth += 1
        elif t.kind == "RightBrace":
            depth -= 1
            if depth == 0:
                return True
        elif t.kind in ("Newline", "Eof"):
            return False
    return False


def next_has_comment(ts):
    return bool(ts) and any(kind != BLANK_LINE for kind in ts[0].leading)


def look(which, rows, signature_width, list_width):
    ts = tokens(rows)
    if which == 0:
        params, width = sig_measure(ts)
        return params, width, int((params > 3 or width > signature_width) and params > 0)
    if which == 1:
        commas, width = group_measure(ts)
        return commas, width, int(commas > 0 and width > list_width)
    return (int(block_is_single_line(ts) if which == 2 else next_has_comment(ts)),)


# ---- the cases

def pack(rows):
    return b"".join(struct.pack("<4I", *row) for row in rows)


def check_cases():
    """Options, bytes of rows, size of the text."""
    good = (1, 4, 40, 40)
    row = (TOKEN, KIND["Identifier"], 0, 1)
    for options in [(0, 0, 0, 0), (1, 16, 65535, 65535), (2, 4, 40, 40), (1, 17, 40, 40), (1, 4, 65536, 40), (1, 4, 40, 65536),
                    (2, 17, 65536, 65536), (1, 17, 65536, 65536), (1, 16, 65536, 65536), (4294967295, 4, 40, 40), (1, 4, 40, 4294967295)]:
        yield options, pack([row]), 8
        yield options, pack([row]) + b"x", 8
        yield options, pack([(9, 9, 9, 9)]), 8
    for extra in range(16):
        yield good, b"\0" * extra, 8
        yield good, pack([(9, 9, 9, 9)]) + b"\0" * extra, 8
    # each number of a row at its bounds and past them, first, in the middle and last
    for what in range(5):
        for kind in [0, 3, 4, 34, 35, 256, 4294967295]:
            for place in range(3):
                rows = [row, row, row]
                rows[place] = (what, kind, 0, 1)
                yield good, pack(rows), 8
    for start, end in [(0, 0), (8, 8), (0, 8), (0, 9), (9, 9), (1, 0), (8, 7), (9, 8), (4294967295, 0), (0, 4294967295), (16777216, 16777216), (256, 1)]:
        for what in range(3):
            yield good, pack([row, (what, 0, start, end), row]), 8
            yield good, pack([row, (what, 0, start, end)]), 8
    # every order of up to four rows
    def orders(n):
        return [[]] if n == 0 else [o + [w] for o in orders(n - 1) for w in range(3)]
    for n in range(5):
        for order in orders(n):
            yield good, pack([(w, 0, 0, 1) for w in order]), 8


def random_rows(rng, kinds, count, trivia):
    rows = []
    for _ in range(count):
        def trivium(what):
            start = rng.randrange(9)
            return what, rng.randrange(4), start, rng.randrange(start, 9)
        while rng.random() < trivia:
            rows.append(trivium(LEADING))
        start = rng.randrange(9)
        rows.append((TOKEN, rng.choice(kinds), start, rng.randrange(start, 9)))
        while rng.random() < trivia:
            rows.append(trivium(TRAILING))
    return rows


def calls_of(rows):
    """The lookaheads that format.rs could ask for, and the row from which each is given the rest."""
    first = 0
    for i, (what, kind, _, _) in enumerate(rows):
        if what == TOKEN:
            if KINDS[kind] == "LeftParen":
                yield 0, first
            if KINDS[kind] in ("LeftParen", "LeftBracket"):
                yield 1, first
            if KINDS[kind] == "LeftBrace":
                yield 2, first
            yield 3, i + 1
        if what != LEADING:
            first = i + 1


def look_cases():
    rng = random.Random(7)
    brackets = sorted(named("LeftParen", "RightParen", "LeftBracket", "RightBracket", "Comma", "Newline", "Identifier"))
    braces = sorted(named("LeftBrace", "RightBrace", "Identifier", "Comma"))
    every = list(range(35))
    for kinds, opener in [(brackets, "LeftParen"), (brackets, "LeftBracket"), (braces, "LeftBrace"), (every, "LeftParen"), (brackets + [KIND["Eof"]], "LeftParen")]:
        for trivia in (0, 0, 0, 0.15):
            for n in (2, 4, 6, 9, 14):
                for _ in range(2):
                    rows = random_rows(rng, kinds, n, trivia)
                    rows.insert(0, (TOKEN, KIND[opener], 0, 1))
                    widths = sorted({look(which, rows[at:], 0, 0)[1] for which, at in calls_of(rows) if which < 2}) or [0]
                    width = rng.choice(widths)
                    for limit in (width, max(width - 1, 0)):
                        yield (1, 4, limit, limit), rows


def main():
    with open(os.path.join(FOLDER, "stdin"), "wb") as stdin, open(os.path.join(FOLDER, "stdout"), "w") as stdout:
        for first in range(37):
            stdout.write("".join(" %d %d;" % space(first, second) for second in range(37)) + "\n")
        cases = [(options, data, size, []) for options, data, size in check_cases()]
        cases += [(options, pack(rows), 8, list(calls_of(rows))) for options, rows in look_cases()]
        for options, data, size, calls in cases:
            stdin.write(struct.pack("<7I", *options, size, len(data), len(calls)) + data + b"".join(struct.pack("<2I", *c) for c in calls))
            stdout.write(" %d %d;" % check(options, data, size))
            for which, at in calls:
                rows = list(struct.iter_unpack("<4I", data))[at:]
                stdout.write("".join(" %d" % n for n in look(which, rows, options[2], options[3])) + ";")
            stdout.write("\n")


if __name__ == "__main__":
    main()
