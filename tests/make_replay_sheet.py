#!/usr/bin/env python3
"""Makes crates/replay_sheet/stdin and stdout: sheets, and what reading them must answer.

    python3 tests/make_replay_sheet.py

The answers are those of the model below, which goes by the specification, 'The sheet' and 'Refusals' (6, 7
and 8), alone, line by line with a regular expression, and shares nothing with the Rattle code.
"""
import os
import random
import re
import struct

HERE = os.path.dirname(os.path.abspath(__file__))
FOLDER = os.path.join(HERE, "..", "crates", "replay_sheet")

NAMES = b"what kind text\n"
LINE = re.compile(rb"(?P<what>[LTR]) (?P<kind>0|[1-9][0-9]?) (?P<text>(?:[^\\\n]|\\[n\\])*)\n", re.DOTALL)
FILL = b"."


def read(sheet, row_space, text_space):
    """The answer (refusal, first, second) and the two slices after the call, which were filled."""
    unchanged = FILL * row_space, FILL * text_space
    zeroed = bytes(row_space), bytes(text_space)
    if sheet[:15] != NAMES:
        return (6, 0, 0), *unchanged
    rows, text = b"", b""
    for number, line in enumerate(re.findall(rb"[^\n]*\n|[^\n]+", sheet[15:]), start=1):
        found = LINE.fullmatch(line)
        if not found or int(found["kind"]) > 34:
            return (7, number, 0), *zeroed
        start = len(text)
        text += re.sub(rb"\\(.)", lambda m: b"\n" if m[1] == b"n" else m[1], found["text"])
        rows += struct.pack("<IIII", b"LTR".index(found["what"]), int(found["kind"]), start, len(text))
        if len(rows) > row_space or len(text) > text_space or len(text) > 0xFFFF_FFFF:
            return (8, number, 0), *zeroed
    return (0, len(rows) // 16, len(text)), rows + unchanged[0][len(rows):], text + unchanged[1][len(text):]


def named(*lines):
    return NAMES + b"".join(lines)


def form_errors():
    """Lines at and around each rule of a line's form."""
    for b in range(256):
        c = bytes([b])
        yield c + b" 5 x\n"  # the what
        yield b"T" + c + b"5 x\n"  # the first space
        yield b"T " + c + b" x\n"  # a kind of one digit
        yield b"T 1" + c + b" x\n"  # the second digit, or the second space
        yield b"T 12" + c + b"x\n"  # the second space
        yield b"T 5 a" + c + b"b\n"  # a byte of the text
        yield b"T 5 a\\" + c + b"b\n"  # after a backslash
    for kind in range(121):
        yield b"L %d k\n" % kind
        yield b"R 0%d k\n" % kind
    for line in [b"T 5 x", b"T 5 ", b"T 5", b"T ", b"T", b"", b"T 5 a\\", b"T 5 a\\\\", b"T 5 a\\n", b"T 12 ", b"T 12"]:
        yield line  # no line feed
        yield line + b"\n"
        yield line + b"\nT 5 y\n"
    for line in [b"T  5 x\n", b" T 5 x\n", b"T 5\tx\n", b"T\t5 x\n", b"TT 5 x\n", b"t 5 x\n", b"T -1 x\n", b"T +1 x\n", b"T 0x1 x\n",
                 b"T 1e1 x\n", b"T 5 \\N\n", b"T 5 \\x41\n", b"T 5 \\\\\\\n", b"T 5 \\\\\\n\n", b"T 5 x\r\n", b"\n", b"\n\n", b"T  x\n"]:
        yield line


def spaces_for(sheet):
    """Just enough space for a sheet, or, for one that is refused, for what could be read of it."""
    (refusal, rows, text), _, _ = read(sheet, 1 << 16, 1 << 16)
    return (16 * rows, text) if refusal == 0 else (48, 20)


def cases():
    """(sheet, space for rows, space for text)"""
    yield b"", 0, 0
    yield b"", 20, 3
    for n in range(len(NAMES)):
        yield NAMES[:n], 17, 2
        for other in [b" ", b"\n", bytes([NAMES[n] ^ 32]), b""]:
            yield NAMES[:n] + other + NAMES[n + 1:] + b"T 5 x\n", 17, 2
    for sheet in [b"\n" + NAMES, b" " + NAMES, NAMES[:-1] + b"\r\n", NAMES[:-1] + b" \n", NAMES.upper()]:
        yield sheet + b"T 5 x\n", 17, 2
    yield NAMES, 0, 0
    yield NAMES, 5, 5
    yield NAMES + NAMES, 16, 16
    for line in form_errors():
        yield named(line), 18, 9
    paper = named(b"T 22 log\n", b"T 4 (\n", b"T 22 a\n", b"T 8 ,\n", b"T 22 b\n", b"T 5 )\n")  # the example of 'The program'
    yield paper, 96, 8
    yield paper, 100, 10
    # a bad line after good ones, and before one that doesn't fit
    for line in [b"T 35 x\n", b"T 5 \\q\n", b"T 5 x", b"\n"]:
        for row_space in [0, 15, 16, 31, 32, 48]:
            yield named(b"T 1 a\n", line, b"T 1 b\n"), row_space, 9
        for text_space in range(5):
            yield named(b"T 1 a\n", b"T 2 bcd\\q\n"), 40, text_space
            yield named(b"T 1 a\n", b"T 2 bcd"), 40, text_space
            yield named(b"T 1 a\n", line, b"T 1 b\n"), 40, text_space
    # each space from none to more than enough
    some = named(b"T 22 log\n", b"L 0 // a\\\\b\n", b"T 1 \\n\n", b"R 3 \n")
    rows, text = spaces_for(some)
    for n in range(rows + 3):
        yield some, n, text
    for n in range(text + 3):
        yield some, rows, n
        yield some, rows + 1, n
    for n in range(0, rows + 17, 16):
        for m in range(text + 2):
            yield some, n, m
    # empty texts, escapes, all kinds on all sorts of lines
    yield named(*[b"T 0 \n"] * 5), 80, 0
    yield named(*[b"R 0 \n"] * 5), 79, 0
    yield named(b"T 5 " + b"\\n\\\\" * 20 + b"\n", b"T 5 \\\\n\n", b"T 5 n\\nn\n"), 64, 80
    every = named(*[b"%c %d k%d\n" % (w, k, k) for w in b"LTR" for k in range(35)])
    yield (every, *spaces_for(every))
    yield every, 16 * 104, 1000
    # long sheets
    dice = random.Random(1)
    for count in [255, 256, 257, 1000, 3000]:
        lines = [b"%c %d %s\n" % (dice.choice(b"LTR"), dice.randrange(35), b"ab\\nc\\\\d "[: dice.choice([0, 1, 2, 4, 5, 7, 9])]) for _ in range(count)]
        sheet = named(*lines)
        rows, text = spaces_for(sheet)
        yield sheet, rows, text
        if count < 1000:
            yield sheet, rows + 20, text + 5
            yield sheet, rows - 1, text
            yield sheet, rows, text - 1
            yield sheet[:-1], rows, text
    yield named(b"T 25 " + b"x" * 30000 + b"\n"), 16, 30000
    yield named(b"T 25 " + b"x" * 300 + b"\n", b"T 5 y\n"), 40, 300
    # damaged sheets
    for _ in range(1500):
        lines = [b"%c %d %s\n" % (dice.choice(b"LTR"), dice.randrange(35), bytes(dice.choice(b"abn \xff\x00") for _ in range(dice.randrange(4)))) for _ in range(dice.randrange(4))]
        sheet = bytearray(named(*lines))
        for _ in range(dice.choice([0, 1, 1, 2, 3])):
            at = dice.randrange(min(dice.choice([0, 15]), len(sheet)), len(sheet) + 1)
            sheet[at : at + dice.randrange(2)] = bytes(dice.choice(b"LTR 0123459\\\\nn\n\nx") for _ in range(dice.randrange(3)))
        rows, text = spaces_for(bytes(sheet))
        yield bytes(sheet), max(0, rows + dice.choice([-16, -1, 0, 0, 0, 1, 16])), max(0, text + dice.choice([-1, 0, 0, 0, 1, 3]))


def main():
    count = {}
    with open(os.path.join(FOLDER, "stdin"), "wb") as given, open(os.path.join(FOLDER, "stdout"), "wb") as expected:
        for sheet, row_space, text_space in cases():
            given.write(b"%05d %05d %05d\n" % (row_space, text_space, len(sheet)) + sheet + b"\n")
            answer, rows, text = read(sheet, row_space, text_space)
            expected.write(b"%d %d %d\n" % answer + rows + b"\n" + text + b"\n")
            count[answer[0]] = count.get(answer[0], 0) + 1
    print("cases by refusal:", dict(sorted(count.items())))


main()
