#!/usr/bin/env python3
"""Makes crates/replay_pieces/stdin and stdout: texts, and what reading them back and counting must answer.

    python3 tests/make_replay_pieces.py

The answers are those of the model below, which goes by the specification, 'Reading back' and 'Refusals' (9
and 10), alone, by regular expressions and not byte by byte, and shares nothing with the Rattle code.
"""
import os
import re

HERE = os.path.dirname(os.path.abspath(__file__))
FOLDER = os.path.join(HERE, "..", "crates", "replay_pieces")

GAP = rb"[\n ]+"
WORD = rb"[A-Za-z0-9_\x80-\xff]"
OPERATOR = rb"[!#$%&*+\-./:<=>@\\^`|~]"
PIECE = re.compile(
    rb"(?P<single>[()\[\]{},;?])"
    rb"|(?P<quote>\"(?:[^\"\\]|\\.)*\"|'(?:[^'\\]|\\.)*')"
    rb"|(?P<number>[0-9](?:" + WORD + rb"|\.(?=[0-9]))*)"
    rb"|(?P<word>" + WORD + rb"+)"
    rb"|(?P<operator>" + OPERATOR + rb"+)",
    re.DOTALL,
)


def read(text, slots):
    """The answer (refusal, value) and the slice after the call, which was filled with 7."""
    numbers, at = [], 0
    while True:
        at = re.compile(GAP).match(text, at).end() if re.compile(GAP).match(text, at) else at
        if at == len(text):
            return (0, len(numbers) // 2), numbers + [7] * (slots - len(numbers))
        found = PIECE.match(text, at)
        if not found:
            return (9, at), [0] * slots
        if len(numbers) + 2 > slots:
            return (10, at), [0] * slots
        numbers += [at, found.end()]
        at = found.end()


def count(text):
    """What counting answers: reading, with space for a piece at each byte."""
    return read(text, 2 * len(text))[0]


def texts():
    yield b""
    # every class beside every class, and each again after a gap or with a third byte
    sorts = [b"\n", b" ", b"(", b"]", b"}", b",", b";", b"?", b'"', b"'", b"A", b"z", b"_", b"0", b"9", b"\x80", b"\xff",
             b".", b"-", b"+", b"!", b"~", b"\\", b"/", b"e", b"x", b"\x00", b"\t", b"\r", b"\x7f"]
    for a in sorts:
        yield a
        for b in sorts:
            yield a + b
    few = [b" ", b"(", b'"', b"'", b"a", b"1", b".", b"-", b"\\", b"\t"]
    for a in few:
        for b in few:
            for c in few:
                yield a + b + c
    # quotes with backslashes
    for inside in [b"", b"a", b"\\\\", b"\\\"", b"\\'", b"'", b'"', b"\\n", b"\n", b"\t\x00\xff", b"\\\\\\\"", b"// x", b", ]"]:
        for q in [b'"', b"'"]:
            yield q + inside + q
            yield q + inside + q + b"a"
            yield b"a " + q + inside
            yield q + inside + b"\\"
    # digits and dots
    for t in [b"1.5", b"1..5", b"1.", b".5", b"1.a", b"a.5", b"x1.5", b"1.2.3", b"1a.5b.6", b"1.5.", b"0xe-5", b"1e-5", b"1e5.2", b"1_0.0_1", b"1.\n5", b"1 .5", b"\xc3\xa91.5", b"9.9.", b"1.\x80"]:
        yield t
    for t in [b"log(a, b)", b"fn f(a: int, b: int) -> int {\n    return a::b(1, -2.5);\n}\n", b"record E { x: 1, }", b"a::b!=-1", b"[a,b,]{c}", b"'it\\'s' \"x\""]:
        yield t


def cases():
    for text in texts():
        yield 12, text
    # every size of the slice, up to enough and one more
    for text in [b"", b"a", b"a b", b"log(a, b)", b"a 'b", b"a \t", b"(((", b"1.5 + x", b'"a" \'b\' "']:
        for slots in range(0, 16):
            yield slots, text


with open(os.path.join(FOLDER, "stdin"), "wb") as stdin, open(os.path.join(FOLDER, "stdout"), "w") as stdout:
    for slots, text in cases():
        stdin.write(b"%03d %03d\n" % (slots, len(text)) + text + b"\n")
        (refusal, value), numbers = read(text, slots)
        stdout.write("%d %d, %d %d:%s\n" % (refusal, value, *count(text), "".join(" %d" % n for n in numbers)))
