#!/usr/bin/env python3
"""Makes crates/replay_layout/stdin and stdout: lists (tests/layout_cases.py), and what laying them out must answer.

    python3 tests/make_replay_layout.py

It needs cargo and format.rs, as tests/definition_beside_rust.py does. Where each number comes from:

- refusals 1, 2 and 3 and their places: `check` of make_replay_rows.py, a model of the specification, 'Refusals';
- the text and its length: format.rs;
- refusal 5: the first token after which the text of format.rs is longer than the output. Its `push_token` is stepped, and the length
  noted after each step (harness/beside/src/format/steps.rs);
- refusal 4: the first step after which the stack of format.rs has more than 64 entries, unless that token's leading trivia does not fit the
  output: its length is what an Eof with the same leading trivia writes;
- the commas: the steps at which `]` or `}` takes a byte more than it would after a Comma. Where only Comma tokens have a comma byte,
  this is compared with the text's commas less the Comma tokens;
- the plain mark: `plain` of definition_beside_rust.py, a model of the specification, 'The plain mark';
- the shebang line: what the text of `format_source_with_shebang` has more than its walk wrote; where it does not fit, refusal 5 at 0, and where
  there is one, plain 0;
- the output: the text and then the bytes that stood there, or zeros after 4 and 5, or all of what stood there.

Lexemes that are not UTF-8 go to format.rs as so many bytes Z: it copies and measures lexemes, and of what is written asks only whether it is
empty or ends with two line feeds.
"""
import os
import struct
from collections import Counter

import definition_beside_rust as beside
import layout_cases
from make_replay_rows import check, pack

# How many cases there are of each sort.
COUNTS = {
    "sheets_on_paper": 14,  # specification, 'Cases': those proved too; the first is its sheet
    "readings_that_fail": 11,  # that section's wrong readings: a list for each, whose text is not the wrong one
    "differences": 82,  # the lists of docs/DIFFERENCES.md
    "programs": 96,  # as engineers write them
    "brackets": 1770,  # all lists of up to four of ( ) [ ] , and a name, widths 0; and after an open bracket
    "braces": 2192,  # all lists of up to three of { } record fn else , a name and a Newline, in both styles; and after two openers
    "signatures": 1389,  # all short ends of a signature: broken by width, in a broken list, broken by its parameters alone
    "pairs": 1225,  # every two kinds
    "operators": 547,  # every three of minus, dots, colons, =, a number and a name; minus after every kind
    "eofs": 399,  # all lists of up to three with Eof, braces, a comma, a name, record, a Newline
    "plain_mark": 402,  # its clauses, each at and around its edge
    "trivia": 936,  # every kind, leading and trailing, at every token of 17 lists
    "hostile": 608,  # every kind with lexemes that are empty, unclosed quotes, line feeds, backslashes, UTF-8
    "single_bytes": 258,  # every byte as a lexeme; the bytes of UTF-8 characters; bytes that are no UTF-8
    "options": 92,  # at their bounds and past them; which refusal comes first
    "widest": 9,  # groups and signatures of width 65,534 to 65,536
    "ragged": 52,  # rows of 0 to 48 bytes; 65,536 rows
    "most_rows": 7,  # 65,535 rows
    "bad_rows": 663,  # every number of a row at its bounds and past them, every order of up to four rows, random damage
    "deep": 81,  # 64 broken groups and more
    "sizes": 301,  # 18 lists, every size of the output from 0 to the text's length and two
    "shebang": 270,  # the wrapper: 23 sources, every size, refusals
    "random_lists": 860,
}
FOLDER = os.path.join(beside.ROOT, "crates", "replay_layout")
MARK = b"~"
MOST_GROUPS = 64
INPUT_SPACE = 1 << 20  # the program's buffer


# ---- what format.rs gives

def rows_of(case):
    """The rows' bytes: the given ones, repeated."""
    given = pack(case.rows)
    return (given * (case.row_bytes // max(len(given), 1) + 1))[:case.row_bytes]


def tokens_of(rows, text):
    """Good rows as tokens: (kind, lexeme, leading, trailing)."""
    tokens, leading = [], []
    for what, kind, start, end in struct.iter_unpack("<4I", rows):
        part = text[start:end]
        if what == 0:
            leading.append((kind, part))
        elif what == 1:
            tokens.append((kind, part, leading, []))
            leading = []
        else:
            tokens[-1][3].append((kind, part))
    return tokens


def is_utf8(lexeme):
    try:
        lexeme.decode()
    except UnicodeDecodeError:
        return False
    return True


def lay(cases):
    """For each case that is not refused by its options and rows: its tokens, the text and the steps of format.rs."""
    laid = {n: tokens_of(rows_of(case), case.text) for n, case in cases}
    lines = [beside.line(case.options, [(k, w if is_utf8(w) else b"Z" * len(w), l, r) for k, w, l, r in laid[n]], case.source) for n, case in cases]
    for (n, case), line in zip(cases, beside.lay(lines, "steps")):
        words = line.split(" ")
        steps = [tuple(map(int, word.split(":"))) for word in words[1:]]
        laid[n] = laid[n], with_lexemes(bytes.fromhex(words[0]), laid[n], steps), steps
    return laid


def with_lexemes(text, tokens, steps):
    """The text of format.rs with the lexemes that went to it as bytes Z. None of them is followed by trivia."""
    for index, _, length, _, _ in steps:
        lexeme = tokens[index][1]
        if not is_utf8(lexeme):
            start = length - len(lexeme)
            assert text[start:length] == b"Z" * len(lexeme)
            text = text[:start] + lexeme + text[length:]
    return text


# ---- what is expected

def walk(tokens, text, steps, size):
    """The answer, and the output where it is not all zeros."""
    first = len(text) - (steps[-1][2] if steps else 0)  # the shebang line
    if first > size:
        return (5, 0, 0, 0), None
    for index, leading, length, groups, _ in steps:
        if groups > MOST_GROUPS:
            return (5 if first + leading > size else 4, index, 0, 0), None
        if first + length > size:
            return (5, index, 0, 0), None
    commas = sum(step[4] for step in steps)
    assert commas == counted_commas(tokens, text[first:], commas)
    return (0, len(text), commas, int(first == 0 and beside.plain(tokens))), text


def counted_commas(tokens, text, commas):
    """The commas by counting bytes, where only Comma tokens have any; else those given."""
    parts = [w for k, w, l, r in tokens if k != 8] + [c for _, _, l, r in tokens for _, c in l + r]
    if any(b"," in part for part in parts) or any(k == 8 and w != b"," for k, w, _, _ in tokens):
        return commas
    return text.count(b",") - sum(k == 8 for k, _, _, _ in tokens)


def answers(case, laid):
    """(output's size, answer, output after the call) for each size that the case is run with."""
    refusal, place = check(case.options, rows_of(case), len(case.text))
    length = 4 if refusal else len(laid[1])
    for size in sizes(case, length):
        if refusal:
            yield size, (refusal, place, 0, 0), MARK * size
            continue
        answer, text = walk(*laid, size)
        yield size, answer, bytes(size) if text is None else text + MARK * (size - len(text))


def sizes(case, length):
    if case.rooms == layout_cases.EVERY_SIZE:
        return range(length + 3)
    return [max(0, length + room) for room in case.rooms] + ([] if case.size is None else [case.size])


def compare_with_document(case, laid):
    """The specification's own words on the case, if there are any."""
    if case.said is not None:
        (_, _, *numbers), text = walk(*laid, len(laid[1]))
        assert text == case.said[0] and all(said in (None, n) for said, n in zip(case.said[1:], numbers)), (case, numbers, text)
    assert laid[1] != case.ruled_out, case


# ---- the files

def stored(case, size):
    call, source = (b"L", b"") if case.source is None else (b"S", case.source)
    head = (*case.options, size, case.row_bytes, len(case.rows), len(case.text), len(source))
    rows = b"".join(b"%d %d %d %d\n" % row for row in case.rows)
    return call + b" " + b" ".join(b"%d" % n for n in head) + b"\n" + rows + case.text + source + b"\n"


def main():
    cases = [(sort.__name__, case) for sort in layout_cases.SORTS for case in sort()]
    good = [(n, case) for n, (_, case) in enumerate(cases) if check(case.options, rows_of(case), len(case.text))[0] == 0]
    laid = lay(good)
    given, expected, by_sort, by_refusal = b"", b"", Counter(), Counter()
    for n, (sort, case) in enumerate(cases):
        if n in laid:
            compare_with_document(case, laid[n])
        for size, answer, out in answers(case, laid.get(n)):
            given += stored(case, size)
            expected += b"%d %d %d %d\n" % answer + out + b"\n"
            by_sort[sort] += 1
            by_refusal[answer[0]] += 1
    assert len(given) <= INPUT_SPACE, len(given)
    open(os.path.join(FOLDER, "stdin"), "wb").write(given)
    open(os.path.join(FOLDER, "stdout"), "wb").write(expected)
    print("cases by sort:", dict(by_sort))
    print("cases by refusal:", dict(sorted(by_refusal.items())))
    print("%d cases" % sum(by_sort.values()))
    assert by_sort == COUNTS, "COUNTS says otherwise"


if __name__ == "__main__":
    main()
