#!/usr/bin/env python3
"""Runs docs/SPECIFICATION.md beside the Rust: a walk that follows its sections word by word, on random token lists.

    python3 tests/specification_beside_rust.py [LISTS [SEED]]

It is written from that page alone, in its order, so that a word that is missing or wrong there shows as another text than
format.rs's. Texts and commas are compared. Needs cargo and format.rs.
"""
import random
import sys

import definition_beside_rust as beside

LISTS = int(sys.argv[1]) if len(sys.argv) > 1 else 20000
SEED = int(sys.argv[2]) if len(sys.argv) > 2 else 1
BATCH = 20000

(EOF, NEWLINE, LEFT_BRACE, RIGHT_BRACE, LEFT_PAREN, RIGHT_PAREN, LEFT_BRACKET, RIGHT_BRACKET, COMMA, COLON, SEMICOLON, QUESTION,
 DOT, DOT_DOT, COLON_COLON, HASH, BANG, BANG_HASH, MINUS, ELSE, FN, RECORD, IDENTIFIER) = range(23)
NULL, ARRAY, MAP, SET, RESULT = range(29, 34)
LINE_COMMENT, DOC_COMMENT, BLOCK_COMMENT, BLANK_LINE = range(4)
ALLMAN = 1


# ---- 'Spaces'

def needs_space(first, second):
    return not (first in (LEFT_PAREN, LEFT_BRACKET, DOT, DOT_DOT, COLON_COLON, HASH, BANG, BANG_HASH)
                or second in (RIGHT_PAREN, RIGHT_BRACKET, DOT, DOT_DOT, COLON_COLON, COMMA, COLON, SEMICOLON, QUESTION)
                or (first, second) == (LEFT_BRACE, RIGHT_BRACE)
                or second == LEFT_PAREN and first in (IDENTIFIER, RIGHT_PAREN, RIGHT_BRACKET)
                or second == LEFT_BRACKET and first in (IDENTIFIER, RIGHT_PAREN, RIGHT_BRACKET, ARRAY, MAP, SET, RESULT))


def is_value(kind):
    return kind in (IDENTIFIER, 23, 24, 25, 26, 27, 28, NULL, RIGHT_PAREN, RIGHT_BRACKET)


# ---- 'Looking ahead', from the opener to the end of the list

def stays_on_its_line(tokens):
    depth = 0
    for kind, _, leading, trailing in tokens:
        if leading or trailing or kind in (NEWLINE, EOF):
            return False
        depth += (kind == LEFT_BRACE) - (kind == RIGHT_BRACE)
        if depth == 0:
            return True
    return False


def measure(tokens, closes, counts):
    """The commas that count and the width."""
    round_, square, commas, width = 0, 0, 0, 0
    for kind, lexeme, _, _ in tokens:
        counted = kind == COMMA and counts(round_, square)
        round_ = round_ + 1 if kind == LEFT_PAREN else max(0, round_ - 1) if kind == RIGHT_PAREN else round_
        square = square + 1 if kind == LEFT_BRACKET else max(0, square - 1) if kind == RIGHT_BRACKET else square
        if kind == EOF or closes(kind, round_, square):
            break
        commas, width = commas + counted, width + len(lexeme) + 1
    return commas, width


def signature_breaks(limit, tokens):
    commas, width = measure(tokens, lambda kind, r, s: kind == RIGHT_PAREN and r == 0, lambda r, s: (r, s) == (1, 0))
    return commas + 1 > 3 or width > limit


def list_breaks(limit, tokens):
    opener = tokens[0][0]
    inside = (1, 0) if opener == LEFT_PAREN else (0, 1)
    commas, width = measure(tokens, lambda kind, r, s: kind == opener + 1 and (r, s) == (0, 0), lambda r, s: (r, s) == inside)
    return commas > 0 and width > limit


# ---- 'The walk'

class Walk:
    def __init__(self, options):
        self.style, self.indent_width, self.signature_width, self.list_width = options
        self.text, self.commas = b"", 0
        self.indent, self.line_start, self.last, self.unary_minus = 0, True, None, False
        self.one_line, self.fn_state, self.signature, self.record_pending = 0, 0, None, False
        self.in_record, self.record_depth, self.closed_one_line, self.swallow = False, 0, False, None
        self.group, self.broken_lists = 0, []

    def lay_out(self, tokens):
        index = 0
        while index < len(tokens):
            index += self.token(tokens, index)
        return self.text, self.commas

    def token(self, tokens, i):
        """Lays out token i, and answers how many tokens that took."""
        kind, _, leading, trailing = tokens[i]
        for trivia, c in leading:
            self.leading(trivia, c)
        took_closed_one_line = not leading and self.closed_one_line
        if not leading:
            self.closed_one_line = False
        taken, writes_trailing = self.arm(tokens, i, took_closed_one_line)
        for trivia, c in trailing if writes_trailing else []:
            self.text += {LINE_COMMENT: b"// " + c, DOC_COMMENT: b"/// " + c, BLOCK_COMMENT: b"/*" + c + b"*/", BLANK_LINE: b""}[trivia]
        if self.signature is None:
            self.fn_state = 1 if kind == FN else 2 if kind == IDENTIFIER and self.fn_state == 1 else self.fn_state if kind == NEWLINE else 0
        return taken

    # 'Comments', leading rows
    def leading(self, trivia, c):
        if trivia == BLANK_LINE:
            self.text += b"" if self.in_record else b"\n"
            self.line_start = True
        else:
            self.text += self.indent_or_space()
            self.text += {LINE_COMMENT: b"// " + c, DOC_COMMENT: b"/// " + c, BLOCK_COMMENT: b"/* " + c + b" */"}[trivia] + b"\n"

    def spaces(self):
        return b" " * (self.indent * self.indent_width)

    def indent_or_space(self):
        return self.spaces() if self.line_start else b" "

    def write_lexeme(self, kind, lexeme):
        if self.line_start:
            self.text += self.spaces()
        elif self.last is not None and not (self.last == MINUS and self.unary_minus) and needs_space(self.last, kind):
            self.text += b" "
        if kind == MINUS:
            self.unary_minus = not is_value(self.last)
        self.end(lexeme, kind)

    def start_line(self):
        self.text += (b"" if self.line_start else b"\n") + self.spaces()

    def end(self, written, kind, line_start=False):
        self.text, self.line_start, self.last = self.text + written, line_start, kind

    def dedent(self):
        self.indent = max(0, self.indent - 1)

    def insert_comma_unless(self, kinds):
        if self.last not in kinds:
            self.text, self.commas = self.text + b",", self.commas + 1

    def in_innermost_broken_list(self):
        return self.broken_lists[-1:] == [self.group]

    def arm(self, tokens, i, took_closed_one_line):
        """How many tokens were taken, and whether trailing trivia are written."""
        kind, lexeme, _, _ = tokens[i]
        if kind == NEWLINE:
            self.newline(tokens, i)
        elif kind == RIGHT_BRACE:
            self.right_brace()
        elif kind == LEFT_BRACE:
            return self.left_brace(tokens, i)
        elif kind in (LEFT_PAREN, LEFT_BRACKET):
            self.opener(tokens, i)
        elif kind in (RIGHT_PAREN, RIGHT_BRACKET):
            return 1, self.closer(kind, lexeme)
        elif kind == COMMA and (self.in_record and self.record_depth == 1 or self.in_innermost_broken_list()):
            self.end(b",\n", COMMA, line_start=True)
            self.swallow = i + 1
        elif kind == ELSE and not self.one_line and not self.in_record and self.last == RIGHT_BRACE and not took_closed_one_line:
            self.end(b"\n" + self.spaces() + b"else", ELSE)
        elif kind != EOF:
            if kind not in (COMMA, ELSE):
                self.record_pending = kind == RECORD or kind == IDENTIFIER and self.record_pending
            self.write_lexeme(kind, lexeme)
        return 1, True

    def newline(self, tokens, i):
        comments = tokens[i + 1][2] if i + 1 < len(tokens) else []
        if self.swallow == i:
            self.swallow = None
        elif not self.text and any(trivia != BLANK_LINE for trivia, _ in comments) or self.in_record or self.one_line:
            pass
        elif not self.line_start or not self.text.endswith(b"\n\n"):
            self.end(b"\n", NEWLINE, line_start=True)

    def right_brace(self):
        if self.one_line:
            self.one_line -= 1
            self.closed_one_line = True
            self.end((self.spaces() if self.line_start else b"" if self.last == LEFT_BRACE else b" ") + b"}", RIGHT_BRACE)
            return
        if self.in_record and self.record_depth == 1:
            self.insert_comma_unless((COMMA, LEFT_BRACE))
            self.in_record, self.record_depth = False, 0
        elif self.in_record:
            self.record_depth = max(0, self.record_depth - 1)
        self.dedent()
        self.start_line()
        self.end(b"}", RIGHT_BRACE)

    def left_brace(self, tokens, i):
        if self.record_pending and i + 1 < len(tokens) and tokens[i + 1][0] == RIGHT_BRACE:
            self.write_lexeme(LEFT_BRACE, tokens[i][1])
            self.end(b"{}", RIGHT_BRACE)
            self.record_pending = False
            return 2, False
        if self.record_pending:
            self.record_pending, self.in_record, self.record_depth = False, True, 1
            self.open_block(i)
        elif self.in_record:
            self.record_depth += 1
            self.open_block(i)
        elif self.one_line:
            self.one_line += 1
            self.end(self.spaces() if self.line_start else b" {", LEFT_BRACE)
        elif stays_on_its_line(tokens[i:]):
            self.one_line = 1
            self.end(self.indent_or_space() + b"{", LEFT_BRACE)
        else:
            self.open_block(i)
        return 1, True

    def open_block(self, i):
        if self.style == ALLMAN:
            self.start_line()
            self.end(b"{\n", LEFT_BRACE, line_start=True)
            self.swallow = i + 1
        else:
            self.end(b" {", LEFT_BRACE)
        self.indent += 1

    def opener(self, tokens, i):
        kind, lexeme, _, _ = tokens[i]
        if kind == LEFT_PAREN and not self.one_line and self.fn_state in (1, 2):
            self.fn_state = 0
            if signature_breaks(self.signature_width, tokens[i:]):
                self.indent += 1
                self.end(b"(\n" + self.spaces(), kind)
                self.signature, self.swallow = 1, i + 1
            else:
                self.write_lexeme(kind, lexeme)
            self.group += 1
        elif not self.one_line and not self.in_record and list_breaks(self.list_width, tokens[i:]):
            self.write_lexeme(kind, lexeme)
            self.end(b"\n", kind, line_start=True)
            self.indent, self.group, self.swallow = self.indent + 1, self.group + 1, i + 1
            self.broken_lists.append(self.group)
        else:
            if kind == LEFT_PAREN and self.signature is not None:
                self.signature += 1
            self.write_lexeme(kind, lexeme)
            self.group += 1

    def closer(self, kind, lexeme):
        """Answers whether trailing trivia are written."""
        if kind == RIGHT_PAREN and self.signature is not None:
            self.signature -= 1
        signature_closed = kind == RIGHT_PAREN and self.signature == 0
        list_closed = not signature_closed and self.in_innermost_broken_list()
        if signature_closed:
            self.signature = None
            self.start_line()
            self.end(b")", kind)
            self.dedent()
        elif list_closed:
            self.broken_lists.pop()
            self.dedent()
            if kind == RIGHT_BRACKET:
                self.insert_comma_unless((COMMA,))
            self.start_line()
            self.end(b")" if kind == RIGHT_PAREN else b"]", kind)
        else:
            self.write_lexeme(kind, lexeme)
        self.group = max(0, self.group - 1)
        return not (signature_closed or list_closed)


def main():
    rng = random.Random(SEED)
    compared = commas = 0
    while compared < LISTS:
        lists = [beside.make(rng) for _ in range(min(BATCH, LISTS - compared))]
        said = beside.lay((beside.line(options, tokens) for options, tokens in lists), "steps")
        for (options, tokens), words in zip(lists, (said_of.split(" ") for said_of in said)):
            expected = bytes.fromhex(words[0]), sum(int(step.split(":")[4]) for step in words[1:])
            found = Walk(options).lay_out(tokens)
            assert found == expected, (options, tokens, found, expected)
            commas += found[1]
        compared += len(lists)
    print("%d lists: the Rust's texts and commas, by the specification; %d commas" % (compared, commas))


if __name__ == "__main__":
    main()
