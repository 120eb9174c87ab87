"""The lists that make_replay_layout.py stores, sort by sort. What they lead to is not said here, but for the
texts that the specification gives or rules out ('Cases').

A list in words: a token is its lexeme, NL is a Newline token and EOF an Eof token, L2:c a leading trivia row of kind 2 with the text c,
R2:c a trailing one.
"""
import itertools
import random
from collections import namedtuple

import definition_beside_rust as beside
import make_replay_rows

DEFAULTS = (1, 4, 40, 40)
WIDTHS_0 = (1, 4, 0, 0)
EVERY_SIZE = "from 0 to two bytes more than the text's length"

# rows: (what, kind, start, end) each, repeated until there are row_bytes bytes of them. rooms: the sizes of the output that the list is run
# with, each as how many bytes more than the text has, or than 4 where no text is laid out. size: one more, as it is. source: for the
# shebang wrapper, else None. said: what the specification says of the text, the commas and the plain mark.
# ruled_out: a wrong reading's text.
Case = namedtuple("Case", "options rows row_bytes text rooms size source said ruled_out", defaults=[(0,), None, None, None, None])


# ---- lists from words and from tokens

KINDS = {lexeme: kind for kind, lexeme in beside.FIXED.items()}
KINDS |= {b"fn": 20, b"F": 20, b"record": 21, b"R": 21, b"!#": 17, b"null": 29, b"arr": 30, b"map": 31, b"set": 32, b"result": 33}
KINDS |= {w: 28 for w in (b"true", b"false")} | {w: 34 for w in (b"=", b"+", b"*", b"->", b"==", b">", b"if", b"return", b"while")}


def kind_of(lexeme):
    first = lexeme[:1]
    if lexeme in KINDS:
        return KINDS[lexeme]
    return 23 if first.isdigit() else 25 if first == b'"' else 26 if first == b"'" else 22


def tokens_of_words(words, newline=b"\n"):
    """Tokens as (kind, lexeme, leading, trailing)."""
    tokens, leading = [], []
    for word in words.encode().split():
        if word[:1] in b"LR" and word[2:3] == b":":
            (leading if word[:1] == b"L" else tokens[-1][3]).append((int(word[1:2]), word[3:]))
            continue
        kind, lexeme = (1, newline) if word == b"NL" else (0, b"") if word == b"EOF" else (kind_of(word), word)
        tokens.append((kind, lexeme, leading, []))
        leading = []
    return tokens


def row_parts(tokens):
    for kind, lexeme, leading, trailing in tokens:
        yield from ((0, k, c) for k, c in leading)
        yield 1, kind, lexeme
        yield from ((2, k, c) for k, c in trailing)


def of_tokens(tokens, options=DEFAULTS, rooms=(0,), apart=False, **more):
    """The rows of some tokens. Their texts stand in order with a space between, or share what bytes they can."""
    rows, text = [], b""
    for what, kind, part in row_parts(tokens):
        start = -1 if apart else text.find(part)
        if start < 0:
            text += b" " if apart and text else b""
            start = len(text)
            text += part
        rows.append((what, kind, start, start + len(part)))
    return Case(options, rows, 16 * len(rows), text, rooms, **more)


def of_words(words, options=DEFAULTS, rooms=(2,), newline=b"\n", **more):
    return of_tokens(tokens_of_words(words, newline), options, rooms, apart=True, **more)


def widths(signature, list_width, style=1, indent=4):
    return style, indent, signature, list_width


# ---- the specification's cases (specification, 'Cases')

def sheets_on_paper():
    said = [  # the list, the options, the text, and of the commas and the plain mark what the specification says
        ("log ( a , b )", DEFAULTS, "log(a, b)", 0, 1),
        ("log ( a , b )", widths(40, 8), "log(a, b)", None, None),
        ("log ( a , b )", widths(40, 7), "log(\n    a,\n    b\n)", None, None),
        ("x [ a , b ]", widths(40, 7), "x[\n    a,\n    b,\n]", 1, None),
        ("F f ( )", widths(2, 40), "F f()", None, None),
        ("F f ( )", widths(1, 40), "F f(\n    \n    )", None, None),
        ("F f ( a , b , c , d )", DEFAULTS, "F f(\n    a, b, c, d\n    )", None, None),
        ("F f ( a , b , c )", DEFAULTS, "F f(a, b, c)", None, None),
        ("R E { }", DEFAULTS, "R E {{}", None, 0),
        ("g ( a , { b , { c } } )", widths(40, 0), "g(\n    a,\n    { b,\n     c } }\n)", None, 0),
        ("x [ a , b , NL NL ]", widths(40, 0), "x[\n    a,\n    b,\n\n,]", 1, None),
        ("R E { x : n , R0:c NL y : n }", DEFAULTS, "R E\n{\n    x: n,\n// c    y: n,\n}", None, None),
    ]
    for words, options, text, commas, mark in said:
        yield of_words(words, options, said=(text.encode(), commas, mark))
    yield of_words("R E { x : n , R0:c NL y : n }", widths(40, 40, style=0))
    yield of_words("R E { NL x : n , R0:c NL y : n NL }")


def readings_that_fail():
    ruled_out = [
        # measures that skip Newlines
        ("x [ a , NL b ]", widths(40, 9), "x[a,\nb]"),
        ("log ( a , NL b )", widths(40, 9), "log(a,\nb)"),
        ("F f ( a NL )", widths(5, 40), "F f(a\n)"),
        # a closing comma for `)`
        ("log ( a , b )", widths(40, 7), "log(\n    a,\n    b,\n)"),
        ("log ( a , b NL )", widths(40, 0), "log(\n    a,\n    b\n,)"),
        # a dedent before a signature's `)`
        ("F f ( a , b , c , d )", DEFAULTS, "F f(\n    a, b, c, d\n)"),
        ("F f ( )", widths(1, 40), "F f(\n    \n)"),
        # braces raising the group depth
        ("g ( a , { b , c } )", widths(40, 0), "g(\n    a,\n    { b, c }\n)"),
        ("g ( { b , c } )", widths(40, 0), "g(\n    { b, c }\n)"),
        ("x [ a , { b NL , c } ]", widths(40, 0), "x[\n    a,\n    {\n        b\n        , c\n    },\n]"),
    ]
    for words, options, text in ruled_out:
        yield of_words(words, options, ruled_out=text.encode())
    yield of_words("x [ a , NL b ]", widths(40, 8), newline=b"", ruled_out=b"x[a,\nb]")


# ---- lists on which the Rust's comments and its code part (docs/DIFFERENCES.md)

def differences():
    same_line, same_line_0 = (0, 4, 40, 40), (0, 4, 0, 0)
    lists = {
        DEFAULTS: ["{ fn ( , , , ) }", "{ record { a } }", "record { record { a } ,", "record { ( a , a ) }", "record { record { a }",
                   "{ } L3: } else", "{ } EOF else", "record { a ,", "a L0:c L0:d b", "{ R3: }", "{ } R3:", "L3: { }", "{ EOF }", "L0:c a",
                   "record { { } else", "{ } L2:c EOF else", "{ , }", "record { }", "record { a", "record ) { a", "( { }", "1 (", "{ } - 1"],
        WIDTHS_0: ["{ ( , ) }", "record { { ( , )", "( { a , a } )", "( { , }", "fn ( ( , ) )", "( a , a ]", "[ a , a )", "[ , NL NL ]", "( { , { } }"],
        same_line: ["a NL {", "record { , {"],
        same_line_0: ["( , {"],
        widths(0, 40): ["fn ( fn ( a , , , ) )"],
        widths(0, 8): ["fn ( ( long , ) ( ,"],
        widths(1, 40): ["fn ( )"],
        widths(65535, 40): ["fn ( { , , , } )"],
        widths(2, 40): ["fn ( NL )"],
        widths(40, 4): ["( , NL )"],
    }
    for options, some in lists.items():
        for words in some:
            yield of_words(words, options)
            yield of_words(words, options, newline=b"")


# ---- programs as engineers write them

PROGRAMS = [
    "fn add ( a : int , b : int ) -> int { return a + b }",
    "record Beacon { kept : int , name : string }",
    "record Beacon { NL kept : int , NL name : string , NL }",
    "L1:keeps_a_log fn keep ( log : string , orbits : int , powered : bool , name : string ) { NL return keep_for ( log , orbits ) NL }",
    "if a == 1 { NL b ( ) NL } else { NL c ( ) NL }",
    "if a == 1 { b ( ) } else { c ( ) }",
    "set_table ( beacon , 15 , power , 45 , command , 200 , receiver , - 1 )",
    "x = arr [ 1 , 2 , - 3 , map [ string , int ] , set [ int ] , result [ int ] ]",
    "L0:the_timer fn restart ( frame : arr [ byte ] ) { NL while frame . len > 0 { NL frame = frame . rest ; R0:drop NL } NL L3: NL return null NL }",
    "# derive ( a , b ) NL record T { NL L0:orbits kept : int , R0:fifteen NL L3: x : m :: n ? , NL } NL EOF",
    "f ( a ) . g ( b ) [ 0 ] . h ? NL NL NL - 1 .. 2 NL ! a NL !# b",
    'print ( "a,b" , "c\\"d" , \'e\' , true , false , null )',
]


def programs():
    for words in PROGRAMS:
        for options in [DEFAULTS, (0, 2, 40, 40), (1, 3, 20, 20), WIDTHS_0]:
            yield of_words(words, options)
            yield of_words(words + " NL " + words, options)


# ---- short lists, all of them

def all_lists(alphabet, lengths, before=""):
    """All lists of the given lengths over some words, after a beginning that each has."""
    for n in lengths:
        for words in itertools.product(alphabet.split(), repeat=n):
            yield tokens_of_words(before + " " + " ".join(words))


def brackets():
    for tokens in all_lists("( ) [ ] , a", [1, 2, 3, 4]):
        yield of_tokens(tokens, (1, 1, 0, 0))
    for tokens in all_lists("( ) [ ] , NL", [3], "x [ a ,"):
        yield of_tokens(tokens, (1, 1, 0, 0))


def braces():
    alphabet = "{ } record fn a NL else ,"
    for style in (0, 1):
        for tokens in all_lists(alphabet, [1, 2, 3]):
            yield of_tokens(tokens, (style, 1, 0, 0))
    for style, before in [(0, "record a {"), (1, "( {")]:
        for tokens in all_lists(alphabet, [3], before):
            yield of_tokens(tokens, (style, 1, 0, 0))


def signatures():
    for style, before in [(1, "fn a ("), (0, "fn ( fn (")]:
        for tokens in all_lists("( ) , { } a NL", [1, 2, 3], before):
            yield of_tokens(tokens, (style, 2, 0, 0))
    # in a broken list, and over at its end
    for before in ["[ fn (", "( , fn", "[ , fn"]:
        for tokens in all_lists("( ) ] , a", [3], before):
            yield of_tokens(tokens, (1, 1, 0, 0))
    # broken by the number of parameters alone
    for tokens in all_lists("( ) [ ] , a", [3], "fn a ( , ,"):
        yield of_tokens(tokens, (1, 1, 65535, 40))


def pairs():
    for first, second in itertools.product(range(35), repeat=2):
        yield of_tokens([(k, beside.LEXEMES[k][0], [], []) for k in (first, second)])


def operators():
    for tokens in all_lists("- 1 . .. :: : = a", [3]):
        yield of_tokens(tokens)
    for kind in range(35):
        yield of_tokens([(kind, beside.LEXEMES[kind][0], [], [])] + tokens_of_words("- 1"))


def eofs():
    for tokens in all_lists("EOF { } , a record NL", [1, 2, 3]):
        yield of_tokens(tokens, (1, 1, 0, 0))


# ---- the plain mark, clause by clause

LEXEMES = [b"a", b"_", b"a1", b"a.b", b"1", b"1_0", b"1a", b"1e5", b"1.5", b"1.5.6", b"1.a5", b"1.", b".5", b"1..2", b"1 5", "é1".encode(), "1é.5".encode(), b"+", b"+-/", b"\\", b"+a", b"a+", b"(", b"((", b",",
           b'"a b"', b'"a\'b"', b'"a\\"b"', b'"a\\\\"', b'"a\\\\"b"', b'"a\\"', b'"a', b'a"', b'"a""b"', b'"\n\0\xc3\xa9"', b"'a'", b"'a\"b'", b"'", b"''", b"\t", b"a\tb", b" ", b""]


def plain_mark():
    lists = [", {", ", EOF {", ", EOF EOF {", ", NL {", ", EOF NL {", ", NL EOF {", "{ ,", ", a {",
             "R E { }", "R E NL { }", "R E { NL }", "R E { EOF }", "R a ( ) { }", "R ; { }", "R { a } { }", "R { a } R { }", "R { } R { a }", "R R { }", "{ } R { a }", "R a", "R {",
             "1 .", "1 NL .", "1 EOF .", "1 NL EOF NL .", "a1 .", "1a .", "1 ..", "1 ( .", "1.5 .", ". 1", "1 a . b"]
    lists += [first + between + second for first in (". .. :: # ! !# - : = + a").split() for second in (". .. :: : # ! !# - =").split() for between in (" NL ", " EOF ")]
    for words in lists:
        yield of_words(words)
    for lexeme in LEXEMES:
        for kind in (22, 23, 34, 17):
            yield of_tokens([(kind, lexeme, [], []), (8, b",", [], [])])


# ---- trivia of every kind, at every token

CONTEXTS = [
    ("a NL b", DEFAULTS), ("NL a", DEFAULTS), ("NL NL a", DEFAULTS), ("{ a }", DEFAULTS), ("{ }", (0, 4, 40, 40)), ("{ NL a NL }", DEFAULTS),
    ("record E { x : n , y : n }", DEFAULTS), ("record E { NL x , NL y NL }", (0, 2, 40, 40)), ("record E { }", DEFAULTS),
    ("fn f ( a , b ) { a }", WIDTHS_0), ("fn f ( a )", DEFAULTS), ("x [ a , b ]", WIDTHS_0), ("g ( a , b )", WIDTHS_0),
    ("{ a } else { b }", DEFAULTS), ("{ NL b NL } else { NL c NL }", DEFAULTS), ("a - 1", DEFAULTS), ("EOF a EOF", DEFAULTS),
]
DOUBLES = [[(3, b""), (0, b"c")], [(0, b"c"), (3, b"")], [(0, b"c"), (2, b"d")], [(2, b"c, ]"), (1, b"")]]


def with_trivia(tokens, at, side, trivia):
    changed = list(tokens)
    token = list(changed[at])
    token[side] = trivia
    changed[at] = tuple(token)
    return changed


def trivia():
    for words, options in CONTEXTS:
        tokens = tokens_of_words(words)
        for at in range(len(tokens)):
            for side in (2, 3):
                for some in [[(k, b"c")] for k in range(4)] + (DOUBLES if len(tokens) < 5 else []):
                    yield of_tokens(with_trivia(tokens, at, side, some), options)


# ---- lexemes of every sort

HOSTILE = [b"", b"a b", b'"', b'"s', b"'c\\'", b"\\", b"\n", b"x\n", b"x\n\n", b"//", b"1.", b"1.5", b",", b"]}", "é".encode(), "\u0080ÿ\U0010ffff".encode()]


def hostile():
    for kind in range(35):
        for n, lexeme in enumerate(HOSTILE):
            before, after = [("x [ a ,", "b ]"), ("a NL", "NL NL")][n % 2]
            yield of_tokens(tokens_of_words(before) + [(kind, lexeme, [], [])] + tokens_of_words(after), WIDTHS_0)
    for lexeme in HOSTILE:
        yield of_tokens([(22, lexeme, [], [])] + tokens_of_words("NL L0:c a"))
        yield of_tokens([(22, lexeme, [], [(0, lexeme)])] + tokens_of_words("NL NL"))
        yield of_tokens([(34, b"=", [(2, lexeme), (3, lexeme)], []), (23, lexeme, [], [])])


def single_bytes():
    for b in range(256):
        yield of_tokens([(22, bytes([b]), [], []), (34, b"=", [], [])])
    characters = [chr(c).encode() for c in list(range(0x80, 0x800, 29)) + list(range(0x800, 0xd800, 3001)) + list(range(0x10000, 0x110000, 0x8421))]
    yield of_tokens([(22, c, [], []) for c in characters])
    yield of_tokens([(22, bytes([97, b, b ^ 1]), [], []) for b in range(128, 256)], WIDTHS_0)


# ---- options at their bounds and past them; groups as wide as the largest width

MOST = (1, 16, 65535, 65535)
SHOWN = "record a { b } NL fn f ( a , b ) { NL x [ a , b ] NL }"


def options():
    for values in itertools.product(*[(0, most) for most in MOST]):
        yield of_words(SHOWN, values)
    for past in itertools.product(*[(most, most + 1) for most in MOST]):
        yield of_words("a", past)
    for place, most in enumerate(MOST):
        for value in (most + 1, 2 * most + 2, 256, 257, 65536, 65537, 4294967295):
            values = list(DEFAULTS)
            values[place] = value
            yield of_words("a ( b", tuple(values), rooms=(0, 3))
    # an option, the rows' size and a row are wrong: the first counts
    for values in [(2, 4, 40, 40), DEFAULTS]:
        for row_bytes in (31, 32):
            yield Case(values, [(1, 22, 0, 1), (9, 9, 9, 9)], row_bytes, b"a")


def widest():
    """Groups of a width at the bound of the options: whether they break shows in the place at which the output is full."""
    text = b"fn[(f,ax" + b"w" * 2047
    part = lambda kind, start, end: (1, kind, start, end)
    fn, bracket, paren, f, comma = part(20, 0, 2), part(6, 2, 3), part(4, 3, 4), part(22, 4, 5), part(8, 5, 6)
    name, x, long = part(22, 6, 7), part(22, 7, 8), part(22, 8, 2055)
    for beginning, measured in [([x, bracket, name, comma], 6), ([x, paren, name, comma], 6), ([fn, f, paren, name], 4)]:
        for width in (65534, 65535, 65536):
            count, rest = divmod(width - measured, 2048)
            rows = beginning + [long] * count + [part(22, 8, 8 + rest - 1)]
            yield Case(MOST, rows, 16 * len(rows), text, rooms=(), size=8)


# ---- rows that are refused

def ragged():
    rows = [(1, 22, 0, 1), (1, 22, 1, 2)]
    for row_bytes in range(1, 49):
        yield Case(DEFAULTS, rows, row_bytes, b"ab", rooms=(3,))
    yield Case(DEFAULTS, rows, 0, b"ab", rooms=(3,))
    for row_bytes in (16 * 65535 - 1, 16 * 65536 - 1, 16 * 65536):
        yield Case(DEFAULTS, rows, row_bytes, b"ab", rooms=(3,))


def most_rows():
    """65,535 rows."""
    some = [[(1, 0, 0, 0)], [(1, 1, 0, 1)], [(1, 0, 0, 1), (1, 1, 0, 0), (2, 3, 0, 1)], [(0, 3, 0, 0), (1, 0, 0, 0), (0, 0, 0, 1)], [(1, 22, 0, 0)],
            [(0, 3, 0, 0)], [(1, 22, 0, 1)]]
    for rows in some:
        yield Case(DEFAULTS, rows, 16 * 65535, b"a", rooms=(), size=8)


def bad_rows():
    for values, data, size in make_replay_rows.check_cases():
        rows = [tuple(int.from_bytes(data.ljust(64, b"\0")[at + 4 * i:at + 4 * i + 4], "little") for i in range(4)) for at in range(0, len(data), 16)]
        yield Case(values, rows, len(data), b"abcdefgh"[:size])
    rng = random.Random(3)
    for _ in range(300):
        case = of_tokens(beside.make(rng)[1])
        rows = list(case.rows)
        for _ in range(rng.choice([1, 1, 2])):
            damage(rng, rows, len(case.text))
        yield case._replace(rows=rows, row_bytes=16 * len(rows))


def damage(rng, rows, size):
    """Changes a number of a row, or puts a row of trivia in, or takes one out."""
    at = rng.randrange(len(rows))
    row = list(rows[at])
    sort = rng.randrange(6)
    if sort < 4:
        row[sort] = rng.choice([[0, 1, 2, 3], [3, 4, 34, 35], [size, row[3], row[3] + 1], [0, size, size + 1, 4294967295]][sort])
        rows[at] = tuple(row)
    elif sort == 4:
        rows.insert(rng.choice([at, len(rows)]), (rng.choice([0, 2]), rng.randrange(4), 0, 0))
    elif len(rows) > 1:
        del rows[at]


# ---- refusals 4 and 5

def repeated(words, count, options=(1, 0, 0, 0), rooms=(0,)):
    case = of_tokens(tokens_of_words(words), options, rooms)
    return case._replace(row_bytes=count * case.row_bytes)


def behind_64_groups(words, rooms=(0,)):
    return of_tokens(tokens_of_words("[ , " * 64 + words), (1, 0, 0, 0), rooms)


def deep():
    for words, groups in [("( a ,", 1), ("[ a ,", 1), ("[ NL ,", 1), ("( { a ,", 1), ("( , [ a ,", 2), ("fn ( ( a ,", 2)]:
        for count in (64, 65, 66, 67):
            yield repeated(words, count // groups)
    for indent in (1, 4):
        for count in (64, 65):
            yield repeated("( a ,", count, options=(1, indent, 0, 0), rooms=(0, -1))
    for words in ["( a )", "{ ( a , b ) }", "{ NL ( a , b ) NL }", "record E { ( a , b ) }", "fn ( a , b )", "] ( a ,", "] ( a , ( a ,", "] ] ( a , ( a ,", ") ( a ,",
                  "NL [ a ,", "[ , ]", "( EOF , )", "[ a EOF ,", "- [ ,"]:
        yield behind_64_groups(words)
    # the opener's leading trivia is written before refusal 4 is looked at, its own bytes are not
    for words in ["a [ ,", "L0:c [ ,", "L2:c L3: ( ,", "a L0:c [ ,", "L0:c a [ ,"]:
        yield behind_64_groups(words, rooms=(-14, -13, -9, -5, -4, -3, 0))


SIZED = [
    ("log ( a , b )", DEFAULTS), ("x [ a , b ]", WIDTHS_0), ("x [ a , b ]", (1, 0, 0, 0)), ("F f ( )", WIDTHS_0), ("R E { x : n , R0:c NL y : n }", DEFAULTS), ("R E { }", DEFAULTS),
    ("{ a } else { b }", DEFAULTS), ("if a { NL b NL } else { NL c NL }", (0, 2, 40, 40)), ("if a { NL b NL } else { NL c NL }", (1, 2, 40, 40)), ("L0:c a NL b", DEFAULTS), ("a L1:c b R2:d L3: c", DEFAULTS),
    ("- 1 - 2 . . 3", DEFAULTS), ("g ( a , { b , { c } } )", (1, 2, 0, 0)), ("EOF a EOF EOF", DEFAULTS), ("NL NL a NL NL NL", DEFAULTS), ("é [ ß , ü ]", (1, 1, 0, 6)), ("a L2:c NL", DEFAULTS),
]


def sizes():
    for words, values in SIZED:
        yield of_words(words, values, rooms=EVERY_SIZE)
    yield of_words("", rooms=EVERY_SIZE)


# ---- the shebang wrapper

SOURCES = [b"", b"#", b"#!", b"#!\n", b"#![", b"#![a]\nb", b"#! [", b"#!#![", b"#!/usr/bin/env rl\nlog", b"#!/x", b"#!\r\n", b"#!a\n#!b\n", b"# !a\n", b" #!a\n", b"\n#!a\n", b"!#a\n", b"#a!\n",
           b"##!\n", b"//#!\n", b"#!a, ]\n", b"#!\0\t\n", "#!é\n".encode(), b"#!" + 300 * b"x" + b"\ny"]


def shebang():
    for source in SOURCES:
        for words in ["", "log ( a , b )", "NL L0:c a", "NL NL a", "record E { x : n }"]:
            yield of_words(words, source=source)
    yield of_words("x [ a , %s ]" % (35 * "b"), source=b"#!/x\n", rooms=EVERY_SIZE)
    for source in [b"", b"#!/x\nlog", b"#![/x\nlog"]:
        yield of_words("log ( a , b )", source=source, rooms=EVERY_SIZE)
        for row_bytes in (8, 16, 24, 32):
            yield Case(DEFAULTS, [(1, 22, 0, 1), (1, 35, 0, 1)], row_bytes, b"a", rooms=(-4, 0, 2, 9), source=source)
        for groups in (64, 65):
            yield of_tokens(tokens_of_words("[ , " * groups + 41 * "a"), source=source)


# ---- random lists

def random_lists():
    rng = random.Random(1)
    for n in range(600):
        values, tokens = beside.make(rng)
        yield of_tokens(tokens, values, rooms=(n % 4 - 1,))
    for _ in range(60):
        tokens = [t for _ in range(rng.randrange(4, 12)) for t in beside.make(rng)[1]]
        yield of_tokens(tokens, rng.choice([DEFAULTS, (0, 1, 10, 10), WIDTHS_0]), rooms=(rng.choice([-1, 0, 1]),))
    for _ in range(200):
        words = [rng.choice("( ) [ ] , a NL".split()) for _ in range(rng.randrange(5, 12))]
        yield of_tokens(tokens_of_words(" ".join(words)), (1, 1, rng.randrange(12), rng.randrange(12)), rooms=(1,))


SORTS = [sheets_on_paper, readings_that_fail, differences, programs, brackets, braces, signatures, pairs, operators, eofs, plain_mark, trivia, hostile, single_bytes, options, widest, ragged,
         most_rows, bad_rows, deep, sizes, shebang, random_lists]
