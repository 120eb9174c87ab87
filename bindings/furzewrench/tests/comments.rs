//! What each kind of trivia writes: the table of the crate's documentation, in the middle of a line and at
//! its start, in a record and out of one.
mod lists;

use furzewrench::Kind::*;
use furzewrench::{layout, Layout, Options, Trivia};
use lists::{leading, list, token, trailing, Item};

const NARROW: Options = Options { style: 1, indent_width: 4, signature_width: 0, list_width: 0 };
const COMMENTS: [Trivia; 3] = [Trivia::LineComment, Trivia::DocComment, Trivia::BlockComment];
const ALL: [Trivia; 4] = [Trivia::LineComment, Trivia::DocComment, Trivia::BlockComment, Trivia::BlankLine];

/// What a leading comment with the text `c` writes, without the gap.
fn as_leading(comment: Trivia) -> &'static str {
    match comment {
        Trivia::LineComment => "// c\n",
        Trivia::DocComment => "/// c\n",
        Trivia::BlockComment => "/* c */\n",
        Trivia::BlankLine => panic!("a blank line is no comment"),
    }
}

/// What trailing trivia with the text `c` writes.
fn as_trailing(trivia: Trivia) -> &'static str {
    match trivia {
        Trivia::LineComment => "// c",
        Trivia::DocComment => "/// c",
        Trivia::BlockComment => "/*c*/",
        Trivia::BlankLine => "",
    }
}

fn laid(options: Options, items: &[Item]) -> (String, Layout) {
    let (rows, text) = list(items);
    let mut out = [0; 256];
    let laid = layout(options, &rows, &text, &mut out).expect("a layout");
    (String::from_utf8_lossy(&out[..laid.length]).into_owned(), laid)
}

/// The list has trivia, so whatever it writes it is not plain.
fn expect(items: &[Item], expected: &str) {
    let (text, answer) = laid(Options::default(), items);
    assert_eq!((text.as_str(), answer.plain), (expected, false));
}

/// The items in a block of two levels, whose lines are indented by 8.
fn expect_in_block(items: &[Item], expected: &str) {
    let open = [token(LeftBrace, "{"), token(Newline, "")];
    let close = [token(RightBrace, "}")];
    let items = [&open[..], &open, items, &close, &close].concat();
    expect(&items, &format!("{{\n    {{\n{expected}\n    }}\n}}"));
}

/// The items in a record's braces, whose fields are indented by 4.
fn expect_in_record(items: &[Item], expected: &str) {
    let open = [token(Record, "record"), token(Identifier, "r"), token(LeftBrace, "{")];
    let items = [&open[..], items, &[token(RightBrace, "}")]].concat();
    expect(&items, &format!("record r\n{{\n{expected}\n}}"));
}

#[test]
fn a_leading_comment_has_a_gap_before_it_and_a_line_feed_after_it() {
    let (x, y, comma) = (token(Identifier, "x"), token(Identifier, "y"), token(Comma, ","));
    for comment in COMMENTS {
        let (c, text) = (leading(comment, "c"), as_leading(comment));
        expect_in_block(&[c, x], &format!("        {text}        x"));
        expect_in_block(&[x, c, y], &format!("        x {text} y"));
        expect_in_block(&[x, c, comma], &format!("        x {text},"));
        expect_in_record(&[c, x], &format!("    {text}    x,"));
        expect_in_record(&[x, comma, c, y], &format!("    x,\n    {text}    y,"));
        expect_in_record(&[x, c, y], &format!("    x {text} y,"));
    }
}

#[test]
fn a_trailing_comment_has_neither() {
    let (x, y, comma) = (token(Identifier, "x"), token(Identifier, "y"), token(Comma, ","));
    let line_end = token(Newline, "");
    for comment in COMMENTS {
        let (c, text) = (trailing(comment, "c"), as_trailing(comment));
        expect_in_block(&[x, c, y], &format!("        x{text} y"));
        expect_in_block(&[x, line_end, c, y], &format!("        x\n{text}        y"));
        expect_in_record(&[x, c, y], &format!("    x{text} y,"));
        expect_in_record(&[x, comma, c, y], &format!("    x,\n{text}    y,"));
    }
}

#[test]
fn a_leading_blank_line_has_the_indent_written_next() {
    let (x, y, blank) = (token(Identifier, "x"), token(Identifier, "y"), leading(Trivia::BlankLine, "c"));
    expect_in_block(&[blank, x], "\n        x");
    expect_in_block(&[x, blank, y], "        x\n        y");
    expect_in_record(&[blank, x], "    x,");
    expect_in_record(&[x, blank, y], "    x    y,");
}

#[test]
fn a_trailing_blank_line_writes_nothing() {
    let (x, y, blank) = (token(Identifier, "x"), token(Identifier, "y"), trailing(Trivia::BlankLine, "c"));
    expect_in_block(&[x, blank, y], "        x y");
    expect_in_record(&[x, blank, y], "    x y,");
}

#[test]
fn a_trailing_comment_hides_the_next_token() {
    let (x, y) = (token(Identifier, "x"), token(Identifier, "y"));
    let why = trailing(Trivia::LineComment, "why");
    expect(&[x, why, y], "x// why y");
    expect(&[x, why, y, token(Semicolon, ";")], "x// why y;");
    let (colon, comma, n) = (token(Colon, ":"), token(Comma, ","), token(Identifier, "n"));
    let field = [x, colon, n, comma, trailing(Trivia::LineComment, "c"), token(Newline, ""), y, colon, n];
    expect_in_record(&field, "    x: n,\n// c    y: n,");
}

#[test]
fn some_trivia_is_not_written() {
    let (a, b, comma) = (token(Identifier, "a"), token(Identifier, "b"), token(Comma, ","));
    let (open, close) = (token(LeftParen, "("), token(RightParen, ")"));
    let (left, right) = (token(LeftBracket, "["), token(RightBracket, "]"));
    let (fun, record) = (token(Fn, "fn"), token(Record, "record"));
    let (begin, end) = (token(LeftBrace, "{"), token(RightBrace, "}"));
    for trivia in ALL {
        let (before, after) = (leading(trivia, "c"), trailing(trivia, "c"));
        let lists: [(&[Item], &str); 4] = [
            (&[a, open, a, comma, b, close, after, a], "a(\n    a,\n    b\n) a"),
            (&[a, left, a, comma, b, right, after, a], "a[\n    a,\n    b,\n] a"),
            (&[fun, a, open, a, close, after, a], "fn a(\n    a\n    ) a"),
            (&[record, a, begin, after, before, end, after, a], "record a {{} a"),
        ];
        for (items, expected) in lists {
            let (text, answer) = laid(NARROW, items);
            assert_eq!((text.as_str(), answer.plain), (expected, false));
        }
    }
}

#[test]
fn a_blank_line_needs_no_trivia() {
    let (x, y, line_end) = (token(Identifier, "x"), token(Identifier, "y"), token(Newline, ""));
    let (text, answer) = laid(Options::default(), &[x, line_end, line_end, y]);
    assert_eq!((text.as_str(), answer.plain), ("x\n\ny", true));
}
