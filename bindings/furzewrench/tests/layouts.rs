//! `layout` and `layout_source`: answers and refusals worked out by hand from the specification, and the
//! output after each.
mod lists;

use furzewrench::{layout, layout_source, rows_as_bytes, Kind, Layout, Options, Refusal, Row, Style, Trivia};
use lists::{leading, list, log, token, tokens, List};

const UNTOUCHED: u8 = 7;

/// A layout's answer, and the output after the call: `space` bytes that were 7.
type Laid = (Result<Layout, Refusal>, Vec<u8>);

fn lay(options: Options, (rows, text): &List, space: usize) -> Laid {
    let mut out = vec![UNTOUCHED; space];
    (layout(options, rows, text, &mut out), out)
}

fn lay_source(source: &[u8], (rows, text): &List, space: usize) -> Laid {
    let mut out = vec![UNTOUCHED; space];
    (layout_source(source, rows, text, &mut out), out)
}

fn expect_text((answer, out): Laid, text: &str, commas: usize, plain: bool) {
    let length = text.len();
    assert_eq!(answer, Ok(Layout { length, commas, plain }), "{text}");
    assert_eq!(&out[..length], text.as_bytes());
    assert!(out[length..].iter().all(|&byte| byte == UNTOUCHED), "{text}: past the text");
}

fn expect_refusal((answer, out): Laid, refusal: Refusal) {
    let zeroed = matches!(refusal, Refusal::Deep(_) | Refusal::Full(_));
    let left = if zeroed { 0 } else { UNTOUCHED };
    assert_eq!(answer, Err(refusal));
    assert!(out.iter().all(|&byte| byte == left), "{refusal}: the output");
}

fn list_width(list_width: u32) -> Options {
    Options { list_width, ..Options::default() }
}

#[test]
fn a_list_breaks_above_the_list_width() {
    use Kind::*;
    expect_text(lay(Options::default(), &log(), 64), "log(a, b)", 0, true);
    expect_text(lay(list_width(8), &log(), 9), "log(a, b)", 0, true);
    expect_text(lay(list_width(7), &log(), 64), "log(\n    a,\n    b\n)", 0, true);
    let array = tokens(&[
        (Identifier, "x"),
        (LeftBracket, "["),
        (Identifier, "a"),
        (Comma, ","),
        (Identifier, "b"),
        (RightBracket, "]"),
    ]);
    expect_text(lay(list_width(7), &array, 64), "x[\n    a,\n    b,\n]", 1, true);
}

#[test]
fn the_defaults_are_the_specifications() {
    let expected = Options { style: 1, indent_width: 4, signature_width: 40, list_width: 40 };
    assert_eq!(Options::default(), expected);
}

#[test]
fn each_option_reaches_the_layout() {
    use Kind::*;
    let block =
        tokens(&[(Identifier, "a"), (LeftBrace, "{"), (Newline, ""), (Identifier, "b"), (RightBrace, "}")]);
    let signature = tokens(&[(Fn, "fn"), (Identifier, "f"), (LeftParen, "("), (RightParen, ")")]);
    let defaults = Options::default();
    expect_text(lay(defaults, &block, 64), "a\n{\n    b\n}", 0, true);
    expect_text(
        lay(Options { style: Style::SameLine.number(), ..defaults }, &block, 64),
        "a {\n    b\n}",
        0,
        true,
    );
    expect_text(lay(Options { indent_width: 2, ..defaults }, &block, 64), "a\n{\n  b\n}", 0, true);
    expect_text(lay(Options { signature_width: 2, ..defaults }, &signature, 64), "fn f()", 0, true);
    expect_text(
        lay(Options { signature_width: 1, ..defaults }, &signature, 64),
        "fn f(\n    \n    )",
        0,
        true,
    );
}

#[test]
fn no_rows_give_the_empty_text() {
    expect_text(lay(Options::default(), &(vec![], vec![]), 0), "", 0, true);
    expect_text(lay_source(b"", &(vec![], vec![]), 0), "", 0, true);
    expect_text(lay_source(b"#!rl", &(vec![], vec![]), 8), "#!rl\n", 0, false);
}

#[test]
fn a_comment_costs_the_plain_mark() {
    let commented = list(&[leading(Trivia::LineComment, "c"), token(Kind::Identifier, "a")]);
    expect_text(lay(Options::default(), &commented, 64), "// c\na", 0, false);
}

#[test]
fn refusal_1_names_the_first_option_out_of_bounds() {
    let fits = Options { style: 0, indent_width: 16, signature_width: 65_535, list_width: 65_535 };
    expect_text(lay(fits, &log(), 9), "log(a, b)", 0, true);
    let beyond = Options { style: 2, indent_width: 17, signature_width: 65_536, list_width: u32::MAX };
    let wrong = [
        beyond,
        Options { style: 1, ..beyond },
        Options { style: 1, indent_width: 16, ..beyond },
        Options { style: 1, indent_width: 16, signature_width: 65_535, ..beyond },
    ];
    let ragged = (vec![0; 15], vec![]);
    for (position, options) in wrong.into_iter().enumerate() {
        expect_refusal(lay(options, &log(), 64), Refusal::Option(position));
        expect_refusal(lay(options, &ragged, 64), Refusal::Option(position));
    }
}

#[test]
fn refusal_2_is_for_rows_that_are_no_rows() {
    let (mut rows, text) = log();
    rows.pop();
    expect_refusal(lay(Options::default(), &(rows.clone(), text.clone()), 64), Refusal::Ragged);
    expect_refusal(lay_source(b"#!rl\n", &(rows, text), 2), Refusal::Ragged);

    let end = rows_as_bytes(&[Row::token(Kind::Eof, 0, 0)]).to_vec();
    expect_text(lay(Options::default(), &(end.repeat(65_535), vec![]), 0), "", 0, true);
    expect_refusal(lay(Options::default(), &(end.repeat(65_536), vec![]), 0), Refusal::Ragged);
}

#[test]
fn refusal_3_names_the_first_bad_row() {
    let good = Row::token(Kind::Identifier, 0, 1);
    let lead = Row::leading(Trivia::BlankLine, 0, 0);
    let trail = Row::trailing(Trivia::BlankLine, 0, 0);
    let cases = [
        (vec![good, Row { what: 3, ..good }, Row { what: 4, ..good }], 1),
        (vec![good, good, Row { kind: 35, ..good }], 2),
        (vec![good, Row { kind: 4, ..trail }], 1),
        (vec![Row { kind: u32::MAX, ..lead }, good], 0),
        (vec![Row { start: 2, end: 1, ..good }], 0),
        (vec![good, Row { end: 4, ..good }], 1),
        (vec![trail, good], 0),
        (vec![good, lead, trail, good], 2),
        (vec![good, lead, lead], 2),
    ];
    for (rows, place) in cases {
        let list = (rows_as_bytes(&rows).to_vec(), b"abc".to_vec());
        expect_refusal(lay(Options::default(), &list, 64), Refusal::BadRow(place));
        expect_refusal(lay_source(b"#!rl\n", &list, 2), Refusal::BadRow(place));
    }
}

#[test]
fn refusal_4_names_the_65th_broken_group() {
    let options = Options { indent_width: 0, list_width: 0, ..Options::default() };
    let nested = |groups: usize| tokens(&[(Kind::LeftParen, "("), (Kind::Comma, ",")].repeat(groups));
    expect_text(lay(options, &nested(64), 256), &"(\n,\n".repeat(64), 0, true);
    expect_refusal(lay(options, &nested(65), 256), Refusal::Deep(128));
    expect_refusal(lay(options, &nested(65), 255), Refusal::Full(127));
}

#[test]
fn refusal_5_names_the_token_that_does_not_fit() {
    let place_by_space = [0, 0, 0, 1, 2, 3, 4, 4, 5];
    for (space, place) in place_by_space.into_iter().enumerate() {
        expect_refusal(lay(Options::default(), &log(), space), Refusal::Full(place));
    }
}

#[test]
fn deep_nests_ask_for_much() {
    let braces = tokens(&[(Kind::LeftBrace, "{")].repeat(2_000));
    let (answer, _) = lay(Options::default(), &braces, 8_000_000);
    assert_eq!(answer, Ok(Layout { length: 8_000_000, commas: 0, plain: true }));
}

#[test]
fn a_shebang_line_comes_first() {
    expect_text(lay_source(b"#!/rl\nlog(a,b)\n", &log(), 64), "#!/rl\nlog(a, b)", 0, false);
    expect_text(lay_source(b"#!", &log(), 12), "#!\nlog(a, b)", 0, false);
    expect_text(lay_source(b"#![x]\n", &log(), 64), "log(a, b)", 0, true);
    expect_text(lay_source(b"log\n#!/rl\n", &log(), 9), "log(a, b)", 0, true);
    for space in 0..6 {
        expect_refusal(lay_source(b"#!/rl\n", &log(), space), Refusal::Full(0));
    }
    expect_refusal(lay_source(b"#!/rl\n", &log(), 10), Refusal::Full(2));
    expect_refusal(lay_source(b"#!/rl\n", &log(), 14), Refusal::Full(5));
}
