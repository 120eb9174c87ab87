//! `read_sheet`, `read_pieces` and `needs_space`: answers and refusals worked out by hand from the
//! specification, and the lent slices after each.
use furzewrench::{bytes_as_rows, needs_space, read_pieces, read_sheet, Kind, Refusal, Row, Sheet, Trivia};

const UNTOUCHED: u8 = 7;

#[test]
fn a_sheet_becomes_rows_and_text() {
    let (mut rows, mut text) = ([UNTOUCHED; 40], [UNTOUCHED; 10]);
    let read = read_sheet(b"what kind text\nT 22 a\\nb\nR 3 \n", &mut rows, &mut text);
    assert_eq!(read, Ok(Sheet { rows: 2, text_bytes: 3 }));
    let expected = [Row::token(Kind::Identifier, 0, 3), Row::trailing(Trivia::BlankLine, 3, 3)];
    assert_eq!(bytes_as_rows(&rows), (&expected[..], &[UNTOUCHED; 8][..]));
    assert_eq!(&text[..3], b"a\nb");
    assert_eq!(text[3..], [UNTOUCHED; 7]);
}

#[test]
fn a_sheet_without_rows_needs_no_space() {
    assert_eq!(read_sheet(b"what kind text\n", &mut [], &mut []), Ok(Sheet { rows: 0, text_bytes: 0 }));
}

#[test]
fn a_sheet_of_the_shortest_lines_needs_a_fifth_of_its_bytes_in_rows() {
    let sheet = ["what kind text\n", &"T 0 \n".repeat(1_000)].concat();
    let mut rows = vec![UNTOUCHED; sheet.len() / 5 * Row::BYTES];
    assert_eq!(read_sheet(sheet.as_bytes(), &mut rows, &mut []), Ok(Sheet { rows: 1_000, text_bytes: 0 }));
}

#[test]
fn sheets_are_refused() {
    let cases = [
        ("", 16, 4, Refusal::NoNames),
        ("what kind text", 16, 4, Refusal::NoNames),
        ("what kind text \n", 16, 4, Refusal::NoNames),
        ("what kind text\nT 22 a\nT 35 b\n", 64, 8, Refusal::BadLine(2)),
        ("what kind text\nT 22 a", 64, 8, Refusal::BadLine(1)),
        ("what kind text\nT 22 abcd\\x\n", 64, 3, Refusal::BadLine(1)),
        ("what kind text\nT 22 a\nT 22 b\n", 31, 8, Refusal::SheetFull(2)),
        ("what kind text\nT 22 abcd\n", 64, 3, Refusal::SheetFull(1)),
    ];
    for (sheet, row_space, text_space, refusal) in cases {
        let (mut rows, mut text) = (vec![UNTOUCHED; row_space], vec![UNTOUCHED; text_space]);
        assert_eq!(read_sheet(sheet.as_bytes(), &mut rows, &mut text), Err(refusal), "{sheet:?}");
        let left = if refusal == Refusal::NoNames { UNTOUCHED } else { 0 };
        assert_eq!((rows, text), (vec![left; row_space], vec![left; text_space]), "{sheet:?}");
    }
}

#[test]
fn a_text_becomes_pieces() {
    let mut pieces = [77; 13];
    assert_eq!(read_pieces(b"a(1.5::'x')", &mut pieces), Ok(6));
    assert_eq!(pieces, [0, 1, 1, 2, 2, 5, 5, 7, 7, 10, 10, 11, 77]);
    assert_eq!(read_pieces(b" \n", &mut []), Ok(0));
    assert_eq!(read_pieces(b"", &mut []), Ok(0));
}

#[test]
fn texts_are_refused() {
    let cases = [
        ("ab \t", 8, Refusal::Unreadable(3)),
        ("ab 'c", 8, Refusal::Unreadable(3)),
        ("a \t b", 2, Refusal::Unreadable(2)),
        ("a b c", 5, Refusal::PiecesFull(4)),
        ("a(1.5::'x')", 11, Refusal::PiecesFull(10)),
        ("a", 0, Refusal::PiecesFull(0)),
        ("a", 1, Refusal::PiecesFull(0)),
    ];
    for (text, space, refusal) in cases {
        let mut pieces = vec![77; space];
        assert_eq!(read_pieces(text.as_bytes(), &mut pieces), Err(refusal), "{text:?}");
        assert_eq!(pieces, vec![0; space], "{text:?}");
    }
}

#[test]
fn spaces_are_told_or_refused() {
    assert_eq!(needs_space(Kind::Identifier.number(), Kind::Identifier.number()), Ok(true));
    assert_eq!(needs_space(Kind::Dot.number(), Kind::Identifier.number()), Ok(false));
    assert_eq!(needs_space(34, 34), Ok(true));
    assert_eq!(needs_space(35, 0), Err(Refusal::BadRow(0)));
    assert_eq!(needs_space(0, 35), Err(Refusal::BadRow(1)));
    assert_eq!(needs_space(u32::MAX, u32::MAX), Err(Refusal::BadRow(0)));
}
