//! `layout_and_read_back`: answers and refusals worked out by hand from the specification, and the lent
//! slices after each.
mod lists;

use furzewrench::{layout_and_read_back, Kind, Layout, Options, ReadBack, Refusal, Trivia};
use lists::{list, log, token, tokens, trailing, List};

/// The answer, and the output and the pieces after the call, which were 7 and 77.
type Read = (Result<ReadBack, Refusal>, Vec<u8>, Vec<u32>);

fn read(list_width: u32, (rows, text): &List, space: usize, piece_space: usize) -> Read {
    let options = Options { list_width, ..Options::default() };
    let (mut out, mut pieces) = (vec![7; space], vec![77; piece_space]);
    (layout_and_read_back(options, rows, text, &mut out, &mut pieces), out, pieces)
}

fn answer(
    length: usize,
    commas: usize,
    plain: bool,
    pieces: usize,
    holds: bool,
) -> Result<ReadBack, Refusal> {
    Ok(ReadBack { layout: Layout { length, commas, plain }, pieces, holds })
}

#[test]
fn a_plain_layout_reads_back_and_holds() {
    let indexes = vec![0, 3, 3, 4, 4, 5, 5, 6, 7, 8, 8, 9];
    assert_eq!(read(8, &log(), 9, 12), (answer(9, 0, true, 6, true), b"log(a, b)".to_vec(), indexes));
    assert_eq!(read(8, &(vec![], vec![]), 0, 0), (answer(0, 0, true, 0, true), vec![], vec![]));
}

#[test]
fn inserted_commas_are_pieces_too() {
    use Kind::*;
    let array = tokens(&[
        (Identifier, "x"),
        (LeftBracket, "["),
        (Identifier, "a"),
        (Comma, ","),
        (Identifier, "b"),
        (Newline, ""),
        (RightBracket, "]"),
        (Eof, ""),
    ]);
    let (answered, out, pieces) = read(0, &array, 64, 15);
    assert_eq!(answered, answer(18, 1, true, 7, true));
    assert_eq!(&out[..19], b"x[\n    a,\n    b\n,]\x07");
    assert_eq!(pieces, [0, 1, 1, 2, 7, 8, 8, 9, 14, 15, 16, 17, 17, 18, 77]);
}

#[test]
fn without_the_mark_nothing_is_read() {
    let (x, y) = (token(Kind::Identifier, "x"), token(Kind::Identifier, "y"));
    let commented = [x, trailing(Trivia::LineComment, "why"), y];
    let (answered, out, pieces) = read(40, &list(&commented), 9, 20);
    assert_eq!((answered, out), (answer(9, 0, false, 0, false), b"x// why y".to_vec()));
    assert_eq!(pieces, [77; 20]);
}

#[test]
fn the_layouts_refusals_leave_the_pieces() {
    let (mut rows, text) = log();
    assert_eq!(read(8, &log(), 8, 12), (Err(Refusal::Full(5)), vec![0; 8], vec![77; 12]));
    assert_eq!(read(65_536, &log(), 9, 12), (Err(Refusal::Option(3)), vec![7; 9], vec![77; 12]));
    rows.pop();
    assert_eq!(read(8, &(rows, text), 9, 12), (Err(Refusal::Ragged), vec![7; 9], vec![77; 12]));
}

#[test]
fn too_few_pieces_are_refused_and_leave_the_layout() {
    for (space, place) in [(0, 0), (1, 0), (2, 3), (10, 8), (11, 8)] {
        let refused = read(8, &log(), 9, space);
        assert_eq!(refused, (Err(Refusal::PiecesFull(place)), b"log(a, b)".to_vec(), vec![0; space]));
    }
}
