//! Texts whose last piece ends at the largest index, or starts or ends after it: refusals 9 and 10.
use super::{made, Bytes, Made, MOST};
use crate::counts::{Counts, Sort};
use crate::difference::Difference;
use crate::doors::{self, refuse, success, Answer};
use crate::layouts::Comparer;
use crate::threads::in_parallel;

/// A text, the space for its pieces in numbers, and what reading it answers; on success the pieces.
struct Case {
    text: Made,
    space: usize,
    answer: Answer,
    pieces: &'static [[usize; 2]],
}

const SPACE: usize = 16;

fn reads_as(text: Made, pieces: &'static [[usize; 2]]) -> Case {
    Case { text, space: SPACE, answer: success(pieces.len() as u64, 0, 0), pieces }
}

fn refused(text: Made, refusal: u32, place: usize) -> Case {
    Case { text, space: SPACE, answer: refuse(refusal, place), pieces: &[] }
}

fn cases() -> Vec<Case> {
    [long_pieces(), after_gaps(), after_a_quote()].into_iter().flatten().collect()
}

/// One piece goes on to the text's end, or nearly.
fn long_pieces() -> Vec<Case> {
    const OPERATORS: Bytes = b"+-.=";
    // in a quote: a single, a byte of no class, a quote after a backslash, gaps
    const QUOTED: Bytes = b"a(\0\\'\n 1";
    vec![
        reads_as(made(b"", b"a", b"", MOST), &[[0, MOST]]),
        refused(made(b"", b"a", b"", MOST + 1), 10, 0),
        refused(made(b"x ", b"a", b" y \0", MOST + 5), 10, 2),
        reads_as(made(b"f(", OPERATORS, b"", MOST), &[[0, 1], [1, 2], [2, MOST]]),
        refused(made(b"f(", OPERATORS, b"", MOST + 1), 10, 2),
        // the operators are the first piece for which there is no space
        Case { space: 5, ..refused(made(b"f(", OPERATORS, b"", MOST), 10, 2) },
        reads_as(made(b"-'      ", QUOTED, b"'", MOST), &[[0, 1], [1, MOST]]),
        refused(made(b"-'      ", QUOTED, b"'", MOST + 1), 10, 1),
        refused(made(b"-'      ", QUOTED, b"", MOST + 1), 9, 1),
        // the last dot has no digit after it: it is a piece that starts at the largest index
        reads_as(made(b"", b"1.", b"", MOST), &[[0, MOST]]),
        refused(made(b"", b"1.", b"", MOST + 1), 10, MOST),
    ]
}

/// Gaps, and then a short piece or none.
fn after_gaps() -> Vec<Case> {
    let gaps = |last: Bytes, len: usize| made(b"a", b" \n", last, len);
    vec![
        reads_as(gaps(b"", MOST + 100), &[[0, 1]]),
        reads_as(gaps(b"bc", MOST), &[[0, 1], [MOST - 2, MOST]]),
        refused(gaps(b"bc", MOST + 1), 10, MOST - 1),
    ]
}

/// A quote, which is read fast, and then short pieces and gaps.
fn after_a_quote() -> Vec<Case> {
    let quote = |last: Bytes, len: usize| made(b"'", b"a", last, len);
    vec![
        reads_as(quote(b"'([ \n", MOST + 2), &[[0, MOST - 2], [MOST - 2, MOST - 1], [MOST - 1, MOST]]),
        // a piece that starts at the largest index, and after it
        refused(quote(b"' (", MOST + 1), 10, MOST),
        refused(quote(b"'          b c", MOST + 3), 10, MOST),
        refused(quote(b"'          b c", MOST + 9), 10, MOST + 6),
        // refusal 9 at the largest index and after it, and before 10 at one index
        refused(quote(b"' \0", MOST + 1), 9, MOST),
        refused(quote(b"'          \0b", MOST + 9), 9, MOST + 7),
        refused(quote(b"'          \"\\\" '", MOST + 9), 9, MOST + 4),
        refused(quote(b"' \"bcdef", MOST + 2), 9, MOST - 4),
        // text order
        refused(quote(b"' \"bcdef\" \0", MOST + 4), 10, MOST - 5),
        refused(quote(b"' \0 bcdefg", MOST + 4), 9, MOST - 4),
    ]
}

pub fn run() -> Result<Counts, Difference> {
    let cases = cases();
    in_parallel(cases.len() as u64, None, |task, comparer| compare(&cases[task as usize], comparer))
}

const MARK: u32 = 0xd7d7_d7d7;
const GUARD: usize = 2;

fn compare(case: &Case, comparer: &mut Comparer) -> Result<(), Difference> {
    let Some(text) = case.text.map(comparer) else { return Ok(()) };
    let mut pieces = vec![MARK; case.space + GUARD];
    let answer = doors::read_pieces(text.bytes(), &mut pieces[..case.space]);
    let said = |said: String| Err(format!("into {} numbers, {}: {said}", case.space, case.text).into());
    if answer != case.answer {
        return said(format!("the answer is {answer}, it must be {}", case.answer));
    }
    let mut slots: Vec<u32> = case.pieces.iter().flatten().map(|&n| n as u32).collect();
    slots.resize(case.space, if answer.refusal == 0 { MARK } else { 0 });
    slots.resize(case.space + GUARD, MARK);
    if pieces != slots {
        return said(format!("the numbers are {pieces:?}, they must be {slots:?}"));
    }
    comparer.counts.add_call(Sort::Readings, answer.refusal);
    Ok(())
}
