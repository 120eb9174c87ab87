//! Sheets whose text ends at the largest index, or one after it: refusal 8.
use super::{holds, made, marked, zeros, Bytes, Made, MARK, MOST};
use crate::counts::{Counts, Sort};
use crate::difference::Difference;
use crate::doors::{self, refuse, success, Answer};
use crate::layouts::Comparer;
use crate::lists::push_row;
use crate::threads::in_parallel;

/// A sheet, what reading it answers, and then the rows and the text.
struct Case {
    sheet: Made,
    answer: Answer,
    rows: &'static [[usize; 4]],
    text: Made,
}

fn read(sheet: Made, rows: &'static [[usize; 4]], text: Made) -> Case {
    Case { sheet, answer: success(rows.len() as u64, text.len as u64, 0), rows, text }
}

fn refused(sheet: Made, refusal: u32, line: usize) -> Case {
    Case { sheet, answer: refuse(refusal, line), rows: &[], text: zeros(TEXT_SPACE) }
}

const ONE: Bytes = b"what kind text\nT 22 ";
const TWO: Bytes = b"what kind text\nT 22 xy\nR 0 ";
/// Of even length: the period of two bytes begins after it.
const ESCAPES: Bytes = b"what kind text\nT 22 xy\nL 2  ";

fn cases() -> Vec<Case> {
    // sheets whose long line has so many bytes of text, but for those in `last`
    let one = |last: Bytes, n: usize| made(ONE, b"a", last, ONE.len() + n + last.len());
    let two = |last: Bytes, n: usize| made(TWO, b"a", last, TWO.len() + n + last.len());
    let escapes = |last: Bytes, n: usize| made(ESCAPES, b"\\n", last, ESCAPES.len() + 2 * n + last.len());
    const ROWS: [[usize; 4]; 4] = [[1, 22, 0, 2], [2, 0, 2, MOST], [0, 3, MOST, MOST], [1, 0, MOST, MOST]];
    vec![
        read(one(b"\n", MOST), &[[1, 22, 0, MOST]], made(b"", b"a", b"", MOST)),
        refused(one(b"\n", MOST + 1), 8, 1),
        // lines of no text after the largest index; the next byte tops it
        read(two(b"\\\\\nL 3 \nT 0 \n", MOST - 3), &ROWS, made(b"xy", b"a", b"\\", MOST)),
        refused(two(b"\nL 3 \nT 22 b\n", MOST - 2), 8, 4),
        // 7 before 8 on one line, 8 before 7 on a later one
        refused(two(b"\nL 3 \nT 22 b\\x\n", MOST - 2), 7, 4),
        refused(two(b"\nT 22 b\\x\n", MOST - 1), 8, 2),
        // a sheet of 8.6 GB
        read(escapes(b"\n", MOST - 3), &[[1, 22, 0, 2], [0, 2, 2, MOST]], made(b"xy ", b"\n", b"", MOST)),
    ]
}

pub fn run() -> Result<Counts, Difference> {
    let cases = cases();
    in_parallel(cases.len() as u64, None, |task, comparer| compare(&cases[task as usize], comparer))
}

const ROW_SPACE: usize = 100;
const TEXT_SPACE: usize = MOST + 2000;

/// The text's own blocks, at both its ends, are seen byte by byte. Of the rest one sees that the byte was
/// written to each place of the common block, once or more; a copy of it that was left out is not seen.
fn compare(case: &Case, comparer: &mut Comparer) -> Result<(), Difference> {
    let Some(sheet) = case.sheet.map(comparer) else { return Ok(()) };
    let Some(mut text) = marked(TEXT_SPACE, &[], comparer) else { return Ok(()) };
    let mut rows = [MARK; ROW_SPACE];
    let answer = doors::read_sheet(sheet.bytes(), &mut rows, text.lent());
    let said = |said: String| Err(format!("reading the sheet of {}: {said}", case.sheet).into());
    if answer != case.answer {
        return said(format!("the answer is {answer}, it must be {}", case.answer));
    }
    let mut expected = Vec::new();
    case.rows.iter().for_each(|row| push_row(&mut expected, row.map(|n| n as u32)));
    expected.resize(ROW_SPACE, if answer.refusal == 0 { MARK } else { 0 });
    if rows[..] != expected {
        return said(format!("the rows are {rows:?}, they must be {expected:?}"));
    }
    if !holds(&text, &case.text) {
        return said(format!("the text is not {}, and unchanged after it", case.text));
    }
    comparer.counts.add_call(Sort::Sheets, answer.refusal);
    Ok(())
}
