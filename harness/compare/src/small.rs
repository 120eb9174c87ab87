//! What is small enough to be compared whole: spaces, and refusal 11.
use crate::counts::{Counts, Sort};
use crate::difference::Difference;
use crate::doors::{needs_space, raw, refuse, success, Answer, REPORT_BYTES};
use crate::lists::{list, pack};
use crate::{rust_side, sheet};
use rl_lexer::tokentypes::kind;

/// Every pair of kinds, and numbers that are no kind.
pub fn spaces() -> Result<Counts, Difference> {
    let mut counts = Counts::default();
    let numbers: Vec<u32> = (0..40).chain([255, 256, 290, 1 << 16, 1 << 31, u32::MAX]).collect();
    for &first in &numbers {
        for &second in &numbers {
            let (answer, expected) = (needs_space(first, second), expected_space(first, second));
            if answer != expected {
                return Err(format!("needs_space({first}, {second}) is {answer}, not {expected}").into());
            }
            counts.add_call(Sort::Spaces, answer.refusal);
        }
    }
    Ok(counts)
}

fn expected_space(first: u32, second: u32) -> Answer {
    match (first < 35, second < 35) {
        (true, true) => success(rust_side::needs_space(&kind(first), &kind(second)) as u64, 0, 0),
        (false, _) => refuse(3, 0),
        (true, false) => refuse(3, 1),
    }
}

const MARK: u8 = 0xd7;
const MARK_NUMBER: u32 = 0xd7d7_d7d7;

/// Reports of every other size up to 64 bytes: refusal 11, and nothing is changed.
pub fn reports() -> Result<Counts, Difference> {
    let mut counts = Counts::default();
    for size in (0..=64).filter(|&n| n != REPORT_BYTES) {
        report_of(size, "[ a , b ]", [1, 4, 40, 40], sheet::NAMES, b"a b", [22, 22])?;
        report_of(size, "l0:c;a;r0:c", [2, 17, 65_536, 0], b"T 35", b"\"", [35, 35])?;
        counts.add_many(Sort::Refusal11, 10);
    }
    Ok(counts)
}

fn report_of(
    size: usize,
    words: &str,
    options: [u32; 4],
    sheet: &[u8],
    text: &[u8],
    kinds: [u32; 2],
) -> Result<(), Difference> {
    let packed = pack(&list(words));
    let (mut report, mut out, mut other) = (vec![MARK; size], [MARK; 64], [MARK; 64]);
    let mut pieces = [MARK_NUMBER; 16];
    let answers = [
        raw::layout(options, &packed.rows, &packed.text, &mut out, &mut report),
        raw::layout_source(b"#!a", &packed.rows, &packed.text, &mut out, &mut report),
        raw::read_sheet(sheet, &mut out, &mut other, &mut report),
        raw::read_pieces(text, &mut pieces, &mut report),
        raw::needs_space(kinds[0], kinds[1], &mut report),
    ];
    let unchanged = |bytes: &[u8]| bytes.iter().all(|&b| b == MARK);
    if answers != [11; 5] {
        return Err(format!("a report of {size} bytes: the refusals are {answers:?}").into());
    }
    if !unchanged(&report) || !unchanged(&out) || !unchanged(&other) || pieces != [MARK_NUMBER; 16] {
        return Err(format!("a report of {size} bytes: a lent slice was changed").into());
    }
    Ok(())
}
