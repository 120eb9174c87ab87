//! Options and rows that are refused, or nearly: refusals 1, 2 and 3.
use crate::counts::Counts;
use crate::difference::Difference;
use crate::doors::Options;
use crate::layouts::{Comparer, Rooms};
use crate::lists::{list, pack, Packed, Row, MOST_ROWS, ROW_BYTES};
use crate::long::some_options;
use crate::random::Random;
use crate::threads::in_parallel;

const LISTS: u64 = 2_000_000;
const TASK: u64 = 1000;

/// Random rows with faults put in; compares one in `step` of them.
pub fn run(step: u64) -> Result<Counts, Difference> {
    in_parallel((LISTS / TASK).div_ceil(step), None, |task, comparer| {
        (0..TASK).try_for_each(|i| compare(task * TASK + i, comparer))
    })
}

fn compare(seed: u64, comparer: &mut Comparer) -> Result<(), Difference> {
    let random = &mut Random::new(seed ^ 0xdead);
    let mut packed = pack(&rows(random));
    for _ in 0..1 + random.below(2) {
        damage(random, &mut packed);
    }
    let options = if random.one_in(8) { bad_options(random) } else { some_options(random) };
    comparer.compare(&packed.rows, &packed.text, &[options], Rooms::Two(random.next()), 0)
}

/// A few rows. Their bytes are ASCII, so that any part of the text is UTF-8.
fn rows(random: &mut Random) -> Vec<Row> {
    const PARTS: [&str; 6] = ["a", "[ a , b ]", "l0:c;a;r1:d", "{ NL } else", "l3:;NL;r2:c;r0:e", "fn f ( a )"];
    (0..1 + random.below(3)).flat_map(|_| list(random.of(&PARTS))).collect()
}

fn damage(random: &mut Random, packed: &mut Packed) {
    let Packed { rows, text } = packed;
    match random.below(8) {
        0 => rows.truncate(random.below(rows.len() + 1)),
        1 => rows.extend(vec![0; random.below(40)]),
        2 => text.truncate(random.below(text.len() + 1)),
        3 => swap_rows(random, rows),
        4 => drop_row(random, rows),
        _ => set_number(random, rows, text.len() as u32),
    }
}

fn swap_rows(random: &mut Random, rows: &mut [u8]) {
    let count = rows.len() / ROW_BYTES;
    if count > 0 {
        let (a, b) = (ROW_BYTES * random.below(count), ROW_BYTES * random.below(count));
        (0..ROW_BYTES).for_each(|i| rows.swap(a + i, b + i));
    }
}

fn drop_row(random: &mut Random, rows: &mut Vec<u8>) {
    if rows.len() >= ROW_BYTES {
        let at = ROW_BYTES * random.below(rows.len() / ROW_BYTES);
        rows.drain(at..at + ROW_BYTES);
    }
}

/// Sets one of the rows' numbers to one at or near a bound.
fn set_number(random: &mut Random, rows: &mut [u8], size: u32) {
    if rows.len() < 4 {
        return;
    }
    let bounds =
        [0, 1, 2, 3, 4, 5, 33, 34, 35, 36, 256, 1 << 24, 1 << 31, u32::MAX, size, size + 1, size.saturating_sub(1)];
    let at = 4 * random.below(rows.len() / 4);
    rows[at..at + 4].copy_from_slice(&random.of(&bounds).to_le_bytes());
}

fn bad_options(random: &mut Random) -> Options {
    let mut options = some_options(random);
    for _ in 0..1 + random.below(2) {
        let at = random.below(4);
        options[at] = random.of(&[0, 1, 2, 3, 16, 17, 65_535, 65_536, 1 << 31, u32::MAX]);
    }
    options
}

/// As many rows as a list may have, one more, and a byte less and more.
pub fn at_the_row_bound() -> Result<Counts, Difference> {
    let sizes = [MOST_ROWS - 1, MOST_ROWS, MOST_ROWS + 1, 2 * MOST_ROWS];
    let words = ["a , NL", "[ ]", "{ } else NL", "fn f ( a ) NL"];
    in_parallel((sizes.len() * words.len()) as u64, None, |task, comparer| {
        let (size, words) = (sizes[task as usize / 4], words[task as usize % 4]);
        let rows: Vec<Row> = list(words).into_iter().cycle().take(size).collect();
        let packed = pack(&rows);
        for end in [packed.rows.len(), packed.rows.len() - 1, packed.rows.len() - ROW_BYTES] {
            comparer.compare(&packed.rows[..end], &packed.text, &[[1, 4, 40, 40]], Rooms::Two(task), 0)?;
        }
        Ok(())
    })
}

/// Groups and signatures whose width is at, just below and just above the option.
pub fn at_the_width_bounds() -> Result<Counts, Difference> {
    let widths = [0, 1, 2, 3, 7, 8, 39, 40, 41, 255, 256, 257, 65_533, 65_534, 65_535];
    in_parallel(widths.len() as u64, None, |task, comparer| {
        let width: usize = widths[task as usize];
        for length in width.saturating_sub(12)..width + 3 {
            compare_width(width as u32, length, comparer)?;
        }
        Ok(())
    })
}

fn compare_width(width: u32, length: usize, comparer: &mut Comparer) -> Result<(), Difference> {
    for words in [
        "[ X , a ]",
        "( X , a )",
        "g ( X , a )",
        "fn f ( X )",
        "fn ( X , a )",
        "fn f ( X , [ a , a ] )",
        "[ X a ]",
        "[ a , NL X ] NL",
    ] {
        let mut rows = list(words);
        for row in rows.iter_mut().filter(|r| r.bytes == b"X") {
            row.bytes = vec![b'x'; length];
        }
        let packed = pack(&rows);
        let options = [[1, 4, width, width], [0, 2, width, 65_535], [0, 2, 65_535, width]];
        comparer.compare(&packed.rows, &packed.text, &options, Rooms::Two(length as u64), 0)?;
    }
    Ok(())
}
