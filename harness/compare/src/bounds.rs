//! The 4 GiB bounds: texts, sheets and layouts about as long as 32 bits reach, in memory that is mapped many
//! times.
//!
//! What must come out follows from how each input is made, and is written beside it. The long layout goes
//! beside format.rs, which is stepped with its text thrown away.
pub mod layouts;
pub mod lexemes;
pub mod readings;
pub mod sheets;

use crate::counts::Sort;
use crate::layouts::Comparer;
use crate::mapped::Mapped;
use std::ops::Range;

/// The largest index that a row or a piece can name.
const MOST: usize = u32::MAX as usize;

/// What lent bytes are before a call.
const MARK: u8 = 0xd7;

/// An input: its first bytes, a period that goes on from there, its last bytes, its length. The byte at an
/// index i of the middle is the period's at i, modulo the period's length.
#[derive(Clone, Copy)]
struct Made {
    first: Bytes,
    period: Bytes,
    last: Bytes,
    len: usize,
}

type Bytes = &'static [u8];

/// 0 at each place of a slice.
fn zeros(len: usize) -> Made {
    made(b"", b"\0", b"", len)
}

const fn made(first: Bytes, period: Bytes, last: Bytes, len: usize) -> Made {
    Made { first, period, last, len }
}

impl Made {
    fn map(&self, comparer: &mut Comparer) -> Option<Mapped> {
        let mut mapped = map(self.len, &[], comparer)?;
        mapped.fill(self.period);
        mapped.put(0, self.first);
        mapped.put(self.len - self.last.len(), self.last);
        Some(mapped)
    }

    /// The byte at an index; the mark after the end.
    fn at(&self, i: usize) -> u8 {
        let last = self.len - self.last.len();
        match i {
            _ if i >= self.len => MARK,
            _ if i >= last => self.last[i - last],
            _ => *self.first.get(i).unwrap_or(&self.of_period(i)),
        }
    }

    fn of_period(&self, i: usize) -> u8 {
        self.period[i % self.period.len()]
    }
}

impl std::fmt::Display for Made {
    fn fmt(&self, f: &mut std::fmt::Formatter) -> std::fmt::Result {
        let [first, period, last] = [self.first, self.period, self.last].map(|bytes| bytes.escape_ascii());
        write!(f, "{} bytes: \"{first}\", \"{period}\" again and again, \"{last}\"", self.len)
    }
}

/// A slice whose bytes are the mark, to be written by a door.
fn marked(len: usize, windows: &[Range<usize>], comparer: &mut Comparer) -> Option<Mapped> {
    let mut mapped = map(len, windows, comparer)?;
    mapped.fill(&[MARK]);
    Some(mapped)
}

/// None where so much cannot be mapped: this is said, and counted.
fn map(len: usize, windows: &[Range<usize>], comparer: &mut Comparer) -> Option<Mapped> {
    match Mapped::new(len, windows) {
        Ok(mapped) => Some(mapped),
        Err(error) => {
            println!("  a case is not run: {len} bytes cannot be mapped: {error}");
            comparer.counts.add(Sort::NotRun);
            None
        }
    }
}

/// Whether a lent slice holds these bytes, and the mark after them. Of the common block, all of which is in
/// the middle, this sees what was written last.
fn holds(lent: &Mapped, bytes: &Made) -> bool {
    let mut common = (0..).zip(lent.common());
    let is = |start: usize, block: &[u8]| (start..).zip(block).all(|(i, &b)| b == bytes.at(i));
    common.all(|(i, &b)| b == bytes.of_period(i)) && lent.own().all(|(start, block)| is(start, block))
}

#[cfg(test)]
mod tests {
    use super::*;
    use crate::mapped::BLOCK;

    const LEN: usize = 9 * BLOCK + 5;
    const BYTES: Made = made(b"xy", b"ab", b"z", LEN);

    fn written(at: usize) -> Mapped {
        let mut comparer = Comparer::new(None);
        let mut lent = marked(LEN, &[4 * BLOCK..5 * BLOCK], &mut comparer).unwrap();
        let slice = lent.lent();
        (0..LEN).for_each(|i| slice[i] = BYTES.at(i));
        slice[at] ^= 1;
        lent
    }

    #[test]
    fn a_wrong_byte_is_seen_in_own_blocks_and_in_the_common_block_if_it_is_written_last() {
        for at in [0, BLOCK - 1, 4 * BLOCK, 8 * BLOCK, LEN - 1, BLOCK, 7 * BLOCK + 9] {
            let mut lent = written(at);
            assert!(!holds(&lent, &BYTES), "at {at}");
            lent.lent()[at] ^= 1;
            assert!(holds(&lent, &BYTES), "at {at}");
        }
    }

    #[test]
    fn a_byte_after_the_end_is_seen() {
        let mut lent = written(0);
        lent.lent()[0] ^= 1;
        lent.put(LEN, b"z");
        assert!(!holds(&lent, &BYTES));
    }

    #[test]
    fn the_common_block_is_in_the_slice_many_times_and_a_window_once() {
        let mut lent = marked(LEN, &[4 * BLOCK..5 * BLOCK], &mut Comparer::new(None)).unwrap();
        lent.lent()[2 * BLOCK + 3] = 1;
        lent.lent()[4 * BLOCK + 3] = 2;
        let seen = [0, 1, 2, 3, 4, 5, 6, 7, 8].map(|block| lent.bytes()[block * BLOCK + 3]);
        assert_eq!(seen, [MARK, 1, 1, 1, 2, 1, 1, 1, MARK]);
        assert_eq!(lent.seen(4 * BLOCK + 2..4 * BLOCK + 4), [MARK, 2]);
    }
}
