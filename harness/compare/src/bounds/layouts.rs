//! A layout of 8.6 GB, beside format.rs: 65,535 `{` in Allman style, each on a line of its own, indented by 4
//! more.
use super::{holds, marked, zeros, MARK};
use crate::counts::{Counts, Sort};
use crate::difference::Difference;
use crate::doors::{self, refuse, success, Answer};
use crate::layouts::Comparer;
use crate::lists::{list, pack, Packed, Row, MOST_ROWS};
use crate::mapped::{Mapped, BLOCK};
use crate::threads::in_parallel;
use crate::{model, rust_side};
use std::ops::Range;

const OPTIONS: doors::Options = [1, 4, 40, 40];

/// 2 n^2 bytes of n lines, the line at i of 4 i spaces, the brace and a line feed.
const LENGTH: usize = 2 * MOST_ROWS * MOST_ROWS;

/// A length that 32 bits don't hold.
const TOO_LONG: usize = 1 << 32;

/// The sizes of the output: more than enough, just enough, one byte less, and about 4 GiB.
const ROOMS: [usize; 6] = [LENGTH + 1000, LENGTH, LENGTH - 1, TOO_LONG - 1, TOO_LONG, TOO_LONG + 1];

/// Where the text is seen whole: its first bytes, about 2, 4 and 8 GiB, and its last bytes.
fn windows() -> Vec<Range<usize>> {
    let about = |at: usize| at - 2 * BLOCK..at + 2 * BLOCK;
    vec![0..4 * BLOCK, about(TOO_LONG / 2), about(TOO_LONG), about(2 * TOO_LONG), LENGTH - 4 * BLOCK..LENGTH]
}

pub fn run() -> Result<Counts, Difference> {
    let rows: Vec<Row> = list("{").into_iter().cycle().take(MOST_ROWS).collect();
    let packed = pack(&rows);
    let rust = Rust::new(&packed);
    if rust.after.last() != Some(&LENGTH) {
        return Err(format!("the text of the Rust has {:?} bytes, not {LENGTH}", rust.after.last()).into());
    }
    let compare = |task, comparer: &mut Comparer| compare(&packed, &rust, ROOMS[task as usize], comparer);
    in_parallel(ROOMS.len() as u64, None, compare)
}

/// The Rust's lengths after each token, and its text in the windows.
struct Rust {
    after: Vec<usize>,
    plain: bool,
    windows: Vec<(usize, Vec<u8>)>,
}

impl Rust {
    fn new(packed: &Packed) -> Self {
        let tokens = model::tokens(&packed.rows, &packed.text).unwrap();
        let mut windows: Vec<_> = windows().into_iter().map(|w| (w, Vec::new())).collect();
        let mut after = Vec::new();
        let mut length = 0;
        rust_side::step_texts(&rust_side::tokens(&tokens), OPTIONS, |text| {
            for (window, seen) in &mut windows {
                let inside = |at: usize| at.clamp(length, length + text.len()) - length;
                seen.extend_from_slice(&text[inside(window.start)..inside(window.end)]);
            }
            length += text.len();
            after.push(length);
        });
        let windows = windows.into_iter().map(|(w, seen)| (w.start, seen)).collect();
        Rust { after, plain: model::plain(&tokens), windows }
    }

    fn answer(&self, room: usize) -> Answer {
        match self.after.iter().position(|&length| length > room) {
            Some(token) => refuse(5, token),
            None => success(LENGTH as u64, 0, self.plain as u64),
        }
    }
}

/// Outside the windows one sees of a refusal that 0 was written to each place of the common block, of a text
/// nothing.
fn compare(packed: &Packed, rust: &Rust, room: usize, comparer: &mut Comparer) -> Result<(), Difference> {
    let Some(mut out) = marked(room, &windows(), comparer) else { return Ok(()) };
    let answer = doors::layout(OPTIONS, &packed.rows, &packed.text, out.lent());
    let expected = rust.answer(room);
    let said = |said: String| Err(format!("{MOST_ROWS} braces into {room} bytes: {said}").into());
    if answer != expected {
        return said(format!("the answer is {answer}, it must be {expected}"));
    }
    if answer.refusal != 0 && !holds(&out, &zeros(room)) {
        return said("the output is not 0 up to its end and unchanged from there on".into());
    }
    if answer.refusal == 0 && !is_seen(&out, rust) {
        return said("the output is not the text of the Rust, and unchanged from there on".into());
    }
    comparer.counts.add(Sort::Layouts);
    comparer.counts.add(Sort::of_refusal(answer.refusal));
    comparer.counts.add_many(Sort::Plain, answer.is_plain() as u64);
    Ok(())
}

/// Whether the output has the Rust's text in the windows, and the mark after the text.
fn is_seen(out: &Mapped, rust: &Rust) -> bool {
    let is_marked = |bytes: &[u8]| bytes.iter().all(|&b| b == MARK);
    rust.windows.iter().all(|(start, text)| out.seen(*start..start + text.len()) == *text)
        && out.own().all(|(start, block)| is_marked(&block[LENGTH.saturating_sub(start).min(BLOCK)..]))
}
