//! Layout calls compared: the answer, every byte of the output, and demand 3.
use crate::counts::{Counts, Sort};
use crate::demand3::Texts;
use crate::difference::{shown, Difference, LayoutCall};
use crate::doors::{self, success, Answer, Options};
use crate::expected::{Call, List};
use crate::{exhaustive, model};

/// The sizes of the output that are tried.
#[derive(Clone, Copy)]
pub enum Rooms {
    /// More than enough, and one other that a number picks.
    Two(u64),
    /// Every size up to more than enough.
    All,
    /// Those at which each token's text just fits, and one less.
    Edges,
}

/// Compares layouts, with buffers that it keeps.
pub struct Comparer<'t> {
    pub counts: Counts,
    texts: Option<&'t Texts>,
    out: Vec<u8>,
    pieces: Vec<u32>,
}

/// What the bytes of an output are before a call.
const MARK: u8 = 0xd7;
/// Bytes behind an output that was more than enough, and behind the lent slice.
const SLACK: usize = 3;
const GUARD: usize = 8;

impl<'t> Comparer<'t> {
    pub fn new(texts: Option<&'t Texts>) -> Self {
        Comparer { counts: Counts::default(), texts, out: Vec::new(), pieces: Vec::new() }
    }

    /// Lays a list out under each of the options. `id` names the list among those that one `Texts` keeps.
    pub fn compare(
        &mut self,
        rows: &[u8],
        text: &[u8],
        options: &[Options],
        rooms: Rooms,
        id: u64,
    ) -> Result<(), Difference> {
        self.counts.add(Sort::Lists);
        let list = List::new(rows, text);
        for (n, &options) in options.iter().enumerate() {
            self.compare_call(&list.laid_out(options), rooms, id << 8 | n as u64)?;
        }
        Ok(())
    }

    /// Lays a list out behind the shebang line of a source.
    pub fn compare_source(&mut self, rows: &[u8], text: &[u8], source: &[u8], rooms: Rooms) -> Result<(), Difference> {
        self.counts.add(Sort::Lists);
        self.compare_call(&List::new(rows, text).with_source(source), rooms, 0)
    }

    fn compare_call(&mut self, call: &Call, rooms: Rooms, id: u64) -> Result<(), Difference> {
        let enough = call.reach() + SLACK;
        if id >> 8 & 15 == 0 && !call.steps_are_the_call() {
            return Err(difference(call, enough, "the Rust's steps don't lead to the text of its public call".into()));
        }
        self.compare_room(call, enough)?;
        if call.answer(enough).is_plain() {
            self.demand3(call, id).map_err(|said| difference(call, enough, said))?;
        }
        let others = match rooms {
            Rooms::Two(n) => vec![picked(n, call.reach())],
            Rooms::All => (0..enough).collect(),
            Rooms::Edges => call.edges(),
        };
        others.into_iter().try_for_each(|room| self.compare_room(call, room))
    }

    /// One call of the door.
    fn compare_room(&mut self, call: &Call, room: usize) -> Result<(), Difference> {
        if self.out.len() < room + GUARD {
            self.out.resize(room + GUARD, 0);
        }
        let out = &mut self.out[..room + GUARD];
        out.fill(MARK);
        let answer = lay_out(call, &mut out[..room]);
        if let Some(said) = said(call, answer, out) {
            return Err(difference(call, room, said));
        }
        self.count(call, answer);
        Ok(())
    }

    fn count(&mut self, call: &Call, answer: Answer) {
        self.counts.add(if call.source.is_some() { Sort::Sources } else { Sort::Layouts });
        self.counts.add(Sort::of_refusal(answer.refusal));
        if answer.refusal == 0 {
            self.counts.add_many(Sort::Commas, answer.numbers[1]);
            self.counts.add_many(Sort::Plain, answer.numbers[2]);
        }
    }

    /// Demand 3 for a layout whose text stands in the output.
    fn demand3(&mut self, call: &Call, id: u64) -> Result<(), String> {
        let text = call.text();
        let lexemes = call.list.lexemes();
        let count = lexemes.len() + call.commas() as usize;
        self.pieces.clear();
        self.pieces.resize(2 * count, 0);
        let answer = doors::read_pieces(&self.out[..text.len()], &mut self.pieces);
        if answer != success(count as u64, 0, 0) {
            return Err(format!("demand 3: {} reads back as {answer}, {count} pieces are wanted", shown(text)));
        }
        let cut: Vec<&[u8]> = self.pieces.chunks(2).map(|p| &text[p[0] as usize..p[1] as usize]).collect();
        if model::inserted(&lexemes, &cut) != Some(call.commas()) {
            return Err(format!("demand 3: the pieces of {} are not the lexemes with commas", shown(text)));
        }
        self.counts.add(Sort::ReadBack);
        let Some(texts) = self.texts else { return Ok(()) };
        let seen = texts.put(text, &model::struck(&lexemes), id).map_err(|other| same_text(text, other))?;
        self.counts.add_many(Sort::SeenAgain, seen as u64);
        Ok(())
    }
}

fn lay_out(call: &Call, out: &mut [u8]) -> Answer {
    let list = call.list;
    match call.source {
        Some(source) => doors::layout_source(source, list.rows, list.text, out),
        None => doors::layout(call.options, list.rows, list.text, out),
    }
}

/// How an answer and the bytes after the call, with those behind the lent slice, differ from what they must be.
fn said(call: &Call, answer: Answer, after: &[u8]) -> Option<String> {
    let room = after.len() - GUARD;
    let expected = call.answer(room);
    let text: &[u8] = if expected.refusal == 0 { call.text() } else { &[] };
    let (out, guard) = after.split_at(room);
    let (written, rest) = out.split_at(text.len());
    if answer != expected || written != text {
        let texts = format!("the output begins {}, it must {}", shown(written), shown(text));
        return Some(format!("the answer is {answer}, it must be {expected}; {texts}"));
    }
    let fill = if matches!(answer.refusal, 4 | 5) { 0 } else { MARK };
    if rest.iter().any(|&b| b != fill) {
        return Some(format!("answer {answer}: the output's other bytes are not all {fill}"));
    }
    guard.iter().any(|&b| b != MARK).then(|| "bytes behind the output were changed".into())
}

fn difference(call: &Call, room: usize, said: String) -> Difference {
    let source = call.source.map(Vec::from);
    let list = call.list;
    let call = LayoutCall { options: call.options, rows: list.rows.into(), text: list.text.into(), source, room };
    Difference { said, call: Some(call) }
}

fn same_text(text: &[u8], other: u64) -> String {
    let (rows, named, options) = exhaustive::named(other);
    let other = LayoutCall { options, rows, text: named, source: None, room: text.len() };
    format!("demand 3: {} is also the text of other lexemes: {other}", shown(text))
}

/// One size up to the length, as a number picks it.
fn picked(n: u64, length: usize) -> usize {
    match n % 4 {
        0 => length,
        1 => length.saturating_sub(1),
        _ => (n / 4 % (length as u64 + 1)) as usize,
    }
}
