//! The Rust crate over the doors, `bindings/furzewrench`: each safe call answers and leaves what the door
//! does. The call that lays out and reads back does what the two doors do, and of each plain layout that it
//! reads it says that the mark's promise holds.
use crate::counts::{Counts, Sort};
use crate::difference::Difference;
use crate::doors::{self, refuse, success, Answer, Options};
use crate::lists::{pack, Packed};
use crate::long::{some_options, SHAPES};
use crate::random::Random;
use furzewrench::{Layout, ReadBack, Refusal};
use std::fmt::Debug;

const LISTS: u64 = 200_000;
const MARK: u8 = 0xd7;

/// Random lists under options that may be out of bounds, into an output of any size; one in `step` of them.
pub fn run(step: u64) -> Result<Counts, Difference> {
    let mut counts = Counts::default();
    for seed in 0..LISTS.div_ceil(step) {
        let random = &mut Random::new(seed ^ 0xb1d);
        let Packed { rows, text } = pack(&SHAPES[random.below(SHAPES.len() - 1)].list(random));
        let rows = &rows[..rows.len() - random.of(&[0, 0, 0, 1]).min(rows.len())];
        compare(&Call { options: odd_options(random), rows, text: &text }, random, &mut counts)?;
    }
    Ok(counts)
}

/// The arguments of a layout that are only read.
struct Call<'a> {
    options: Options,
    rows: &'a [u8],
    text: &'a [u8],
}

fn compare(call: &Call, random: &mut Random, counts: &mut Counts) -> Result<(), Difference> {
    let Call { options, rows, text } = *call;
    let (mut ours, mut theirs) = (vec![MARK; random.below(400)], Vec::new());
    theirs.clone_from(&ours);
    let layout = furzewrench::layout(named(options), rows, text, &mut ours);
    same("layout", of_layout(layout), doors::layout(options, rows, text, &mut theirs), &ours, &theirs)?;
    let readings = readers(&ours)?;
    let source: &[u8] = random.of(&[b"", b"#!a\nb", b"#![x]", b"a"]);
    let layout = furzewrench::layout_source(source, rows, text, &mut ours);
    let door = doors::layout_source(source, rows, text, &mut theirs);
    same("layout_source", of_layout(layout), door, &ours, &theirs)?;
    let (first, second) = (random.below(37) as u32, random.below(37) as u32);
    let space = furzewrench::needs_space(first, second).map_or_else(of_refusal, |b| success(b as u64, 0, 0));
    same::<_, u8>("needs_space", space, doors::needs_space(first, second), &[], &[])?;
    let holds = read_back(call, random)?;
    counts.add_many(Sort::Bindings, 4 + readings);
    counts.add_many(Sort::ReadBack, holds as u64);
    Ok(())
}

/// The answer of a layout that is read back: the layout's, the pieces, and whether the promise holds; or a
/// refusal.
type Read = Result<(Answer, u64, bool), Answer>;

/// The call that lays out and reads back, beside the two doors; answers whether it read a plain layout.
fn read_back(call: &Call, random: &mut Random) -> Result<bool, Difference> {
    let (room, pieces) = (random.of(&[40, 400, 4_000]), random.of(&[7, 64, 4_000]));
    let (mut ours, mut our_pieces) = (vec![MARK; room], vec![77; pieces]);
    let (mut theirs, mut their_pieces) = (ours.clone(), our_pieces.clone());
    let Call { options, rows, text } = *call;
    let read = furzewrench::layout_and_read_back(named(options), rows, text, &mut ours, &mut our_pieces);
    let read: Read = read.map(of_read_back).map_err(of_refusal);
    let expected = read_by_doors(call, &mut theirs, &mut their_pieces);
    same("layout_and_read_back", read, expected, &ours, &theirs)?;
    same("layout_and_read_back", read, expected, &our_pieces, &their_pieces)?;
    Ok(read.is_ok_and(|(_, _, holds)| holds))
}

fn read_by_doors(call: &Call, out: &mut [u8], pieces: &mut [u32]) -> Read {
    let laid = doors::layout(call.options, call.rows, call.text, out);
    if laid.refusal != 0 {
        return Err(laid);
    }
    if !laid.is_plain() {
        return Ok((laid, 0, false));
    }
    let read = doors::read_pieces(&out[..laid.numbers[0] as usize], pieces);
    if read.refusal != 0 {
        return Err(read);
    }
    Ok((laid, read.numbers[0], true))
}

/// The bytes as a text to be read, and as a sheet; answers how many calls were compared.
fn readers(bytes: &[u8]) -> Result<u64, Difference> {
    let (mut ours, mut theirs) = ([7; 64], [7; 64]);
    let read = furzewrench::read_pieces(bytes, &mut ours);
    let read = read.map_or_else(of_refusal, |n| success(n as u64, 0, 0));
    same("read_pieces", read, doors::read_pieces(bytes, &mut theirs), &ours, &theirs)?;
    let sheet = [b"what kind text\nT 22 ", bytes, b"\n"].concat();
    let (mut ours, mut theirs) = ([MARK; 160], [MARK; 160]);
    let (our_rows, our_text) = ours.split_at_mut(48);
    let (their_rows, their_text) = theirs.split_at_mut(48);
    let read = furzewrench::read_sheet(&sheet, our_rows, our_text);
    let read = read.map_or_else(of_refusal, |s| success(s.rows as u64, s.text_bytes as u64, 0));
    same("read_sheet", read, doors::read_sheet(&sheet, their_rows, their_text), &ours, &theirs)?;
    Ok(2)
}

/// Now and then an option past its bound.
fn odd_options(random: &mut Random) -> Options {
    let mut options = some_options(random);
    if random.one_in(4) {
        options[random.below(4)] = random.of(&[2, 17, 65_536, u32::MAX]);
    }
    options
}

fn named([style, indent_width, signature_width, list_width]: Options) -> furzewrench::Options {
    furzewrench::Options { style, indent_width, signature_width, list_width }
}

fn of_layout(answer: Result<Layout, Refusal>) -> Answer {
    answer.map_or_else(of_refusal, |l| success(l.length as u64, l.commas as u64, l.plain as u64))
}

fn of_read_back(read: ReadBack) -> (Answer, u64, bool) {
    (of_layout(Ok(read.layout)), read.pieces as u64, read.holds)
}

fn of_refusal(refusal: Refusal) -> Answer {
    refuse(refusal.number(), refusal.place())
}

fn same<A: PartialEq + Debug, T: PartialEq>(
    call: &str,
    ours: A,
    door: A,
    left: &[T],
    by_door: &[T],
) -> Result<(), Difference> {
    if ours != door {
        return Err(format!("{call} of the Rust crate answers {ours:?}, its door {door:?}").into());
    }
    if left != by_door {
        return Err(format!("{call} of the Rust crate leaves other memory than its door").into());
    }
    Ok(())
}
