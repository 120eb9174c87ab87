//! Sheets read, beside the model.
use crate::counts::{Counts, Sort};
use crate::difference::{shown, Difference};
use crate::doors;
use crate::layouts::Comparer;
use crate::lists::{Row, USUAL};
use crate::random::Random;
use crate::sheet;
use crate::shrink::fewest;
use crate::strings;
use crate::threads::in_parallel;

const BYTES: &[u8] = b"TR 013\n\\nx";
const LONGEST: u32 = 6;
const RANDOM: u64 = 400_000;
const TASK: u64 = 1000;

/// All short strings over `BYTES` behind the names line, and behind a line's beginning; one in `step` tasks.
pub fn run_short(step: u64) -> Result<Counts, Difference> {
    let sheets = strings::up_to(BYTES, LONGEST);
    in_parallel(sheets.div_ceil(TASK).div_ceil(step), None, |task, comparer| {
        let first = task * step * TASK;
        (first..sheets.min(first + TASK)).try_for_each(|n| {
            let end = strings::numbered(BYTES, n);
            compare(&[sheet::NAMES, &end].concat(), 40, 9, comparer)?;
            compare(&[sheet::NAMES, b"T 2 ", &end].concat(), 32, 2, comparer)
        })
    })
}

/// A sheet with each byte put in at each place, or in its place, or left out; and each kind on each sort of line.
pub fn run_bytes() -> Result<Counts, Difference> {
    const SHEET: &[u8] = b"what kind text\nT 34 a\\n\nL 9 \\\\\n";
    in_parallel(256, None, |byte, comparer| {
        (0..SHEET.len()).try_for_each(|at| {
            let (before, behind) = SHEET.split_at(at);
            compare(&[before, &[byte as u8], behind].concat(), 48, 9, comparer)?;
            compare(&[before, &[byte as u8], &behind[1..]].concat(), 48, 9, comparer)?;
            compare(&[before, &behind[1..]].concat(), 48, 9, comparer)
        })?;
        ["L", "T", "R", "L 0", "T 0"]
            .iter()
            .try_for_each(|head| compare(format!("what kind text\n{head} {byte} x\n").as_bytes(), 16, 1, comparer))
    })
}

/// Random sheets, some damaged, with just enough space, more and less of it; one in `step` tasks.
pub fn run_random(step: u64) -> Result<Counts, Difference> {
    in_parallel((RANDOM / TASK).div_ceil(step), None, |task, comparer| {
        (0..TASK).try_for_each(|i| compare_random(task * TASK + i, comparer))
    })
}

fn compare_random(seed: u64, comparer: &mut Comparer) -> Result<(), Difference> {
    let random = &mut Random::new(seed ^ 0x5eed);
    let rows: Vec<Row> = (0..random.below(6)).map(|_| random_row(random)).collect();
    let mut sheet = sheet::write(&rows);
    for _ in 0..random.of(&[0, 0, 1, 2]) {
        damage(random, &mut sheet);
    }
    let (answer, read, text) = sheet::read(&sheet, usize::MAX, usize::MAX);
    let (row_space, text_space) = if answer.refusal == 0 { (read.len(), text.len()) } else { (96, 20) };
    compare(&sheet, row_space, text_space, comparer)?;
    compare(&sheet, row_space + random.below(20), text_space + random.below(4), comparer)?;
    compare(&sheet, row_space.saturating_sub(1 + random.below(20)), text_space, comparer)?;
    compare(&sheet, row_space, text_space.saturating_sub(1 + random.below(4)), comparer)?;
    compare(&sheet, random.below(row_space + 1), random.below(text_space + 1), comparer)
}

fn random_row(random: &mut Random) -> Row {
    let kind = random.below(35) as u32;
    let bytes = match random.below(4) {
        0 => (0..random.below(6)).map(|_| random.next() as u8).collect(),
        1 => (0..random.below(6)).map(|_| random.of(b"\\\n nab")).collect(),
        _ => USUAL[kind as usize].into(),
    };
    Row { what: random.below(3) as u32, kind, bytes }
}

fn damage(random: &mut Random, sheet: &mut Vec<u8>) {
    if sheet.is_empty() {
        return;
    }
    let at = random.below(sheet.len());
    match random.below(4) {
        0 => drop(sheet.remove(at)),
        1 => sheet.insert(at, random.of(b"\n\\ 0935TLRnx")),
        2 => sheet.truncate(at),
        _ => sheet[at] = random.next() as u8,
    }
}

fn compare(bytes: &[u8], row_space: usize, text_space: usize, comparer: &mut Comparer) -> Result<(), Difference> {
    let read = |bytes: &[u8]| read(bytes, row_space, text_space);
    match read(bytes) {
        Ok(refusal) => Ok(comparer.counts.add_call(Sort::Sheets, refusal)),
        Err(said) => {
            let few = fewest(bytes.to_vec(), |bytes| read(bytes).is_err());
            let said = read(&few).err().unwrap_or(said);
            let spaces = format!("{row_space} and {text_space} bytes");
            Err(format!("reading the sheet {} into {spaces}: {said}", shown(&few)).into())
        }
    }
}

const MARK: u8 = 0xd7;
const GUARD: usize = 8;

/// Reads a sheet: the refusal, or how the reading differs from the model's.
fn read(bytes: &[u8], row_space: usize, text_space: usize) -> Result<u32, String> {
    let (mut rows, mut text) = (vec![MARK; row_space + GUARD], vec![MARK; text_space + GUARD]);
    let answer = doors::read_sheet(bytes, &mut rows[..row_space], &mut text[..text_space]);
    let (expected, mut expected_rows, mut expected_text) = sheet::read(bytes, row_space, text_space);
    if answer != expected {
        return Err(format!("the answer is {answer}, it must be {expected}"));
    }
    let fill = if matches!(answer.refusal, 7 | 8) { 0 } else { MARK };
    for (slice, space) in [(&mut expected_rows, row_space), (&mut expected_text, text_space)] {
        slice.resize(space, fill);
        slice.resize(space + GUARD, MARK);
    }
    if rows != expected_rows {
        return Err(format!("the rows are {rows:?}, they must be {expected_rows:?}"));
    }
    if text != expected_text {
        return Err(format!("the text is {}, it must be {}", shown(&text), shown(&expected_text)));
    }
    Ok(answer.refusal)
}
