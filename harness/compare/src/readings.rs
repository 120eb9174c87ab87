//! Texts read back into pieces, beside the model.
use crate::counts::{Counts, Sort};
use crate::difference::{shown, Difference};
use crate::doors;
use crate::layouts::Comparer;
use crate::model;
use crate::random::Random;
use crate::shrink::fewest;
use crate::strings;
use crate::threads::in_parallel;

/// Bytes of every class, and those that a rule names.
const BYTES: &[u8] = b"a1.\"'\\(,} \n+-e_\x80\x00";
const LONGEST: u32 = 5;
const RANDOM: u64 = 200_000;
const TASK: u64 = 1000;

/// All short texts over `BYTES`; compares one in `step` tasks.
pub fn run_short(step: u64) -> Result<Counts, Difference> {
    let texts = strings::up_to(BYTES, LONGEST);
    in_parallel(texts.div_ceil(TASK).div_ceil(step), None, |task, comparer| {
        let first = task * step * TASK;
        (first..texts.min(first + TASK)).try_for_each(|n| {
            let text = strings::numbered(BYTES, n);
            compare(&text, 2 * text.len(), comparer)?;
            compare(&text, (n % 8) as usize, comparer)
        })
    })
}

/// All texts of two bytes, alone and between others.
pub fn run_pairs() -> Result<Counts, Difference> {
    in_parallel(256, None, |first, comparer| {
        (0..=255u8).try_for_each(|second| {
            let pair = [first as u8, second];
            compare(&pair, 5, comparer)?;
            compare(&[b"a", &pair[..], b"1"].concat(), 8, comparer)?;
            compare(&[b"1", &pair[..], b"\""].concat(), 3, comparer)
        })
    })
}

/// Random texts, each with every space for its pieces.
pub fn run_random(step: u64) -> Result<Counts, Difference> {
    in_parallel((RANDOM / TASK).div_ceil(step), None, |task, comparer| {
        (0..TASK).try_for_each(|i| {
            let random = &mut Random::new(task * TASK + i);
            let text = random_text(random);
            let (answer, _) = model::read(&text, usize::MAX);
            let enough = if answer.refusal == 0 { 2 * answer.numbers[0] as usize } else { 8 };
            (0..enough + 3).try_for_each(|space| compare(&text, space, comparer))
        })
    })
}

fn random_text(random: &mut Random) -> Vec<u8> {
    const WORDS: [&str; 14] =
        ["a", "log", "1.5", "1..2", "::", "(", "]", ", ", "\n    ", "\"a\\\"b\"", "'c'", "=", "-1", "\u{e9}"];
    let mut text = Vec::new();
    for _ in 0..random.below(24) {
        text.extend(random.of(&WORDS).bytes());
    }
    if random.one_in(2) && !text.is_empty() {
        let at = random.below(text.len());
        text[at] = random.next() as u8;
    }
    text
}

fn compare(text: &[u8], space: usize, comparer: &mut Comparer) -> Result<(), Difference> {
    match read(text, space) {
        Ok(refusal) => Ok(comparer.counts.add_call(Sort::Readings, refusal)),
        Err(said) => {
            let few = fewest(text.to_vec(), |text| read(text, space).is_err());
            let said = read(&few, space).err().unwrap_or(said);
            Err(format!("reading {} into {space} numbers: {said}", shown(&few)).into())
        }
    }
}

const MARK: u32 = 0xd7d7_d7d7;
const GUARD: usize = 2;

/// Reads a text: the refusal, or how the reading differs from the model's.
fn read(text: &[u8], space: usize) -> Result<u32, String> {
    let mut pieces = vec![MARK; space + GUARD];
    let answer = doors::read_pieces(text, &mut pieces[..space]);
    let (expected, mut slots) = model::read(text, space);
    slots.resize(space, if expected.refusal == 0 { MARK } else { 0 });
    slots.resize(space + GUARD, MARK);
    if answer != expected {
        return Err(format!("the answer is {answer}, it must be {expected}"));
    }
    if pieces != slots {
        return Err(format!("the numbers are {pieces:?}, they must be {slots:?}"));
    }
    Ok(answer.refusal)
}
