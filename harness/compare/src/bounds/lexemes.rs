//! Layouts of lexemes that end at the largest index, of a shebang line as long, and of lists wider than 32
//! bits hold. The Rust gets no such lexeme, since it would copy it; where a list breaks, it is asked with a
//! shorter one.
use super::{holds, made, marked, zeros, Made, MARK, MOST};
use crate::counts::{Counts, Sort};
use crate::difference::Difference;
use crate::doors::{self, refuse, success, Answer, Options};
use crate::expected::List;
use crate::layouts::Comparer;
use crate::lists::{list, pack, push_row};
use crate::mapped::Mapped;
use crate::threads::in_parallel;

const OPTIONS: Options = [1, 4, 40, 40];

type Outcome = Result<(), Difference>;

pub fn run() -> Result<Counts, Difference> {
    let unchanged = made(b"", &[MARK], b"", 0);
    let runs: [&(dyn Fn(&mut Comparer) -> Outcome + Sync); 6] = [
        &|c| name(MOST + 1, MOST + 5, success(MOST as u64, 0, 1), made(b"", b"a", b"", MOST), c),
        &|c| name(MOST, MOST - 1, refuse(5, 0), zeros(MOST - 1), c),
        &|c| name(MOST - 1, MOST, refuse(3, 0), unchanged, c),
        &|c| shebang(MOST + 100, c),
        &|c| width("[ , X X ]", 2, c),
        &|c| width("fn ( X X )", 4, c),
    ];
    in_parallel(runs.len() as u64, None, |task, comparer| runs[task as usize](comparer))
}

/// A name of `MOST` bytes, in a text of a size, into an output of a size; `left` is what the output is after
/// the call.
fn name(size: usize, room: usize, expected: Answer, left: Made, comparer: &mut Comparer) -> Outcome {
    let Some(text) = made(b"", b"a", b"", size).map(comparer) else { return Ok(()) };
    let Some(mut out) = marked(room, &[], comparer) else { return Ok(()) };
    let mut rows = Vec::new();
    push_row(&mut rows, [1, 22, 0, MOST as u32]);
    let answer = doors::layout(OPTIONS, &rows, text.bytes(), out.lent());
    compare(&format!("a name of {MOST} bytes in {size}"), [answer, expected], &out, left)?;
    count(Sort::Layouts, answer, comparer)
}

/// A source that is one shebang line without a line feed, and no rows.
fn shebang(size: usize, comparer: &mut Comparer) -> Outcome {
    let Some(source) = made(b"#!", b"b", b"", size).map(comparer) else { return Ok(()) };
    let Some(mut out) = marked(size + 1, &[], comparer) else { return Ok(()) };
    let answer = doors::layout_source(source.bytes(), &[], &[], out.lent());
    let expected = success(size as u64 + 1, 0, 0);
    let left = made(b"#!", b"b", b"\n", size + 1);
    compare(&format!("a shebang line of {size} bytes"), [answer, expected], &out, left)?;
    count(Sort::Sources, answer, comparer)
}

/// A list with two lexemes X of half of 4 GiB each: its width in 32 bits would be small. The output's size is
/// such that refusal 5 has one place if the list breaks, and another if it does not.
fn width(words: &str, room: usize, comparer: &mut Comparer) -> Outcome {
    const SHORT: usize = 70_000;
    const HALF: usize = 1 << 31;
    let mut rows = list(words);
    rows.iter_mut().filter(|row| row.bytes == b"X").for_each(|row| row.bytes = vec![b'x'; SHORT]);
    let short = pack(&rows);
    let expected = List::new(&short.rows, &short.text).laid_out(OPTIONS).answer(room);

    let Some(mut text) = made(b"", b"x", b"", HALF + 100).map(comparer) else { return Ok(()) };
    let mut packed = Vec::new();
    let mut end = 0;
    for row in &rows {
        let len = if row.bytes.len() == SHORT { HALF } else { row.bytes.len() };
        let start = if len == HALF { 100 } else { end };
        push_row(&mut packed, [row.what, row.kind, start as u32, (start + len) as u32]);
        if len != HALF {
            text.put(start, &row.bytes);
            end += len;
        }
    }
    let mut out = vec![MARK; room];
    let answer = doors::layout(OPTIONS, &packed, text.bytes(), &mut out);
    if answer != expected || out.iter().any(|&b| b != 0) {
        return Err(format!("`{words}` into {room} bytes: {answer}, it must be {expected}").into());
    }
    count(Sort::Layouts, answer, comparer)
}

fn compare(what: &str, [answer, expected]: [Answer; 2], out: &Mapped, left: Made) -> Outcome {
    if answer != expected {
        return Err(format!("{what}: the answer is {answer}, it must be {expected}").into());
    }
    if !holds(out, &left) {
        return Err(format!("{what}: the output is not {left}, and unchanged after it").into());
    }
    Ok(())
}

fn count(sort: Sort, answer: Answer, comparer: &mut Comparer) -> Outcome {
    comparer.counts.add(sort);
    comparer.counts.add(Sort::of_refusal(answer.refusal));
    comparer.counts.add_many(Sort::Plain, answer.is_plain() as u64);
    Ok(())
}
