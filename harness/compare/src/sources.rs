//! The shebang wrapper, beside the Rust's.
use crate::counts::Counts;
use crate::difference::Difference;
use crate::layouts::{Comparer, Rooms};
use crate::lists::{list, pack};
use crate::long;
use crate::random::Random;
use crate::threads::in_parallel;

const SOURCES: [&[u8]; 20] = [
    b"",
    b"\n",
    b"#",
    b"#!",
    b"#!\n",
    b"#!\nfn",
    b"#![",
    b"#![x]\n",
    b"#!/bin/rl",
    b"#!/bin/rl\nfn f()\n#!x\n",
    b" #!a\n",
    b"\n#!a\n",
    b"#!a\r\nb",
    b"#! [x]\n",
    b"#!#![\n",
    b"!#a\n",
    b"#a!\n",
    b"#!\xc3\xa9\n",
    b"#!\xff\x00\n",
    b"##!a",
];

const LISTS: [&str; 12] = [
    "",
    "a",
    "NL",
    "NL NL a",
    "EOF",
    "a NL NL NL NL b",
    "record E { }",
    "l0:c;NL l0:d;a",
    "l3:;a",
    "[ a , b ]",
    "{ NL } else",
    "l0:c;NL;r9: a",
];

const RANDOM: u64 = 20_000;
const TASK: u64 = 50;

/// Each of the sources before each of the lists, with every output size.
pub fn run_each() -> Result<Counts, Difference> {
    in_parallel(SOURCES.len() as u64, None, |task, comparer| {
        LISTS.iter().try_for_each(|words| {
            let packed = pack(&list(words));
            comparer.compare_source(&packed.rows, &packed.text, SOURCES[task as usize], Rooms::All)
        })
    })
}

/// A source before random lists; one in `step` tasks.
pub fn run_random(step: u64) -> Result<Counts, Difference> {
    in_parallel((RANDOM / TASK).div_ceil(step), None, |task, comparer| {
        (0..TASK).try_for_each(|i| compare(task * TASK + i, comparer))
    })
}

fn compare(seed: u64, comparer: &mut Comparer) -> Result<(), Difference> {
    let random = &mut Random::new(seed ^ 0x50);
    let shape = &long::SHAPES[random.below(long::SHAPES.len() - 1)];
    let packed = pack(&shape.list(random));
    comparer.compare_source(&packed.rows, &packed.text, random.of(&SOURCES), Rooms::Two(random.next()))
}
