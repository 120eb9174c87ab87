//! Every short list over several alphabets.
use crate::counts::Counts;
use crate::demand3::Texts;
use crate::difference::Difference;
use crate::doors::Options;
use crate::layouts::Rooms;
use crate::lists::{push_row, symbols, Row};
use crate::threads::in_parallel;

/// All lists of up to `longest` words, under each of the options.
pub struct Section {
    pub name: &'static str,
    words: &'static str,
    longest: u32,
    options: &'static [Options],
}

const BREAK_ALL: Options = [1, 4, 0, 0];
const SAME_LINE: Options = [0, 2, 0, 0];
const NARROW: Options = [0, 1, 6, 5];
const NARROW_ALLMAN: Options = [1, 3, 7, 8];
const DEFAULTS: Options = [1, 4, 40, 40];
const TOP: Options = [1, 16, 65_535, 65_535];

pub const SECTIONS: [Section; 12] = [
    Section {
        name: "brackets and commas",
        words: "( ) [ ] , a",
        longest: 8,
        options: &[BREAK_ALL, NARROW, NARROW_ALLMAN],
    },
    Section {
        name: "braces, record, fn, else",
        words: "{ } record fn NL else a ,",
        longest: 7,
        options: &[BREAK_ALL, SAME_LINE, DEFAULTS],
    },
    Section {
        name: "braces, record, else",
        words: "{ } record else a",
        longest: 9,
        options: &[BREAK_ALL, SAME_LINE],
    },
    Section {
        name: "braces, brackets and commas",
        words: "{ } ( ) [ ] , a",
        longest: 7,
        options: &[BREAK_ALL, SAME_LINE, NARROW],
    },
    Section {
        name: "signatures",
        words: "fn name ( ) , NL [ { }",
        longest: 6,
        options: &[BREAK_ALL, NARROW, DEFAULTS, TOP],
    },
    Section {
        name: "records",
        words: "record E { } , : NL (",
        longest: 7,
        options: &[BREAK_ALL, SAME_LINE],
    },
    Section {
        name: "Eof in the middle",
        words: "EOF NL { } , record a [ ] else",
        longest: 6,
        options: &[BREAK_ALL, SAME_LINE, DEFAULTS],
    },
    Section {
        name: "operators, minus, numbers, dots",
        words: "- 1 2.5 . .. :: : = a ! # !# ) (",
        longest: 5,
        options: &[BREAK_ALL, TOP],
    },
    Section {
        name: "trivia",
        words: "a NL { } [ ] , else record EOF l0:c;a l1:c;a l2:c;a l3:;a a;r0:c a;r1:c a;r2:c a;r3: l0:c;NL l3:;{ \
            {;r0:c l2:c;} };r3: l0:c;, ,;r1:c l3:;[ [;r2:c l1:c;] ];r0:c l3:;else l0:c;EOF l0:c;l3:;l2:c;a l3:;l3:;}",
        longest: 4,
        options: &[BREAK_ALL, SAME_LINE, DEFAULTS],
    },
    Section {
        name: "trivia, longer",
        words: "l0:c;a l3:;} ,;r2:c l2:c;NL { record ] [",
        longest: 6,
        options: &[BREAK_ALL, SAME_LINE],
    },
    Section {
        name: "every kind",
        words: "EOF NL { } ( ) [ ] , : ; ? . .. :: # ! !# - else fn record a 1 b1 \"s\" 'c' 2.5 true null arr map set result =",
        longest: 4,
        options: &[BREAK_ALL, NARROW],
    },
    Section {
        name: "hostile lexemes",
        words: "[ ] { } , a 22:{ 22:, 22: 22:a\\sb 25:' 34:\\n\\n 34:// 23:1. 8: 2:long 25:\"\\b\" 22:\u{e9}",
        longest: 4,
        options: &[BREAK_ALL, SAME_LINE, DEFAULTS],
    },
];

/// How many lists a task has.
const TASK: u64 = 4096;

/// Compares one in `step` of a section's tasks.
pub fn run(number: usize, step: u64, texts: &Texts) -> Result<Counts, Difference> {
    let section = &SECTIONS[number];
    let alphabet = Alphabet::new(section.words);
    let lists = alphabet.lists(section.longest);
    in_parallel(lists.div_ceil(TASK).div_ceil(step), Some(texts), |task, comparer| {
        let first = task * step * TASK;
        (first..lists.min(first + TASK)).try_for_each(|n| {
            let id = (number as u64) << 40 | n;
            comparer.compare(&alphabet.rows(n), &alphabet.text, section.options, Rooms::Two(n), id)
        })
    })
}

/// The rows, the text and the options of the list that an id names: section, number and options.
pub fn named(id: u64) -> (Vec<u8>, Vec<u8>, Options) {
    let section = &SECTIONS[(id >> 48) as usize];
    let alphabet = Alphabet::new(section.words);
    let number = id >> 8 & ((1 << 40) - 1);
    (alphabet.rows(number), alphabet.text, section.options[(id & 255) as usize])
}

/// An alphabet's words packed once: the rows of each word, over one text.
struct Alphabet {
    text: Vec<u8>,
    words: Vec<Vec<u8>>,
}

impl Alphabet {
    fn new(words: &str) -> Self {
        let mut alphabet = Alphabet { text: Vec::new(), words: Vec::new() };
        for symbol in symbols(words) {
            alphabet.push(&symbol);
        }
        alphabet
    }

    fn push(&mut self, symbol: &[Row]) {
        let mut rows = Vec::new();
        for row in symbol {
            let start = self.text.len() as u32;
            self.text.extend_from_slice(&row.bytes);
            push_row(&mut rows, [row.what, row.kind, start, self.text.len() as u32]);
        }
        self.words.push(rows);
    }

    /// The number of lists of up to so many words.
    fn lists(&self, longest: u32) -> u64 {
        (0..=longest).map(|n| (self.words.len() as u64).pow(n)).sum()
    }

    /// The rows of a list: the shorter ones have the lower numbers.
    fn rows(&self, number: u64) -> Vec<u8> {
        let size = self.words.len() as u64;
        let (mut n, mut length, mut lists) = (number, 0, 1);
        while n >= lists {
            n -= lists;
            lists *= size;
            length += 1;
        }
        let mut rows = Vec::with_capacity(16 * length);
        for _ in 0..length {
            rows.extend_from_slice(&self.words[(n % size) as usize]);
            n /= size;
        }
        rows
    }
}
