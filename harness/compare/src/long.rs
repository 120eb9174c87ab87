//! Random lists: uniform over kinds, source-like with faults, and deep nests.
use crate::counts::Counts;
use crate::difference::Difference;
use crate::doors::Options;
use crate::layouts::{Comparer, Rooms};
use crate::lists::{list, pack, pack_shared, Packed, Row, IDENTIFIER, LEADING, TOKEN, TRAILING, USUAL};
use crate::random::Random;
use crate::threads::in_parallel;

/// Lists of one shape, each under one set of options.
pub struct Shape {
    pub name: &'static str,
    pub lists: u64,
    make: fn(&mut Random) -> Vec<Row>,
    rooms: fn(&mut Random) -> Rooms,
}

pub const SHAPES: [Shape; 8] = [
    Shape { name: "random kinds", lists: 1_000_000, make: some_kinds, rooms: two },
    Shape { name: "random kinds, every output size", lists: 100_000, make: some_kinds, rooms: |_| Rooms::All },
    Shape { name: "brackets, plain", lists: 400_000, make: brackets, rooms: two },
    Shape { name: "bytes that are no UTF-8", lists: 100_000, make: other_bytes, rooms: two },
    Shape { name: "source-like with faults", lists: 400_000, make: source, rooms: two },
    Shape { name: "deep nests", lists: 100_000, make: deep, rooms: two },
    Shape { name: "deep nests, outputs that end at a token", lists: 5_000, make: deep, rooms: |_| Rooms::Edges },
    Shape { name: "thousands of rows", lists: 4_000, make: thousands, rooms: two },
];

fn two(random: &mut Random) -> Rooms {
    Rooms::Two(random.next())
}

const TASK: u64 = 50;

impl Shape {
    /// Compares one in `step` of the lists.
    pub fn run(&self, step: u64) -> Result<Counts, Difference> {
        in_parallel((self.lists / TASK).div_ceil(step), None, |task, comparer| {
            (0..TASK).try_for_each(|i| self.compare(task * TASK + i, comparer))
        })
    }

    pub fn list(&self, random: &mut Random) -> Vec<Row> {
        (self.make)(random)
    }

    fn compare(&self, seed: u64, comparer: &mut Comparer) -> Result<(), Difference> {
        let random = &mut Random::new(seed);
        let rows = self.list(random);
        let Packed { rows, text } = if random.one_in(2) { pack(&rows) } else { pack_shared(&rows) };
        let rooms = (self.rooms)(random);
        comparer.compare(&rows, &text, &[some_options(random)], rooms, 0)
    }
}

pub fn some_options(random: &mut Random) -> Options {
    let width = |random: &mut Random| random.of(&[0, 0, 0, 1, 2, 4, 8, 20, 40, 100, 65_535]);
    [random.of(&[0, 1]), random.of(&[0, 1, 2, 4, 4, 16]), width(random), width(random)]
}

// ---- rows

/// Lexemes that no lexer sends for a kind.
const HOSTILE: [&str; 20] = [
    "",
    "{",
    "}",
    "]",
    ",",
    ",,",
    "a b",
    "// c",
    "1.",
    ".5",
    "'",
    "\"",
    "\"\\",
    "\n",
    "\n\n",
    "\\",
    "\u{e9}",
    "\u{1f6f0}",
    "\t",
    "\u{0}",
];

const NAMES: [&str; 6] =
    ["a", "b2", "_", "orbits", "a_name_of_some_length", "another_name_that_is_longer_than_forty_bytes"];

const COMMENTS: [&str; 5] = ["", "c", "two words", "a, b", "\n"];

/// One in so many tokens has trivia on a side, or a hostile lexeme; none where the number is 0.
#[derive(Clone, Copy)]
struct Taste {
    trivia: usize,
    hostile: usize,
}

const TIDY: Taste = Taste { trivia: 0, hostile: 0 };

fn lexeme(random: &mut Random, kind: u32) -> &'static str {
    match kind {
        IDENTIFIER => random.of(&NAMES),
        1 => random.of(&["\n", ""]),
        23 => random.of(&["1", "12.5", "0x1f", "1e"]),
        25 => random.of(&["\"s\"", "\"\"", "\"a, ]\"", "\"\\\"\""]),
        34 => random.of(&["=", "+", "==", "if", "->", "/"]),
        _ => USUAL[kind as usize],
    }
}

fn push_trivia(random: &mut Random, what: u32, rows: &mut Vec<Row>) {
    for _ in 0..1 + random.below(2) {
        rows.push(Row { what, kind: random.below(4) as u32, bytes: random.of(&COMMENTS).into() });
    }
}

fn push_token(random: &mut Random, kind: u32, taste: Taste, rows: &mut Vec<Row>) {
    let wanted = |random: &mut Random, n: usize| n > 0 && random.one_in(n);
    if wanted(random, taste.trivia) {
        push_trivia(random, LEADING, rows);
    }
    let lexeme = if wanted(random, taste.hostile) { random.of(&HOSTILE) } else { lexeme(random, kind) };
    rows.push(Row { what: TOKEN, kind, bytes: lexeme.into() });
    if wanted(random, taste.trivia) {
        push_trivia(random, TRAILING, rows);
    }
}

// ---- shapes

fn some_kinds(random: &mut Random) -> Vec<Row> {
    let length = random.of(&[4, 8, 12, 20, 40, 80]);
    let taste = Taste { trivia: random.of(&[0, 0, 5, 20]), hostile: random.of(&[0, 0, 15, 60]) };
    kinds(random, length, taste)
}

fn thousands(random: &mut Random) -> Vec<Row> {
    let length = random.of(&[1000, 2000, 5000]);
    if random.one_in(2) {
        return kinds(random, length, TIDY);
    }
    let mut rows = Vec::new();
    while rows.len() < length {
        rows.extend(source(random));
    }
    rows
}

/// Tokens of a few kinds, or of all.
fn kinds(random: &mut Random, length: usize, taste: Taste) -> Vec<Row> {
    const ALPHABETS: [&[u32]; 8] = [
        &[4, 5, 6, 7, 8, 22],
        &[2, 3, 21, 20, 1, 19, 22, 8],
        &[2, 3, 4, 5, 6, 7, 8, 22, 1],
        &[20, 22, 4, 5, 8, 1, 6, 7],
        &[18, 23, 12, 13, 14, 9, 34, 22, 15, 16, 17],
        &[0, 1, 2, 3, 8, 22, 21, 19],
        &[21, 22, 2, 3, 8, 9, 1],
        &[],
    ];
    let alphabet = random.of(&ALPHABETS);
    let mut rows = Vec::new();
    for _ in 0..1 + random.below(length) {
        let kind = if alphabet.is_empty() { random.below(35) as u32 } else { random.of(alphabet) };
        push_token(random, kind, taste, &mut rows);
    }
    rows
}

/// Openers, closers and commas that nest as a rule, with lexemes of one piece.
fn brackets(random: &mut Random) -> Vec<Row> {
    let mut open = Vec::new();
    let mut rows = Vec::new();
    for _ in 0..1 + random.below(100) {
        let kind = match (random.below(6), open.last()) {
            (0, _) => random.of(&[2, 4, 4, 6, 6]),
            (1, Some(&opener)) => opener + 1,
            (2, _) => 8,
            (3, _) => random.of(&[1, 0, 20, 19, 9, 10, 18, 23, 5, 7]),
            _ => random.of(&[22, 22, 22, 25, 21]),
        };
        match kind {
            2 | 4 | 6 => open.push(kind),
            3 | 5 | 7 => drop(open.pop()),
            _ => {}
        }
        push_token(random, kind, TIDY, &mut rows);
    }
    rows
}

/// Identifiers and comments of bytes 128 to 135 among others; the Rust gets bytes that stand in for them.
fn other_bytes(random: &mut Random) -> Vec<Row> {
    let taste = Taste { trivia: random.of(&[0, 6]), hostile: 0 };
    let mut rows = kinds(random, 20, taste);
    for row in rows.iter_mut().filter(|row| row.what != TOKEN || row.kind > 21) {
        row.bytes = (0..random.below(6)).map(|_| random.of(b"\x80\x81\x85\x87a,\n\"")).collect();
    }
    rows
}

/// Openers of groups that break, mixed with signatures and blocks, and some closers.
fn deep(random: &mut Random) -> Vec<Row> {
    const OPENERS: [&[u32]; 8] =
        [&[6], &[4], &[6, 22, 8], &[4, 8], &[20, 22, 4], &[20, 4, 22, 4, 22, 8, 22, 5, 5], &[4, 2], &[6, 1]];
    let taste = Taste { trivia: random.of(&[0, 0, 0, 6]), hostile: random.of(&[0, 0, 0, 50]) };
    let mut rows = Vec::new();
    for _ in 0..random.of(&[40, 64, 66, 70, 90]) {
        let openers = if random.one_in(4) { &OPENERS[..] } else { &OPENERS[2..4] };
        random.of(openers).iter().for_each(|&kind| push_token(random, kind, taste, &mut rows));
    }
    for _ in 0..random.below(160) {
        let kind = random.of(&[5, 7, 7, 5, 8, 22, 3, 1]);
        push_token(random, kind, taste, &mut rows);
    }
    rows
}

/// Pieces of source, with a few rows dropped, doubled or put in.
fn source(random: &mut Random) -> Vec<Row> {
    const PARTS: [&str; 12] = [
        "record Beacon { orbits : int , kept : bool } NL",
        "record E { } NL",
        "fn add ( a : int , b : int ) 34:-> int NL { NL 34:return a 34:+ b NL } NL",
        "fn f ( a , b , c , d ) { NL f ( 1 , - 2 ) NL } NL",
        "34:if a { log ( a ) } else { log ( b ) } NL",
        "34:if a NL { NL log ( a ) NL } else NL { NL b NL } NL",
        "34:let xs 34:= [ 1 , 2 , [ 3 , 4 ] , f ( a , b ) ] NL",
        "call ( alpha , beta , gamma , delta , epsilon , zeta , eta ) NL",
        "l0:comment;NL l1:doc;fn g ( ) { } NL NL",
        "x . y [ 1 ] :: z ! # a .. b ? ;",
        "g ( a , { b , { c } } ) NL",
        "map [ string , int ] 34:= m;r0:behind NL EOF",
    ];
    let mut rows: Vec<Row> = (0..1 + random.below(4)).flat_map(|_| list(random.of(&PARTS))).collect();
    for _ in 0..random.below(4) {
        let at = random.below(rows.len());
        match random.below(3) {
            0 if rows.len() > 1 => drop(rows.remove(at)),
            1 => rows.insert(at, rows[at].clone()),
            _ => {
                let kind = random.below(35) as u32;
                rows.insert(at, Row { what: TOKEN, kind, bytes: lexeme(random, kind).into() });
            }
        }
    }
    rows
}
