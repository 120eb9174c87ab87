//! Every call on random inputs: it returns, its numbers lie within what was lent, and a refusal is one that
//! the call has, with the lent memory as specification, 'Refusals', says.
use furzewrench::{
    layout, layout_and_read_back, layout_source, needs_space, read_pieces, read_sheet, rows_as_bytes,
};
use furzewrench::{Layout, Options, Refusal, Row};

const RUNS: usize = 20_000;
const UNTOUCHED: u8 = 7;

/// A xorshift generator.
struct Random(u64);

impl Random {
    fn below(&mut self, bound: u32) -> u32 {
        self.0 ^= self.0 << 13;
        self.0 ^= self.0 >> 7;
        self.0 ^= self.0 << 17;
        (self.0 >> 32) as u32 % bound
    }

    fn length(&mut self, bound: u32) -> usize {
        self.below(bound) as usize
    }

    fn bytes(&mut self, bound: u32, from: &[u8]) -> Vec<u8> {
        let length = self.length(bound);
        (0..length).map(|_| from[self.length(from.len() as u32)]).collect()
    }

    /// A row that is often a good one for a text of 8 bytes.
    fn row(&mut self) -> Row {
        let what = if self.below(4) > 0 { 1 } else { self.below(4) };
        let kind = if what == 1 { self.below(36) } else { self.below(5) };
        let start = self.below(8);
        Row::new(what, kind, start, start + self.below(3))
    }

    fn rows(&mut self) -> Vec<u8> {
        let rows: Vec<Row> = (0..self.below(12)).map(|_| self.row()).collect();
        let mut bytes = rows_as_bytes(&rows).to_vec();
        if self.below(8) == 0 {
            bytes.pop();
        }
        bytes
    }

    fn options(&mut self) -> Options {
        let (style, indent_width) = (self.below(2), self.below(18));
        Options { style, indent_width, signature_width: self.below(9), list_width: self.below(9) }
    }
}

fn check_layout(answer: Result<Layout, Refusal>, out: &[u8]) {
    match answer {
        Ok(laid) => assert!(out[laid.length..].iter().all(|&byte| byte == UNTOUCHED)),
        Err(Refusal::Option(_) | Refusal::Ragged | Refusal::BadRow(_)) => {
            assert!(out.iter().all(|&byte| byte == UNTOUCHED));
        }
        Err(Refusal::Deep(_) | Refusal::Full(_)) => assert!(out.iter().all(|&byte| byte == 0)),
        Err(other) => panic!("a layout refused: {other}"),
    }
}

#[test]
fn layouts() {
    let mut random = Random(1);
    let (mut laid, mut refused) = (0, 0);
    for _ in 0..RUNS {
        let (rows, text) = (random.rows(), *b"ab(1),{x");
        let mut out = vec![UNTOUCHED; random.length(200)];
        let answer = layout(random.options(), &rows, &text, &mut out);
        check_layout(answer, &out);
        *if answer.is_ok() { &mut laid } else { &mut refused } += 1;

        let source = random.bytes(8, b"#![\nx");
        out.fill(UNTOUCHED);
        check_layout(layout_source(&source, &rows, &text, &mut out), &out);
    }
    assert!(laid > RUNS / 20 && refused > RUNS / 20, "{laid} laid out, {refused} refused");
}

/// The answers and outputs of a thousand random calls.
fn thousand_layouts() -> Vec<(Result<Layout, Refusal>, Vec<u8>)> {
    let mut random = Random(5);
    let mut call = || {
        let (rows, options) = (random.rows(), random.options());
        let mut out = vec![UNTOUCHED; random.length(200)];
        (layout(options, &rows, b"ab(1),{x", &mut out), out)
    };
    (0..1_000).map(|_| call()).collect()
}

#[test]
fn threads_do_not_disturb_each_other() {
    let alone = thousand_layouts();
    let threads: Vec<_> = (0..4).map(|_| std::thread::spawn(thousand_layouts)).collect();
    for thread in threads {
        assert_eq!(thread.join().expect("a thread"), alone);
    }
}

/// The output is as after `layout`; the pieces are unchanged, or 0, or those of the text.
#[test]
fn layouts_read_back() {
    let mut random = Random(4);
    let (mut plain, mut not_plain, mut full) = (0, 0, 0);
    for _ in 0..RUNS {
        let (rows, text, options) = (random.rows(), *b"ab(1),{x", random.options());
        let (mut out, mut by_layout) = ([UNTOUCHED; 200], [UNTOUCHED; 200]);
        let mut pieces = vec![77; random.length(6)];
        let laid = layout(options, &rows, &text, &mut by_layout);
        let answer = layout_and_read_back(options, &rows, &text, &mut out, &mut pieces);
        assert_eq!(out, by_layout);
        let left = |n| pieces.iter().all(|&place| place == n);
        match (laid, answer) {
            (Err(laid), Err(refusal)) => assert!(laid == refusal && left(77)),
            (Ok(laid), Ok(read)) if !laid.plain => {
                assert!(read.layout == laid && read.pieces == 0 && !read.holds && left(77));
                not_plain += 1;
            }
            (Ok(laid), Ok(read)) => {
                let mut by_reader = vec![77; pieces.len()];
                assert_eq!(read_pieces(&out[..laid.length], &mut by_reader), Ok(read.pieces));
                assert!(read.layout == laid && read.holds && pieces == by_reader);
                plain += 1;
            }
            (Ok(laid), Err(Refusal::PiecesFull(place))) => {
                assert!(laid.plain && place < laid.length && left(0));
                full += 1;
            }
            other => panic!("the layout and the reading back differ: {other:?}"),
        }
    }
    assert!(plain > 100 && not_plain > 100 && full > 100, "{plain} plain, {not_plain} not, {full} full");
}

#[test]
fn sheets() {
    let mut random = Random(2);
    for _ in 0..RUNS {
        let mut sheet = b"what kind text\n".to_vec();
        for _ in 0..random.below(3) {
            sheet.extend(b"T 22 ");
            sheet.extend(random.bytes(6, b"an\\ \n\xff"));
            sheet.push(b'\n');
        }
        let (mut rows, mut text) = (vec![0; sheet.len() / 5 * Row::BYTES], vec![0; sheet.len()]);
        assert!(!matches!(read_sheet(&sheet, &mut rows, &mut text), Err(Refusal::SheetFull(_))));
        let (mut rows, mut text) = (vec![UNTOUCHED; random.length(40)], vec![UNTOUCHED; random.length(9)]);
        match read_sheet(&sheet, &mut rows, &mut text) {
            Ok(read) => {
                assert!(rows[Row::BYTES * read.rows..].iter().all(|&byte| byte == UNTOUCHED));
                assert!(text[read.text_bytes..].iter().all(|&byte| byte == UNTOUCHED));
            }
            Err(Refusal::BadLine(_) | Refusal::SheetFull(_)) => {
                assert!(rows.iter().chain(&text).all(|&byte| byte == 0));
            }
            Err(other) => panic!("a sheet refused: {other}"),
        }
    }
}

#[test]
fn pieces() {
    let mut random = Random(3);
    for _ in 0..RUNS {
        let text = random.bytes(12, b"a1. +(,'\"\\\n\t\x80");
        let mut pieces = vec![77; random.length(12)];
        let mut enough = vec![77; 2 * text.len()];
        assert!(!matches!(read_pieces(&text, &mut enough), Err(Refusal::PiecesFull(_))));
        match read_pieces(&text, &mut pieces) {
            Ok(number) => {
                let (found, rest) = pieces.split_at(2 * number);
                assert!(found.windows(2).all(|pair| pair[0] <= pair[1]));
                assert!(found.iter().all(|&index| index as usize <= text.len()));
                assert!(rest.iter().all(|&place| place == 77));
            }
            Err(Refusal::Unreadable(place) | Refusal::PiecesFull(place)) => {
                assert!(place < text.len());
                assert!(pieces.iter().all(|&place| place == 0));
            }
            Err(other) => panic!("a text refused: {other}"),
        }
    }
}

#[test]
fn spaces() {
    for first in 0..40 {
        for second in 0..40 {
            let expected = if first > 34 { Some(0) } else { (second > 34).then_some(1) };
            assert_eq!(needs_space(first, second).err(), expected.map(Refusal::BadRow));
        }
    }
}
