//! The benchmark: the Rust and the doors on the same inputs, in one run, as Markdown tables.
use crate::doors::{self, Options};
use crate::lists::{list, pack, usual, Packed, Row, MOST_ROWS, USUAL};
use crate::random::Random;
use crate::{clock, model, rust_side, sheet};
use std::hint::black_box;

const DEFAULTS: Options = [1, 4, 40, 40];
const NO_INDENT: Options = [1, 0, 40, 40];
const WIDEST: Options = [1, 0, 65_535, 65_535];
const SAME_LINE: Options = [0, 4, 40, 40];

/// Nanoseconds.
const SECOND: u64 = 1_000_000_000;

/// Rows of a list of two kinds.
const PAIR_ROWS: usize = 1024;

/// All tables, or those of usual inputs alone; `repeats` samples for each number, of which the best counts.
pub fn run(repeats: usize, hostile: bool) {
    println!("## Layout\n\nNanoseconds of processor time a token, best of {repeats} samples, or of as many as a second has, one at least.\n");
    println!(
        "| input | options | rows | tokens | text bytes | Rust | ours | ours, output cleared first | ours / Rust |"
    );
    println!("|---|---|---|---|---|---|---|---|---|");
    for input in usual_inputs() {
        input.measure(repeats);
    }
    for input in hostile_inputs().iter().filter(|_| hostile) {
        input.measure(repeats);
    }
    println!("\n## Where our layout's time goes\n\nNanoseconds a token: checks and plain mark (a call without room for the first byte; the \
        search for the last comma and brace is in it), and the walk (the rest).\n");
    println!("| input | checks and plain mark | walk |");
    println!("|---|---|---|");
    for input in usual_inputs() {
        input.measure_parts(repeats);
    }
    println!("\n## Reading back and sheets\n\nMillions of bytes a second, best of {repeats} samples.\n");
    println!("| call | input | bytes | a plain Rust loop | ours | ours / Rust |");
    println!("|---|---|---|---|---|---|");
    measure_readers(repeats);
}

/// Each list of two kinds in turns, and how ours compares; the lists on which ours is slower, worst first, as a Markdown table.
pub fn run_pairs(repeats: usize) {
    let kinds = 0..USUAL.len() as u32;
    let pairs: Vec<(u32, u32)> =
        kinds.clone().flat_map(|a| kinds.clone().skip(a as usize).map(move |b| (a, b))).collect();
    let mut ratios: Vec<(f64, String)> = pairs.iter().map(|&pair| pair_ratio(pair, repeats)).collect();
    ratios.sort_by(|a, b| b.0.total_cmp(&a.0));
    let slower = ratios.iter().take_while(|&&(ratio, _)| ratio > 1.0).count();
    println!(
        "Of {} lists, ours is slower on {slower}; the median is {:.2}.\n",
        ratios.len(),
        ratios[ratios.len() / 2].0
    );
    println!("| list | Rust | ours | ours / Rust |\n|---|---|---|---|");
    ratios[..slower].iter().for_each(|(_, line)| println!("{line}"));
}

fn pair_ratio((first, second): (u32, u32), repeats: usize) -> (f64, String) {
    let rows: Vec<Row> = [first, second].map(usual).into_iter().cycle().take(PAIR_ROWS).collect();
    let input = Input::new("", DEFAULTS, rows);
    let [rust, ours, _] = input.times(repeats);
    let names = [first, second].map(name);
    (ours / rust, format!("| `{} {}` | {rust:.1} | {ours:.1} | {:.2} |", names[0], names[1], ours / rust))
}

fn name(kind: u32) -> &'static str {
    match kind {
        0 => "EOF",
        1 => "NL",
        _ => USUAL[kind as usize],
    }
}

/// Lays one of the usual inputs out by the Rust or by ours, and prints its name and how many tokens were laid out.
pub fn call(input: usize, times: usize, by_rust: bool) {
    let inputs = usual_inputs();
    let Some(input) = inputs.get(input - 1) else { return println!("none") };
    let Packed { rows, text } = pack(&input.rows);
    let read = model::tokens(&rows, &text).unwrap();
    let tokens = rust_side::tokens(&read);
    let mut out = vec![0; 256 * input.rows.len()];
    for _ in 0..times {
        if by_rust {
            input.run_rust(&tokens);
        } else {
            input.run_ours(&rows, &text, &mut out);
        }
    }
    println!("{} {}", input.calls * read.len(), input.name);
}

// ---- layouts

struct Input {
    name: &'static str,
    options: Options,
    rows: Vec<Row>,
    /// Calls in one sample.
    calls: usize,
}

impl Input {
    fn new(name: &'static str, options: Options, rows: Vec<Row>) -> Self {
        let calls = (MOST_ROWS / rows.len().max(1)).max(1);
        Input { name, options, rows, calls }
    }

    fn measure(&self, repeats: usize) {
        let Packed { rows, text } = pack(&self.rows);
        let read = model::tokens(&rows, &text).unwrap();
        let expected = rust_side::text(&rust_side::tokens(&read), self.options);
        let refusal = doors::layout(self.options, &rows, &text, &mut vec![0; expected.len()]).refusal;
        let [rust, ours, cleared] = self.times(repeats);
        let note = if refusal == 0 { String::new() } else { format!(" (refusal {refusal})") };
        println!(
            "| {}{note} | {:?} | {} | {} | {} | {rust:.1} | {ours:.1} | {cleared:.1} | {:.2} |",
            self.name,
            self.options,
            self.rows.len(),
            read.len(),
            expected.len(),
            ours / rust
        );
    }

    /// Nanoseconds a token: the Rust's, ours, and ours with the output cleared first.
    fn times(&self, repeats: usize) -> [f64; 3] {
        let Packed { rows, text } = pack(&self.rows);
        let read = model::tokens(&rows, &text).unwrap();
        let tokens = rust_side::tokens(&read);
        let expected = rust_side::text(&tokens, self.options);
        let mut out = vec![0; expected.len()];
        let answer = doors::layout(self.options, &rows, &text, &mut out);
        assert!(answer.refusal != 0 || out == expected, "{}: the texts differ", self.name);

        let mut cleared_out = out.clone();
        let mut rust = || self.run_rust(&tokens);
        let mut ours = || self.run_ours(&rows, &text, &mut out);
        let mut cleared = || self.run_cleared(&rows, &text, &mut cleared_out);
        let times = best_of_each(repeats, [&mut rust, &mut ours, &mut cleared]);
        times.map(|ns| ns / (self.calls * read.len()) as f64)
    }

    fn measure_parts(&self, repeats: usize) {
        let packed = pack(&self.rows);
        let mut out = vec![0; 256 * self.rows.len()];
        let mut whole = || self.run_ours(&packed.rows, &packed.text, &mut out);
        let mut marked = || self.run_ours(&packed.rows, &packed.text, &mut []);
        let times = best_of_each(repeats, [&mut whole, &mut marked]);
        let [whole, marked] = times.map(|ns| ns / (self.calls * self.rows.len()) as f64);
        println!("| {} | {marked:.1} | {:.1} |", self.name, whole - marked);
    }

    fn run_rust(&self, tokens: &rust_side::Tokens) {
        for _ in 0..self.calls {
            black_box(rust_side::text(black_box(tokens), self.options));
        }
    }

    fn run_ours(&self, rows: &[u8], text: &[u8], out: &mut [u8]) {
        for _ in 0..self.calls {
            black_box(doors::layout(self.options, black_box(rows), text, out));
        }
    }

    fn run_cleared(&self, rows: &[u8], text: &[u8], out: &mut [u8]) {
        for _ in 0..self.calls {
            black_box(&mut *out).fill(0);
            black_box(doors::layout(self.options, black_box(rows), text, out));
        }
    }
}

/// The nanoseconds of the fastest sample of each, of so many samples or as many as a second has. They take turns, so that what
/// else the machine does touches all alike.
fn best_of_each<const N: usize>(repeats: usize, mut samples: [&mut dyn FnMut(); N]) -> [f64; N] {
    let begun = clock::nanoseconds();
    let mut best = [f64::INFINITY; N];
    for _ in 0..repeats {
        for (sample, best) in samples.iter_mut().zip(&mut best) {
            let start = clock::nanoseconds();
            sample();
            *best = best.min((clock::nanoseconds() - start) as f64);
        }
        if clock::nanoseconds() - begun > SECOND {
            break;
        }
    }
    best
}

// ---- inputs

const TYPICAL: &str = "record Beacon { orbits : int , kept : bool , name : string } NL NL \
    fn add ( a : int , b : int ) 34:-> int NL { NL 34:return a 34:+ b NL } NL NL \
    fn longer ( first : map [ string , int ] , second : int , third : int , fourth : int ) NL { NL \
    34:if a 34:== 1 { log ( \"s\" , a ) } else { log ( 'c' ) } NL \
    34:let xs 34:= [ 1 , 2 , 3 , - 1 ] NL \
    34:let y 34:= xs [ 1 ] . size ( ) 34:* 2.5 NL \
    call ( alpha , beta , gamma , delta , epsilon , zeta , eta ) NL \
    34:for x 34:in 1 .. y { 34:if ! x { std :: halt ( null ) } } NL } NL NL";

const LONG_NAMES: &str = "fourteen_bytes fourteen_bytes fourteen_bytes fourteen_bytes fourteen_bytes ,";

const STRINGS: &str = "25:\"string\\sof\\stwenty_\" ,";

const SMALL: &str = "fn add ( a : int , b : int ) 34:-> int NL { NL 34:return add ( a , b , 1 ) 34:+ b NL } NL";

const WIDE: &str =
    "34:let rows 34:= [ [ alpha , beta , gamma , delta ] , call ( epsilon , zeta , eta , theta , iota ) , \
    [ [ kappa , lambda , mu ] , [ nu , xi , omicron ] , [ pi , rho , sigma ] , [ tau , upsilon , phi ] ] ] NL";

const COMMENTED: &str = "l0:a_line_of_comment;record Beacon { NL l1:what_it_counts;orbits : int , NL \
    kept : bool ,;r0:behind_it NL l3:;name : string NL } NL l2:a_block;NL l0:one;l0:two;fn add ( a , b ) NL { NL \
    l0:why;34:return a;r2:here 34:+ b NL } NL";

fn usual_inputs() -> Vec<Input> {
    vec![
        Input::new("`a a a a a ,`", DEFAULTS, repeated("a a a a a ,", MOST_ROWS)),
        Input::new("names of 14 bytes, commas", DEFAULTS, repeated(LONG_NAMES, MOST_ROWS)),
        Input::new("functions, records, calls", DEFAULTS, repeated(TYPICAL, MOST_ROWS)),
        Input::new("the same, SameLine", SAME_LINE, repeated(TYPICAL, MOST_ROWS)),
        Input::new("a small list", DEFAULTS, list(SMALL)),
        Input::new("wide broken lists", DEFAULTS, repeated(WIDE, MOST_ROWS)),
        Input::new("comments", DEFAULTS, repeated(COMMENTED, MOST_ROWS)),
        Input::new("strings of 19 bytes, commas", DEFAULTS, repeated(STRINGS, MOST_ROWS)),
        Input::new("names of 100 bytes, commas", DEFAULTS, repeated(&format!("{} ,", "n".repeat(100)), MOST_ROWS)),
        Input::new(
            "strings of 200 bytes, commas",
            DEFAULTS,
            repeated(&format!("25:\"{}\" ,", "s".repeat(198)), MOST_ROWS),
        ),
    ]
}

/// Each list in full and with half its rows, so that the growth is seen.
fn hostile_inputs() -> Vec<Input> {
    let lists: [(&str, Options, fn(usize) -> Vec<Row>); 16] = [
        ("all `(`", DEFAULTS, |n| repeated("(", n)),
        ("all `[`", DEFAULTS, |n| repeated("[", n)),
        ("all `{`", SAME_LINE, |n| repeated("{", n)),
        ("`( ]`", DEFAULTS, |n| repeated("( ]", n)),
        ("`(` nested and closed", DEFAULTS, |n| nested("(", ")", n)),
        ("`[` nested and closed", DEFAULTS, |n| nested("[", "]", n)),
        ("`{` nested and closed", SAME_LINE, |n| nested("{", "}", n)),
        ("`[ ,`", NO_INDENT, |n| repeated("[ ,", n)),
        ("`[ ,`", WIDEST, |n| repeated("[ ,", n)),
        ("`fn (`", DEFAULTS, |n| repeated("fn (", n)),
        ("all `(`, a `,` last", DEFAULTS, |n| [repeated("(", n - 1), list(",")].concat()),
        ("all `{`, a `}` last", SAME_LINE, |n| [repeated("{", n - 1), list("}")].concat()),
        ("`(` and a name behind a comment, a `,` last", DEFAULTS, |n| {
            [repeated("( l0:c;a", n - 1), list(",")].concat()
        }),
        ("`(` nested around `a ,`", DEFAULTS, |n| nested_around("(", "a ,", ")", n)),
        ("`(` and `[` by chance, a `,` last", DEFAULTS, by_chance),
        ("`(` and `[` by chance, a `,` last", WIDEST, by_chance),
    ];
    let sizes = [MOST_ROWS / 2, MOST_ROWS];
    lists.iter().flat_map(|&(name, options, rows)| sizes.map(|n| Input::new(name, options, rows(n)))).collect()
}

/// Openers that no scan can guess, and one comma that each has to find.
fn by_chance(rows: usize) -> Vec<Row> {
    let random = &mut Random::new(1);
    let openers = ["(", "["].map(list);
    let mut made: Vec<Row> = (1..rows).flat_map(|_| openers[random.below(2)].clone()).collect();
    made.extend(list(","));
    made
}

/// So many rows of a list that begins anew at its end.
fn repeated(words: &str, rows: usize) -> Vec<Row> {
    list(words).into_iter().cycle().take(rows).collect()
}

fn nested(open: &str, close: &str, rows: usize) -> Vec<Row> {
    nested_around(open, "", close, rows)
}

fn nested_around(open: &str, inner: &str, close: &str, rows: usize) -> Vec<Row> {
    let inner = list(inner);
    let pairs = (rows - inner.len()) / 2;
    [repeated(open, pairs), inner, repeated(close, pairs)].concat()
}

// ---- readers

fn measure_readers(repeats: usize) {
    for (name, words) in [("functions, records, calls", TYPICAL), ("wide broken lists", WIDE)] {
        let rows = repeated(words, MOST_ROWS);
        let packed = pack(&rows);
        let tokens = rust_side::tokens(&model::tokens(&packed.rows, &packed.text).unwrap());
        measure_reading(name, &rust_side::text(&tokens, DEFAULTS), repeats);
        measure_sheet(name, &sheet::write(&rows), repeats);
    }
}

fn measure_reading(name: &str, text: &[u8], repeats: usize) {
    let (mut pieces, mut kept) = (vec![0; 2 * text.len()], Vec::new());
    let mut rust = || {
        kept.clear();
        black_box(model::read_into(black_box(text), usize::MAX, &mut kept));
    };
    let mut ours = || _ = black_box(doors::read_pieces(black_box(text), &mut pieces));
    let times = best_of_each(repeats, [&mut rust, &mut ours]);
    print_speed("`rl_read_pieces`", name, text.len(), times);
}

fn measure_sheet(name: &str, sheet: &[u8], repeats: usize) {
    let (mut rows, mut text) = (vec![0; sheet.len() * 4], vec![0; sheet.len()]);
    let (mut kept_rows, mut kept_text) = (Vec::new(), Vec::new());
    let mut rust = || {
        kept_rows.clear();
        kept_text.clear();
        black_box(sheet::read_into(black_box(sheet), [usize::MAX; 2], &mut kept_rows, &mut kept_text));
    };
    let mut ours = || _ = black_box(doors::read_sheet(black_box(sheet), &mut rows, &mut text));
    let times = best_of_each(repeats, [&mut rust, &mut ours]);
    print_speed("`rl_read_sheet`", name, sheet.len(), times);
}

fn print_speed(call: &str, name: &str, bytes: usize, times: [f64; 2]) {
    let [rust, ours] = times.map(|ns| bytes as f64 * 1000.0 / ns);
    println!("| {call} | {name} | {bytes} | {rust:.0} | {ours:.0} | {:.2} |", ours / rust);
}
