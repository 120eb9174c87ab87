//! The Rust formatter and the doors side by side: harness/README.md tells how to run it.
mod bench;
mod bindings;
mod bounds;
mod clock;
mod counts;
mod damaged;
mod demand3;
mod difference;
mod doors;
mod exhaustive;
mod expected;
mod layouts;
mod lists;
mod long;
mod mapped;
mod model;
mod random;
mod readings;
mod rust_side;
mod sheet;
mod sheets;
mod shrink;
mod small;
mod sources;
mod strings;
mod threads;

use counts::{Counts, Sort};
use difference::Difference;
use std::time::Instant;

fn main() {
    let words: Vec<String> = std::env::args().skip(1).collect();
    let words: Vec<&str> = words.iter().map(String::as_str).collect();
    match words[..] {
        [] => compare(1),
        ["bounds"] => Run::new().bounds().end(),
        ["bench"] => bench::run(15, true),
        ["bench", samples] => bench::run(number(samples), true),
        ["bench", samples, "usual"] => bench::run(number(samples), false),
        ["pairs", samples] => bench::run_pairs(number(samples)),
        ["calls", "rust", input, times] => bench::call(number(input), number(times), true),
        ["calls", "ours", input, times] => bench::call(number(input), number(times), false),
        [step] => compare(number(step) as u64),
        _ => wrong_arguments(),
    }
}

fn number(word: &str) -> usize {
    word.parse().ok().filter(|&n| n > 0).unwrap_or_else(|| wrong_arguments())
}

fn wrong_arguments() -> ! {
    eprintln!("harness/run.sh help tells of the arguments");
    std::process::exit(2)
}

fn compare(step: u64) {
    let mut run = Run::new();
    let texts = demand3::Texts::new();
    for (number, section) in exhaustive::SECTIONS.iter().enumerate() {
        run.section(&format!("every short list: {}", section.name), || exhaustive::run(number, step, &texts));
    }
    drop(texts);
    for shape in &long::SHAPES {
        run.section(&format!("random lists: {}", shape.name), || shape.run(step));
    }
    run.section("damaged rows and options", || damaged::run(step));
    run.section("the bound on rows", damaged::at_the_row_bound);
    run.section("the bounds on widths", damaged::at_the_width_bounds);
    run.section("sources: every output size", sources::run_each);
    run.section("sources: random lists", || sources::run_random(step));
    run.section("reading back: every short text", || readings::run_short(step));
    run.section("reading back: every pair of bytes", readings::run_pairs);
    run.section("reading back: random texts, every space", || readings::run_random(step));
    run.section("sheets: every short string", || sheets::run_short(step));
    run.section("sheets: every byte at every place", sheets::run_bytes);
    run.section("sheets: random and damaged", || sheets::run_random(step));
    run.section("spaces: every pair of kinds", small::spaces);
    run.section("reports of a wrong size", small::reports);
    run.section("the Rust crate over the doors", || bindings::run(step));
    if step == 1 {
        run.bounds();
    } else {
        println!("the 4 GiB bounds: not run with a step");
    }
    run.end();
}

struct Run {
    start: Instant,
    total: Counts,
}

impl Run {
    fn new() -> Self {
        Run { start: Instant::now(), total: Counts::default() }
    }

    fn bounds(&mut self) -> &Self {
        self.section("the 4 GiB bounds: reading back", bounds::readings::run);
        self.section("the 4 GiB bounds: sheets", bounds::sheets::run);
        self.section("the 4 GiB bounds: lexemes and widths", bounds::lexemes::run);
        self.section("the 4 GiB bounds: a layout of 8.6 GB", bounds::layouts::run);
        self
    }

    fn end(&self) {
        println!("\nno difference in {:.0} s: {}", self.start.elapsed().as_secs_f64(), self.total);
        println!("{} layouts compared", self.total.of(Sort::Layouts));
    }

    /// Runs a section, and ends the run at a difference.
    fn section(&mut self, name: &str, run: impl FnOnce() -> Result<Counts, Difference>) {
        match run() {
            Ok(counts) => {
                println!("[{:4.0} s] {name}: {counts}", self.start.elapsed().as_secs_f64());
                self.total.join(&counts);
            }
            Err(difference) => {
                eprintln!("{name}: a difference\n{}", shrink::smaller(difference));
                std::process::exit(1)
            }
        }
    }
}
