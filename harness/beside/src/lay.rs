//! Lays token lists out with the Rust formatter. A line of standard input is a list:
//!
//!     STYLE INDENT SIGNATURE LIST [S:SOURCE] TOKEN TOKEN ..
//!
//! with TOKEN `KIND:LEXEME`, before it `L` rows and behind it `R` rows as `LKIND:TEXT`, `RKIND:TEXT`; lexemes, texts and the
//! source in hexadecimal. A list with a source goes through `format_source_with_shebang`, which takes the default options.
//! A line of standard output is the text, in hexadecimal. With the argument `steps` the walk's steps follow it, each as
//! `INDEX:LEADING:LENGTH:GROUPS:COMMA` (format/steps.rs).
use rl_lexer::tokentypes::{kind, trivia, Token};
use std::io::{BufRead, Write};

#[allow(dead_code)]
mod format {
    include!(concat!(env!("OUT_DIR"), "/format.rs"));
    pub mod steps;
}

use format::FormatOptions;

struct List {
    opts: FormatOptions,
    source: Option<String>,
    tokens: Vec<Token>,
}

fn main() {
    let with_steps = std::env::args().nth(1).as_deref() == Some("steps");
    let stdout = std::io::stdout();
    let mut out = std::io::BufWriter::new(stdout.lock());
    for line in std::io::stdin().lock().lines() {
        let list = list(&line.unwrap());
        let hex: String = lay(&list).bytes().map(|b| format!("{b:02x}")).collect();
        write!(out, "{hex}").unwrap();
        if with_steps {
            write_steps(&mut out, &list);
        }
        writeln!(out).unwrap();
    }
}

fn lay(list: &List) -> String {
    match &list.source {
        Some(source) => format::format_source_with_shebang(source, &list.tokens),
        None => format::format_tokens_with(&list.tokens, &list.opts),
    }
}

fn write_steps(out: &mut impl Write, list: &List) {
    for s in format::steps::steps(&list.tokens, &list.opts) {
        write!(out, " {}:{}:{}:{}:{}", s.index, s.leading, s.length, s.groups, s.comma as u8).unwrap();
    }
}

fn list(line: &str) -> List {
    let mut words = line.split_whitespace();
    let mut number = || words.next().unwrap().parse::<usize>().unwrap();
    let (style, indent, signature, list) = (number(), number(), number(), number());
    let opts = FormatOptions {
        indent_width: indent,
        brace_style: if style == 0 { format::BraceStyle::SameLine } else { format::BraceStyle::Allman },
        fn_sig_width: signature,
        list_width: list,
    };
    let mut source = None;
    let mut tokens: Vec<Token> = Vec::new();
    let mut leading = Vec::new();
    for word in words {
        let (head, hex) = word.split_once(':').unwrap();
        if head == "S" {
            source = Some(text(hex));
        } else if let Some(k) = head.strip_prefix('L') {
            leading.push(trivia(k.parse().unwrap(), text(hex)));
        } else if let Some(k) = head.strip_prefix('R') {
            tokens.last_mut().unwrap().trailing_trivia.push(trivia(k.parse().unwrap(), text(hex)));
        } else {
            tokens.push(Token {
                token: kind(head.parse().unwrap()),
                lexeme: text(hex),
                leading_trivia: std::mem::take(&mut leading),
                trailing_trivia: Vec::new(),
            });
        }
    }
    List { opts, source, tokens }
}

fn text(hex: &str) -> String {
    String::from_utf8(bytes(hex)).expect("lexemes are UTF-8")
}

fn bytes(hex: &str) -> Vec<u8> {
    (0..hex.len() / 2).map(|i| u8::from_str_radix(&hex[2 * i..2 * i + 2], 16).unwrap()).collect()
}
