//! format.rs, unchanged: its texts, and its walk token by token.
use crate::doors::Options;
use crate::model::Token as Read;
use format::{BraceStyle, FormatOptions};
use rl_lexer::tokentypes::{kind, trivia, Token, TokenType};

pub use format::needs_space;

/// The entries that the broken-group stack has room for (specification, 'Refusals').
const STACK_ENTRIES: usize = 64;

/// The Rust's tokens of a list.
pub struct Tokens {
    tokens: Vec<Token>,
    /// Whether bytes stand in for those that are no UTF-8.
    stand_in: bool,
}

/// What the Rust's walk over a list did.
pub struct Walk {
    pub text: Vec<u8>,
    /// The text's length behind each token. A token that was taken along ends where the one before it does.
    pub after: Vec<usize>,
    /// Commas that were written for no Comma token.
    pub commas: u64,
    pub deep: Option<Deep>,
}

/// The token that would be the stack's 65th entry, and the text's length behind its leading trivia.
pub struct Deep {
    pub token: usize,
    pub led: usize,
}

/// Walks up to the end, or to the token that would be the stack's 65th entry.
pub fn walk(list: &Tokens, options: Options) -> Walk {
    let mut walk = step_through(list, options);
    if has_foreign_commas(&list.tokens) {
        walk.commas = step_through(&without_commas(list), options).commas;
    }
    walk
}

/// Hands each token's text on and throws it away, so that a text of gigabytes takes no memory. A list with a
/// Newline cannot be walked so: for these format.rs looks back at its text.
pub fn step_texts(list: &Tokens, options: Options, mut see: impl FnMut(&[u8])) {
    let tokens = &list.tokens;
    assert!(!list.stand_in && tokens.iter().all(|t| t.token != TokenType::Newline));
    let mut formatter = format::steps::Steps::new(format_options(options));
    let mut index = 0;
    while index < tokens.len() {
        index = formatter.push_token(tokens, index);
        see(formatter.text().as_bytes());
        formatter.clear_text();
    }
}

/// The text alone, by the Rust's public call.
pub fn text(list: &Tokens, options: Options) -> Vec<u8> {
    list.real(format::format_tokens_with(&list.tokens, &format_options(options)))
}

/// The text behind a source's shebang line, by the Rust's public call.
pub fn text_with_source(list: &Tokens, source: &str) -> Vec<u8> {
    list.real(format::format_source_with_shebang(source, &list.tokens))
}

impl Tokens {
    /// The bytes of a text, with those that were stood in for.
    fn real(&self, text: String) -> Vec<u8> {
        let mut bytes = text.into_bytes();
        if self.stand_in {
            bytes.iter_mut().filter(|b| **b < 8).for_each(|b| *b += 128);
        }
        bytes
    }
}

pub fn tokens(read: &[Read]) -> Tokens {
    let is_utf8 = |&(_, bytes): &(u32, &[u8])| std::str::from_utf8(bytes).is_ok();
    let stand_in = !read
        .iter()
        .all(|t| is_utf8(&(t.kind, t.lexeme)) && t.leading.iter().all(is_utf8) && t.trailing.iter().all(is_utf8));
    let string = |bytes: &[u8]| string(bytes, stand_in);
    let side = |rows: &[(u32, &[u8])]| rows.iter().map(|&(k, bytes)| trivia(k, string(bytes))).collect();
    let token = |t: &Read| Token {
        token: kind(t.kind),
        lexeme: string(t.lexeme),
        leading_trivia: side(&t.leading),
        trailing_trivia: side(&t.trailing),
    };
    Tokens { tokens: read.iter().map(token).collect(), stand_in }
}

/// The bytes as a string. Of lists that hold other bytes than UTF-8, bytes 128 to 135 are stood in for by 0
/// to 7, which then stand for nothing else.
fn string(bytes: &[u8], stand_in: bool) -> String {
    if !stand_in {
        return std::str::from_utf8(bytes).unwrap().to_string();
    }
    let ascii = bytes.iter().map(|&b| if (128..136).contains(&b) { b - 128 } else { b }).collect();
    String::from_utf8(ascii).expect("bytes that nothing stands in for")
}

fn format_options(options: Options) -> FormatOptions {
    FormatOptions {
        brace_style: if options[0] == 0 { BraceStyle::SameLine } else { BraceStyle::Allman },
        indent_width: options[1] as usize,
        fn_sig_width: options[2] as usize,
        list_width: options[3] as usize,
    }
}

fn step_through(list: &Tokens, options: Options) -> Walk {
    let tokens = &list.tokens;
    let mut formatter = format::steps::Steps::new(format_options(options));
    let mut walk = Walk { text: Vec::new(), after: Vec::with_capacity(tokens.len()), commas: 0, deep: None };
    let mut index = 0;
    while index < tokens.len() {
        let before = formatter.text().len();
        let next = formatter.push_token(tokens, index);
        if formatter.stack_entries() > STACK_ENTRIES {
            walk.deep = Some(Deep { token: index, led: length_led(tokens, options, index) });
            break;
        }
        if tokens[index].token != TokenType::Comma {
            walk.commas += commas(&formatter.text().as_bytes()[before..]);
        }
        walk.after.resize(next, formatter.text().len());
        index = next;
    }
    walk.text = list.real(formatter.into_text());
    walk
}

/// The text's length behind the leading trivia of a token: an Eof writes nothing more.
fn length_led(tokens: &[Token], options: Options, at: usize) -> usize {
    let mut formatter = format::steps::Steps::new(format_options(options));
    let mut index = 0;
    while index < at {
        index = formatter.push_token(tokens, index);
    }
    let led = Token { token: TokenType::Eof, trailing_trivia: Vec::new(), ..tokens[at].clone() };
    formatter.push_token(&[led], 0);
    formatter.text().len()
}

fn commas(bytes: &[u8]) -> u64 {
    bytes.iter().filter(|&&b| b == b',').count() as u64
}

/// Whether a comma stands in a lexeme of another kind or in trivia.
fn has_foreign_commas(tokens: &[Token]) -> bool {
    tokens.iter().any(|t| {
        (t.token != TokenType::Comma && t.lexeme.contains(','))
            || t.leading_trivia.iter().chain(&t.trailing_trivia).any(|c| comment(c).contains(','))
    })
}

fn comment(t: &rl_lexer::tokentypes::Trivia) -> &str {
    use rl_lexer::tokentypes::Trivia::*;
    match t {
        LineComment(c) | DocComment(c) | BlockComment(c) => c,
        BlankLine => "",
    }
}

/// The same tokens with another byte for each comma: as long, and laid out alike.
fn without_commas(list: &Tokens) -> Tokens {
    use rl_lexer::tokentypes::Trivia::{self, *};
    let dotted = |s: &str| s.replace(',', ".");
    let side = |ts: &[Trivia]| {
        ts.iter()
            .map(|t| match t {
                LineComment(c) => LineComment(dotted(c)),
                DocComment(c) => DocComment(dotted(c)),
                BlockComment(c) => BlockComment(dotted(c)),
                BlankLine => BlankLine,
            })
            .collect()
    };
    let token = |t: &Token| Token {
        token: t.token.clone(),
        lexeme: dotted(&t.lexeme),
        leading_trivia: side(&t.leading_trivia),
        trailing_trivia: side(&t.trailing_trivia),
    };
    Tokens { tokens: list.tokens.iter().map(token).collect(), stand_in: list.stand_in }
}

#[allow(dead_code)]
mod format {
    include!(concat!(env!("OUT_DIR"), "/format.rs"));

    /// The formatter's private parts that a step shows.
    pub mod steps {
        use super::{FormatOptions, Formatter, Token};

        pub struct Steps(Formatter);

        impl Steps {
            pub fn new(options: FormatOptions) -> Self {
                Steps(Formatter::new(options))
            }

            /// Lays out the token at an index, and answers the next one's.
            pub fn push_token(&mut self, tokens: &[Token], index: usize) -> usize {
                self.0.push_token(tokens, index)
            }

            pub fn text(&self) -> &str {
                &self.0.out
            }

            pub fn clear_text(&mut self) {
                self.0.out.clear();
            }

            pub fn into_text(self) -> String {
                self.0.out
            }

            pub fn stack_entries(&self) -> usize {
                self.0.break_stack.len()
            }
        }
    }
}
