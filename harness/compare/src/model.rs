//! The specification in Rust: refusals 1, 2 and 3, 'The shebang wrapper', 'Reading back', 'The plain mark'
//! and the words of 'What the mark promises'. Nothing here comes from the Rattle code or its definitions.
use crate::doors::{refuse, success, Answer, Options};
use crate::lists::{LEADING, MOST_ROWS, ROW_BYTES, TOKEN, TRAILING};

/// A token with its trivia rows, each a kind and its bytes.
#[derive(Clone, Debug, Default, PartialEq)]
pub struct Token<'a> {
    pub kind: u32,
    pub lexeme: &'a [u8],
    pub leading: Vec<(u32, &'a [u8])>,
    pub trailing: Vec<(u32, &'a [u8])>,
}

/// The tokens that rows name, or refusal 2 or 3.
pub fn tokens<'a>(rows: &[u8], text: &'a [u8]) -> Result<Vec<Token<'a>>, Answer> {
    if rows.len() % ROW_BYTES != 0 || rows.len() / ROW_BYTES > MOST_ROWS {
        return Err(refuse(2, 0));
    }
    let mut tokens: Vec<Token> = Vec::with_capacity(rows.len() / ROW_BYTES);
    let mut leading = Vec::new();
    for (place, row) in rows.chunks_exact(ROW_BYTES).enumerate() {
        let (what, kind, bytes) = fields(row, text).ok_or(refuse(3, place))?;
        match what {
            LEADING => leading.push((kind, bytes)),
            TOKEN => {
                tokens.push(Token { kind, lexeme: bytes, leading: std::mem::take(&mut leading), trailing: Vec::new() })
            }
            _ => match tokens.last_mut() {
                Some(token) if leading.is_empty() => token.trailing.push((kind, bytes)),
                _ => return Err(refuse(3, place)),
            },
        }
    }
    if leading.is_empty() {
        Ok(tokens)
    } else {
        Err(refuse(3, rows.len() / ROW_BYTES - 1))
    }
}

/// A row's what, kind and bytes; none where one of its numbers is out of bounds.
fn fields<'a>(row: &[u8], text: &'a [u8]) -> Option<(u32, u32, &'a [u8])> {
    let number = |i: usize| u32::from_le_bytes(row[4 * i..4 * i + 4].try_into().unwrap());
    let (what, kind) = (number(0), number(1));
    let kinds = if what == TOKEN { 35 } else { 4 };
    let bytes = text.get(number(2) as usize..number(3) as usize)?;
    (what <= TRAILING && kind < kinds).then_some((what, kind, bytes))
}

/// Refusal 1.
pub fn bad_option(options: Options) -> Option<Answer> {
    let most = [1, 16, 65_535, 65_535];
    (0..4).find(|&i| options[i] > most[i]).map(|i| refuse(1, i))
}

/// A source's first line with a line feed, where it is a shebang line; else nothing.
pub fn shebang(source: &[u8]) -> Vec<u8> {
    let line = source.split(|&b| b == b'\n').next().unwrap();
    if line.starts_with(b"#!") && !line.starts_with(b"#![") {
        [line, b"\n"].concat()
    } else {
        Vec::new()
    }
}

// ---- reading back

#[derive(Clone, Copy, PartialEq)]
enum Class {
    Gap,
    Single,
    Quote,
    Word,
    Operator,
    None,
}

fn class(byte: u8) -> Class {
    match byte {
        b'\n' | b' ' => Class::Gap,
        b'(' | b')' | b'[' | b']' | b'{' | b'}' | b',' | b';' | b'?' => Class::Single,
        b'"' | b'\'' => Class::Quote,
        b'A'..=b'Z' | b'a'..=b'z' | b'0'..=b'9' | b'_' | 128..=255 => Class::Word,
        33..=126 => Class::Operator,
        _ => Class::None,
    }
}

/// The end of the piece that starts at an index which is no gap; none where the byte has no class or its
/// quote is open.
fn piece_end(text: &[u8], start: usize) -> Option<usize> {
    let run = |class_of: Class| (start..text.len()).find(|&i| class(text[i]) != class_of).unwrap_or(text.len());
    match class(text[start]) {
        Class::Single => Some(start + 1),
        Class::Quote => quote_end(text, start),
        Class::Operator => Some(run(Class::Operator)),
        Class::Word if text[start].is_ascii_digit() => Some(number_end(text, start)),
        Class::Word => Some(run(Class::Word)),
        Class::Gap | Class::None => None,
    }
}

fn quote_end(text: &[u8], start: usize) -> Option<usize> {
    let mut i = start + 1;
    while i < text.len() {
        match text[i] {
            b'\\' => i += 2,
            b if b == text[start] => return Some(i + 1),
            _ => i += 1,
        }
    }
    None
}

fn number_end(text: &[u8], start: usize) -> usize {
    let digit = |i: usize| text.get(i).is_some_and(u8::is_ascii_digit);
    let mut i = start;
    while i < text.len() && (class(text[i]) == Class::Word || text[i] == b'.' && digit(i + 1)) {
        i += 1;
    }
    i
}

/// What reading a text into so much space answers, and on success the pieces' starts and ends in turn.
pub fn read(text: &[u8], space: usize) -> (Answer, Vec<u32>) {
    let mut pieces = Vec::new();
    let answer = read_into(text, space, &mut pieces);
    if answer.refusal != 0 {
        pieces.clear();
    }
    (answer, pieces)
}

/// The same, into an empty `Vec`.
pub fn read_into(text: &[u8], space: usize, pieces: &mut Vec<u32>) -> Answer {
    let mut i = 0;
    while i < text.len() {
        if class(text[i]) == Class::Gap {
            i += 1;
            continue;
        }
        let Some(end) = piece_end(text, i) else {
            return refuse(9, i);
        };
        if pieces.len() + 2 > space || end > u32::MAX as usize {
            return refuse(10, i);
        }
        pieces.extend([i as u32, end as u32]);
        i = end;
    }
    success(pieces.len() as u64 / 2, 0, 0)
}

// ---- the plain mark

const EOF: u32 = 0;
const NEWLINE: u32 = 1;
const LEFT_BRACE: u32 = 2;
const RIGHT_BRACE: u32 = 3;
const COMMA: u32 = 8;
const COLON: u32 = 9;
const DOT: u32 = 12;
const DOT_DOT: u32 = 13;
const COLON_COLON: u32 = 14;
const HASH: u32 = 15;
const BANG: u32 = 16;
const BANG_HASH: u32 = 17;
const MINUS: u32 = 18;
const RECORD: u32 = 21;

/// The lexemes of kinds 2 to 16, 18 and 19.
const FIXED: [&str; 18] =
    ["{", "}", "(", ")", "[", "]", ",", ":", ";", "?", ".", "..", "::", "#", "!", "", "-", "else"];

pub fn plain(tokens: &[Token]) -> bool {
    let written: Vec<&Token> = tokens.iter().filter(|t| is_written(t)).collect();
    tokens.iter().all(|t| t.leading.is_empty() && t.trailing.is_empty())
        && tokens.iter().all(has_fixed_lexeme)
        && written.iter().all(|t| is_one_piece(t.lexeme))
        && written.windows(2).all(|w| operators_stand_apart(w[0], w[1]) && no_dot_behind_digit(w[0], w[1]))
        && no_brace_behind_comma(tokens)
        && no_empty_record(tokens)
}

fn is_written(t: &Token) -> bool {
    t.kind != EOF && t.kind != NEWLINE
}

fn has_fixed_lexeme(t: &Token) -> bool {
    match t.kind {
        BANG_HASH => t.lexeme.iter().all(|&b| class(b) == Class::Operator),
        2..=19 => t.lexeme == FIXED[t.kind as usize - 2].as_bytes(),
        _ => true,
    }
}

fn is_one_piece(lexeme: &[u8]) -> bool {
    !lexeme.is_empty() && piece_end(lexeme, 0) == Some(lexeme.len())
}

fn operators_stand_apart(first: &Token, second: &Token) -> bool {
    let operator = |b: Option<&u8>| b.is_some_and(|&b| class(b) == Class::Operator);
    let touch = operator(first.lexeme.last()) && operator(second.lexeme.first());
    let tight_first = matches!(first.kind, DOT | DOT_DOT | COLON_COLON | HASH | BANG | BANG_HASH | MINUS);
    let tight_second = matches!(second.kind, DOT | DOT_DOT | COLON_COLON | COLON);
    !touch || !tight_first && !tight_second
}

fn no_dot_behind_digit(first: &Token, second: &Token) -> bool {
    second.kind != DOT || !first.lexeme.first().is_some_and(u8::is_ascii_digit)
}

fn no_brace_behind_comma(tokens: &[Token]) -> bool {
    let kinds = tokens.iter().map(|t| t.kind).filter(|&k| k != EOF);
    let mut last = EOF;
    for kind in kinds {
        if last == COMMA && kind == LEFT_BRACE {
            return false;
        }
        last = kind;
    }
    true
}

fn no_empty_record(tokens: &[Token]) -> bool {
    let opens_empty = |i: usize| match (i..tokens.len()).find(|&j| tokens[j].kind == LEFT_BRACE) {
        Some(brace) => tokens.get(brace + 1).is_some_and(|t| t.kind == RIGHT_BRACE),
        None => false,
    };
    (0..tokens.len()).all(|i| tokens[i].kind != RECORD || !opens_empty(i + 1))
}

// ---- the words of demand 3

/// The lexemes of all tokens but Newline and Eof.
pub fn lexemes<'a>(tokens: &[Token<'a>]) -> Vec<&'a [u8]> {
    tokens.iter().filter(|t| is_written(t)).map(|t| t.lexeme).collect()
}

fn is_closer(lexeme: &[u8]) -> bool {
    lexeme == b"]" || lexeme == b"}"
}

/// How many commas make pieces of lexemes, at most one for each `]` or `}`, directly before it; none where
/// they don't.
pub fn inserted(lexemes: &[&[u8]], pieces: &[&[u8]]) -> Option<u64> {
    let mut commas = 0;
    let mut rest = pieces;
    for lexeme in lexemes {
        if is_closer(lexeme) && rest.first() == Some(&&b","[..]) {
            commas += 1;
            rest = &rest[1..];
        }
        if rest.first() != Some(lexeme) {
            return None;
        }
        rest = &rest[1..];
    }
    rest.is_empty().then_some(commas)
}

/// The lexemes without each run of commas directly before a `]` or `}`.
pub fn struck<'a>(lexemes: &[&'a [u8]]) -> Vec<&'a [u8]> {
    let mut kept: Vec<&[u8]> = Vec::with_capacity(lexemes.len());
    for &lexeme in lexemes {
        while is_closer(lexeme) && kept.last() == Some(&&b","[..]) {
            kept.pop();
        }
        kept.push(lexeme);
    }
    kept
}
