//! Row lists: how they are written down here, and how they are packed into the bytes that a door takes.
//!
//! A list is written as words. A word is a token's usual lexeme, `NL`, `EOF`, another identifier, or `KIND:LEXEME`;
//! before it leading rows `lKIND:TEXT;`, behind it trailing rows `;rKIND:TEXT`, with KIND a trivia kind. In LEXEME and TEXT
//! `\s` is a space, `\n` a line feed, `\c` a semicolon, `\b` a backslash.
use std::collections::HashMap;

/// A row by its bytes instead of its indexes.
#[derive(Clone, Debug, PartialEq)]
pub struct Row {
    pub what: u32,
    pub kind: u32,
    pub bytes: Vec<u8>,
}

pub const LEADING: u32 = 0;
pub const TOKEN: u32 = 1;
pub const TRAILING: u32 = 2;
pub const ROW_BYTES: usize = 16;
pub const MOST_ROWS: usize = 65_535;

/// A usual lexeme for each kind.
pub const USUAL: [&str; 35] = [
    "", "\n", "{", "}", "(", ")", "[", "]", ",", ":", ";", "?", ".", "..", "::", "#", "!", "!#", "-", "else", "fn",
    "record", "a", "1", "b1", "\"s\"", "'c'", "2.5", "true", "null", "arr", "map", "set", "result", "=",
];

pub const IDENTIFIER: u32 = 22;

/// The rows of a list that is written down.
pub fn list(words: &str) -> Vec<Row> {
    words.split(' ').filter(|w| !w.is_empty()).flat_map(rows_of).collect()
}

/// The rows of each word.
pub fn symbols(words: &str) -> Vec<Vec<Row>> {
    words.split(' ').filter(|w| !w.is_empty()).map(rows_of).collect()
}

fn rows_of(word: &str) -> Vec<Row> {
    if word == ";" {
        return vec![token(word)];
    }
    word.split(';').map(row).collect()
}

fn row(part: &str) -> Row {
    match (part.split_once(':'), part.chars().next()) {
        (Some((head, bytes)), Some('l')) if is_number(&head[1..]) => trivia(LEADING, &head[1..], bytes),
        (Some((head, bytes)), Some('r')) if is_number(&head[1..]) => trivia(TRAILING, &head[1..], bytes),
        _ => token(part),
    }
}

fn trivia(what: u32, kind: &str, bytes: &str) -> Row {
    Row { what, kind: kind.parse().unwrap(), bytes: unescape(bytes) }
}

fn unescape(written: &str) -> Vec<u8> {
    let text = written.replace("\\s", " ").replace("\\n", "\n").replace("\\c", ";").replace("\\b", "\\");
    text.into_bytes()
}

fn escape(bytes: &[u8]) -> String {
    let text = String::from_utf8_lossy(bytes).replace('\\', "\\b");
    text.replace(';', "\\c").replace('\n', "\\n").replace(' ', "\\s")
}

fn is_number(s: &str) -> bool {
    !s.is_empty() && s.bytes().all(|b| b.is_ascii_digit())
}

/// A token of the kind, with its usual lexeme.
pub fn usual(kind: u32) -> Row {
    Row { what: TOKEN, kind, bytes: USUAL[kind as usize].into() }
}

fn token(word: &str) -> Row {
    match word.split_once(':') {
        Some((kind, bytes)) if is_number(kind) => {
            return Row { what: TOKEN, kind: kind.parse().unwrap(), bytes: unescape(bytes) }
        }
        _ => {}
    }
    match word {
        "EOF" => usual(0),
        "NL" => usual(1),
        _ => match USUAL.iter().position(|&u| u == word) {
            Some(kind) => usual(kind as u32),
            None => Row { what: TOKEN, kind: IDENTIFIER, bytes: word.into() },
        },
    }
}

/// Rows as words; a row that names no bytes of the text by its numbers.
pub fn written(rows: &[u8], text: &[u8]) -> String {
    let words: Vec<String> = rows.chunks(ROW_BYTES).map(|row| word(row, text)).collect();
    words.join(" ").replace("; ", ";").replace(" ;r", ";r")
}

fn word(row: &[u8], text: &[u8]) -> String {
    let numbers: Vec<usize> = row.chunks_exact(4).map(|n| u32::from_le_bytes(n.try_into().unwrap()) as usize).collect();
    let bytes = match numbers[..] {
        [_, _, start, end] => text.get(start..end),
        _ => None,
    };
    match (numbers.first(), bytes) {
        (Some(0), Some(bytes)) => format!("l{}:{};", numbers[1], escape(bytes)),
        (Some(2), Some(bytes)) => format!(";r{}:{}", numbers[1], escape(bytes)),
        (Some(1), Some(bytes)) => usual_word(numbers[1], bytes),
        _ => format!("{numbers:?} of {} row bytes", row.len()),
    }
}

fn usual_word(kind: usize, bytes: &[u8]) -> String {
    match kind {
        0 if bytes.is_empty() => "EOF".into(),
        1 if bytes == b"\n" => "NL".into(),
        10 if bytes == b";" => ";".into(),
        2..=34 if bytes == USUAL[kind].as_bytes() => USUAL[kind].into(),
        _ => format!("{kind}:{}", escape(bytes)),
    }
}

/// The bytes of rows, and the text that they name.
#[derive(Clone, Default)]
pub struct Packed {
    pub rows: Vec<u8>,
    pub text: Vec<u8>,
}

/// Packs the rows' bytes one after another.
pub fn pack(list: &[Row]) -> Packed {
    let mut packed = Packed::default();
    for row in list {
        let start = packed.text.len();
        packed.text.extend_from_slice(&row.bytes);
        push_row(&mut packed.rows, [row.what, row.kind, start as u32, packed.text.len() as u32]);
    }
    packed
}

/// Packs the rows' bytes in another order: each once, the last row's first, with a byte between them.
pub fn pack_shared(list: &[Row]) -> Packed {
    let mut text = Vec::new();
    let mut starts: HashMap<&[u8], usize> = HashMap::new();
    for row in list.iter().rev() {
        starts.entry(&row.bytes).or_insert_with(|| {
            text.push(b'#');
            text.extend_from_slice(&row.bytes);
            text.len() - row.bytes.len()
        });
    }
    let mut rows = Vec::new();
    for row in list {
        let start = starts[&row.bytes[..]];
        push_row(&mut rows, [row.what, row.kind, start as u32, (start + row.bytes.len()) as u32]);
    }
    Packed { rows, text }
}

pub fn push_row(rows: &mut Vec<u8>, numbers: [u32; 4]) {
    for n in numbers {
        rows.extend_from_slice(&n.to_le_bytes());
    }
}
