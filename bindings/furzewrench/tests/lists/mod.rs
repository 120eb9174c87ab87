//! Row lists for the tests.
#![allow(dead_code)] // each test uses some of it
use furzewrench::{rows_as_bytes, Kind, Row, Trivia};

/// The bytes of rows, and the text that they name.
pub type List = (Vec<u8>, Vec<u8>);

/// A row by its bytes: a row without indexes, and the bytes that it will name.
pub type Item<'a> = (Row, &'a str);

pub fn token(kind: Kind, lexeme: &str) -> Item<'_> {
    (Row::token(kind, 0, 0), lexeme)
}

pub fn leading(trivia: Trivia, comment: &str) -> Item<'_> {
    (Row::leading(trivia, 0, 0), comment)
}

pub fn trailing(trivia: Trivia, comment: &str) -> Item<'_> {
    (Row::trailing(trivia, 0, 0), comment)
}

pub fn list(items: &[Item]) -> List {
    let (mut rows, mut text) = (Vec::new(), Vec::new());
    for (row, bytes) in items {
        let start = text.len() as u32;
        text.extend(bytes.bytes());
        rows.push(Row::new(row.what(), row.kind(), start, text.len() as u32));
    }
    (rows_as_bytes(&rows).to_vec(), text)
}

pub fn tokens(tokens: &[(Kind, &str)]) -> List {
    let items: Vec<Item> = tokens.iter().map(|&(kind, lexeme)| token(kind, lexeme)).collect();
    list(&items)
}

/// `log(a, b)`, the list of specification, 'Cases'.
pub fn log() -> List {
    use Kind::*;
    tokens(&[
        (Identifier, "log"),
        (LeftParen, "("),
        (Identifier, "a"),
        (Comma, ","),
        (Identifier, "b"),
        (RightParen, ")"),
    ])
}
