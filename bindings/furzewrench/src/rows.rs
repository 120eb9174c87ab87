//! Rows, which are their own bytes.
use crate::{Kind, Trivia, What};

/// A token, or trivia that belongs to one: the four numbers of specification, 'Rows'. Any numbers can stand
/// in it; for those that make no row [`layout`](crate::layout) answers [`BadRow`](crate::Refusal::BadRow).
///
/// A row is its bytes, so [`rows_as_bytes`] and [`bytes_as_rows`] copy nothing. Leading rows come before
/// their token and trailing rows after it.
///
/// ```
/// use furzewrench::{Kind, Row};
///
/// const NAME: Row = Row::token(Kind::Identifier, 0, 3);
/// assert_eq!(NAME, Row::new(1, 22, 0, 3));
/// assert_eq!(format!("{NAME:?}"), "Row { what: 1, kind: 22, start: 0, end: 3 }");
/// ```
#[derive(Clone, Copy, Debug, PartialEq, Eq, Hash)]
#[repr(C, packed)]
pub struct Row {
    /// The number of a [`What`].
    pub what: u32,
    /// The number of a [`Kind`] in a token's row, else of a [`Trivia`].
    pub kind: u32,
    /// The index of its first byte in the text.
    pub start: u32,
    /// The index after its last byte.
    pub end: u32,
}

// A row's bytes are little-endian, as the numbers of the processor that the doors are built for.
#[cfg(target_endian = "big")]
compile_error!("rows are little-endian");

impl Row {
    /// How many bytes a row takes: 16, which is four numbers of 32 bits, little-endian.
    pub const BYTES: usize = size_of::<Row>();

    /// The row of any four numbers.
    pub const fn new(what: u32, kind: u32, start: u32, end: u32) -> Row {
        Row { what, kind, start, end }
    }

    /// A token's row.
    pub const fn token(kind: Kind, start: u32, end: u32) -> Row {
        Row::new(What::Token.number(), kind.number(), start, end)
    }

    /// The row of trivia before a token. A comment is best made one: see the crate's 'Comments'.
    pub const fn leading(trivia: Trivia, start: u32, end: u32) -> Row {
        Row::new(What::Leading.number(), trivia.number(), start, end)
    }

    /// The row of trivia after a token. A comment in one hides what comes after it: see the crate's
    /// 'Comments'.
    pub const fn trailing(trivia: Trivia, start: u32, end: u32) -> Row {
        Row::new(What::Trailing.number(), trivia.number(), start, end)
    }

    /// The four numbers, little-endian.
    pub const fn to_bytes(self) -> [u8; Row::BYTES] {
        let [a, b, c, d] = self.what.to_le_bytes();
        let [e, f, g, h] = self.kind.to_le_bytes();
        let [i, j, k, l] = self.start.to_le_bytes();
        let [m, n, o, p] = self.end.to_le_bytes();
        [a, b, c, d, e, f, g, h, i, j, k, l, m, n, o, p]
    }

    /// The row that these bytes are.
    pub const fn from_bytes(bytes: [u8; Row::BYTES]) -> Row {
        let [a, b, c, d, e, f, g, h, i, j, k, l, m, n, o, p] = bytes;
        let (what, kind) = (u32::from_le_bytes([a, b, c, d]), u32::from_le_bytes([e, f, g, h]));
        let (start, end) = (u32::from_le_bytes([i, j, k, l]), u32::from_le_bytes([m, n, o, p]));
        Row { what, kind, start, end }
    }

    /// The number of a [`What`], as the field.
    pub const fn what(self) -> u32 {
        self.what
    }

    /// The number of a [`Kind`] in a token's row, else of a [`Trivia`], as the field.
    pub const fn kind(self) -> u32 {
        self.kind
    }

    /// The index of its first byte in the text, as the field.
    pub const fn start(self) -> u32 {
        self.start
    }

    /// The index after its last byte, as the field.
    pub const fn end(self) -> u32 {
        self.end
    }
}

/// The bytes of rows, as [`layout`](crate::layout) takes them.
pub const fn rows_as_bytes(rows: &[Row]) -> &[u8] {
    // SAFETY: a Row is packed: it is aligned as bytes are and has no padding, so its memory is as many
    // initialised bytes as it has, for as long as the rows are borrowed.
    unsafe { std::slice::from_raw_parts(rows.as_ptr().cast(), rows.len() * Row::BYTES) }
}

/// The whole rows that these bytes begin with, and the rest, which is shorter than a row.
///
/// ```
/// use furzewrench::{bytes_as_rows, rows_as_bytes, Kind, Row};
///
/// let rows = [Row::token(Kind::Identifier, 0, 3), Row::token(Kind::Semicolon, 3, 4)];
/// let bytes = rows_as_bytes(&rows);
/// assert_eq!(bytes.len(), 2 * Row::BYTES);
/// assert_eq!(bytes_as_rows(&bytes[..Row::BYTES + 5]), (&rows[..1], &bytes[Row::BYTES..][..5]));
/// ```
pub const fn bytes_as_rows(bytes: &[u8]) -> (&[Row], &[u8]) {
    let number = bytes.len() / Row::BYTES;
    let (whole, rest) = bytes.split_at(number * Row::BYTES);
    // SAFETY: a Row is packed: it is aligned as bytes are, and any bytes make one. `whole` has the bytes of
    // `number` rows, for as long as it is borrowed.
    (unsafe { std::slice::from_raw_parts(whole.as_ptr().cast(), number) }, rest)
}

/// A copy of the bytes of rows. [`rows_as_bytes`] copies nothing.
pub fn rows_to_bytes(rows: &[Row]) -> Vec<u8> {
    rows_as_bytes(rows).to_vec()
}

/// A copy of the rows that these bytes are. Up to 15 bytes after the last whole row are passed over.
/// [`bytes_as_rows`] copies nothing.
pub fn rows_from_bytes(bytes: &[u8]) -> Vec<Row> {
    bytes_as_rows(bytes).0.to_vec()
}

#[cfg(test)]
mod tests {
    use super::*;

    #[test]
    fn bytes_are_little_endian_and_come_back() {
        let row = Row { what: 1, kind: 34, start: 0x0403_0201, end: u32::MAX };
        let bytes = row.to_bytes();
        assert_eq!(bytes, [1, 0, 0, 0, 34, 0, 0, 0, 1, 2, 3, 4, 255, 255, 255, 255]);
        assert_eq!(Row::from_bytes(bytes), row);
    }

    #[test]
    fn a_row_is_its_bytes() {
        let rows = [Row::new(1, 34, 0x0403_0201, u32::MAX)];
        let bytes = rows_as_bytes(&rows);
        assert_eq!(bytes, [1, 0, 0, 0, 34, 0, 0, 0, 1, 2, 3, 4, 255, 255, 255, 255]);
        assert_eq!(bytes_as_rows(bytes), (&rows[..], &[][..]));
        let [row] = rows;
        assert_eq!((row.what(), row.kind(), row.start(), row.end()), (1, 34, 0x0403_0201, u32::MAX));
        assert_eq!(row.to_bytes(), [1, 0, 0, 0, 34, 0, 0, 0, 1, 2, 3, 4, 255, 255, 255, 255]);
        assert_eq!(Row::from_bytes(row.to_bytes()), row);
    }

    #[test]
    fn a_rest_is_passed_over() {
        let rows = [Row::token(Kind::Fn, 3, 5), Row::trailing(Trivia::DocComment, 5, 9)];
        let mut bytes = rows_to_bytes(&rows);
        assert_eq!(bytes.len(), 32);
        bytes.extend([7; 15]);
        assert_eq!(rows_from_bytes(&bytes), rows);
    }

    #[test]
    fn each_constructor_has_its_what() {
        assert_eq!(Row::token(Kind::Fn, 3, 5), Row::new(1, 20, 3, 5));
        assert_eq!(Row::leading(Trivia::BlankLine, 5, 5), Row::new(0, 3, 5, 5));
        assert_eq!(Row::trailing(Trivia::DocComment, 5, 9), Row::new(2, 1, 5, 9));
    }

    #[test]
    fn nothing_is_copied_and_a_rest_is_told() {
        let bytes: Vec<u8> = (0..=255).collect();
        for start in 0..20 {
            for end in start..bytes.len() {
                let part = &bytes[start..end];
                let (rows, rest) = bytes_as_rows(part);
                let whole = rows_as_bytes(rows);
                assert_eq!([whole, rest].concat(), part);
                assert_eq!(
                    (whole.as_ptr(), rest.as_ptr_range().end),
                    (part.as_ptr(), part.as_ptr_range().end)
                );
                assert!(rest.len() < Row::BYTES);
            }
        }
    }

    #[test]
    fn no_rows_are_no_bytes() {
        assert_eq!(rows_as_bytes(&[]), []);
        assert_eq!(bytes_as_rows(&[]), (&[][..], &[][..]));
    }
}
