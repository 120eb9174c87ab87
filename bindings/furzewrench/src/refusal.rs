//! The refusals, by the table of specification, 'Refusals'.
use std::fmt;

/// Why a call refused, and at which place: the table of specification, 'Refusals', under its names.
#[derive(Clone, Copy, Debug, PartialEq, Eq, Hash)]
pub enum Refusal {
    /// 1: an option is out of bounds. Its position: 0 style, 1 indent width, 2 signature width, 3 list width.
    Option(usize),
    /// 2: the rows are not of [`Row::BYTES`](crate::Row::BYTES) bytes each, or more than 65,535.
    Ragged,
    /// 3: a row has an unknown what or kind, a start above its end, or an end past the text, or is out of
    /// order: the first such row, or the last row where leading rows have no token after them. Of
    /// [`needs_space`](crate::needs_space): a kind is above 34; the position of the first such argument.
    BadRow(usize),
    /// 4: the stack of broken groups would hold a 65th entry. The token's index.
    Deep(usize),
    /// 5: the next byte does not fit the output. The token's index; 0 for the shebang line.
    Full(usize),
    /// 6: the sheet's first line is not `what kind text` with its line feed.
    NoNames,
    /// 7: a line of the sheet breaks its form. The line; the names line is 0.
    BadLine(usize),
    /// 8: the rows or the text of a sheet do not fit, or an index is above 4,294,967,295. The line.
    SheetFull(usize),
    /// 9: a byte of no class, or an opening quote that is never closed. Its index.
    Unreadable(usize),
    /// 10: the next piece does not fit, or its end is above 4,294,967,295. Its start.
    PiecesFull(usize),
    /// 11: the report is not of 24 bytes. The calls of this crate lend one of 24, so they never answer this.
    Report,
    /// A number above 11, which only a later version of the library returns.
    Unknown {
        /// The refusal's number.
        number: u32,
        /// Its place.
        place: usize,
    },
}

impl Refusal {
    /// The refusal of this number, which is not 0, at a place.
    pub(crate) fn new(number: u32, place: usize) -> Refusal {
        match number {
            1 => Refusal::Option(place),
            2 => Refusal::Ragged,
            3 => Refusal::BadRow(place),
            4 => Refusal::Deep(place),
            5 => Refusal::Full(place),
            6 => Refusal::NoNames,
            7 => Refusal::BadLine(place),
            8 => Refusal::SheetFull(place),
            9 => Refusal::Unreadable(place),
            10 => Refusal::PiecesFull(place),
            11 => Refusal::Report,
            _ => Refusal::Unknown { number, place },
        }
    }

    /// Its number in the table.
    pub fn number(self) -> u32 {
        self.entry().0
    }

    /// Its name in the table.
    pub fn name(self) -> &'static str {
        self.entry().1
    }

    /// Where it was met: an index as the variant says, or 0.
    pub fn place(self) -> usize {
        self.entry().2
    }

    fn entry(self) -> (u32, &'static str, usize) {
        match self {
            Refusal::Option(place) => (1, "option", place),
            Refusal::Ragged => (2, "ragged", 0),
            Refusal::BadRow(place) => (3, "bad row", place),
            Refusal::Deep(place) => (4, "deep", place),
            Refusal::Full(place) => (5, "full", place),
            Refusal::NoNames => (6, "no names", 0),
            Refusal::BadLine(place) => (7, "bad line", place),
            Refusal::SheetFull(place) => (8, "sheet full", place),
            Refusal::Unreadable(place) => (9, "unreadable", place),
            Refusal::PiecesFull(place) => (10, "pieces full", place),
            Refusal::Report => (11, "report", 0),
            Refusal::Unknown { number, place } => (number, "unknown", place),
        }
    }
}

impl fmt::Display for Refusal {
    fn fmt(&self, f: &mut fmt::Formatter<'_>) -> fmt::Result {
        let (number, name, place) = self.entry();
        write!(f, "refusal {number}, {name}, place {place}")
    }
}

impl std::error::Error for Refusal {}

#[cfg(test)]
mod tests {
    use super::*;

    #[test]
    fn numbers_and_places_come_back() {
        for number in 1..=20 {
            let has_place = !matches!(number, 2 | 6 | 11);
            let refusal = Refusal::new(number, 7);
            assert_eq!(refusal.number(), number);
            assert_eq!(refusal.place(), if has_place { 7 } else { 0 });
            assert_eq!(matches!(refusal, Refusal::Unknown { .. }), number > 11);
        }
    }

    #[test]
    fn it_is_an_error_with_its_name() {
        let error: Box<dyn std::error::Error> = Box::new(Refusal::BadRow(5));
        assert_eq!(error.to_string(), "refusal 3, bad row, place 5");
    }
}
