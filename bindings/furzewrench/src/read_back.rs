//! A layout that is read back and compared with its tokens: demand 3, looked at when the program runs.
use crate::{bytes_as_rows, layout, read_pieces, Kind, Layout, Options, Refusal, Row, What};

/// What [`layout_and_read_back`] answers.
#[derive(Clone, Copy, Debug, PartialEq, Eq, Hash)]
pub struct ReadBack {
    /// What [`layout`] answers.
    pub layout: Layout,
    /// How many pieces the text was read back into; 0 where the layout is not plain.
    pub pieces: usize,
    /// The layout is plain, and its text reads back as its tokens. A loader takes such texts alone.
    pub holds: bool,
}

/// Lays out as [`layout`] does and, where the answer bears the plain mark, reads the text back into `pieces`
/// as [`read_pieces`] does and compares them with the tokens.
///
/// `holds` says that the pieces are, byte for byte and in order, the lexemes of all tokens but Newline and
/// Eof, with commas inserted, at most one for each `]` or `}` and directly before it; and that
/// `layout.commas` is the number of these commas (specification, 'What the mark promises'). The library's
/// proof says that it is true of every plain layout that is read back. The comparison knows nothing of that
/// proof: it is a check that a loader can make at each call, of the library as it was compiled and linked.
///
/// Without the mark nothing is read: `pieces` stays as it was, the answer's `pieces` is 0 and `holds` is
/// false.
///
/// Two numbers of `pieces` for each byte of the layout always suffice; so do two for each token but Newline
/// and Eof and two for each comma that the layout inserts, which is at most one for each `]` or `}`.
///
/// # Errors
///
/// The refusals of [`layout`], after which `out` is as that says and `pieces` unchanged. Then
/// [`Refusal::PiecesFull`], where `pieces` is too small or the text has more than 4,294,967,295 bytes: every
/// place of `pieces` is 0, and `out` has the layout, whose length and mark are not told.
/// [`Refusal::Unreadable`] would leave the same; the proof says that it does not come.
///
/// # Example
///
/// ```
/// use furzewrench::{layout_and_read_back, rows_as_bytes, Kind, Options, Row};
///
/// let text = b"x[a]";
/// let rows = [
///     Row::token(Kind::Identifier, 0, 1),
///     Row::token(Kind::LeftBracket, 1, 2),
///     Row::token(Kind::Identifier, 2, 3),
///     Row::token(Kind::RightBracket, 3, 4),
/// ];
/// let (mut out, mut pieces) = ([0; 64], [0; 128]);
/// let read = layout_and_read_back(Options::default(), rows_as_bytes(&rows), text, &mut out, &mut pieces)?;
/// assert!(read.holds);
/// assert_eq!(&out[..read.layout.length], b"x[a]");
/// assert_eq!(&pieces[..2 * read.pieces], [0, 1, 1, 2, 2, 3, 3, 4]);
/// # Ok::<(), furzewrench::Refusal>(())
/// ```
pub fn layout_and_read_back(
    options: Options,
    rows: &[u8],
    text: &[u8],
    out: &mut [u8],
    pieces: &mut [u32],
) -> Result<ReadBack, Refusal> {
    let layout = layout(options, rows, text, out)?;
    let laid = out.get(..layout.length).filter(|_| layout.plain);
    let Some(laid) = laid else {
        return Ok(ReadBack { layout, pieces: 0, holds: false });
    };
    let number = read_pieces(laid, pieces)?;
    let holds = holds((rows, text), laid, pieces, (number, layout.commas));
    Ok(ReadBack { layout, pieces: number, holds })
}

/// Whether the pieces of a text, as many as are claimed, are the lexemes of a list with commas inserted, as
/// many as are claimed.
fn holds(
    (rows, text): (&[u8], &[u8]),
    laid: &[u8],
    pieces: &[u32],
    (number, commas): (usize, usize),
) -> bool {
    let found = pieces.chunks_exact(2).take(number).map(|piece| part(laid, piece[0], piece[1]));
    compare(lexemes(rows, text), found) == Some((number, commas))
}

/// The lexemes of all tokens but Newline and Eof; None for one that does not lie in the text.
fn lexemes<'a>(rows: &'a [u8], text: &'a [u8]) -> impl Iterator<Item = Option<&'a [u8]>> {
    let (rows, _) = bytes_as_rows(rows);
    rows.iter().filter(|row| is_written(row)).map(|row| part(text, row.start(), row.end()))
}

fn is_written(row: &Row) -> bool {
    let ends = [Kind::Eof.number(), Kind::Newline.number()];
    row.what() == What::Token.number() && !ends.contains(&row.kind())
}

fn part(text: &[u8], start: u32, end: u32) -> Option<&[u8]> {
    text.get(start as usize..end as usize)
}

/// Where the pieces are the lexemes with commas inserted: how many pieces, and how many such commas.
///
/// The next lexeme alone tells what a comma is. Before a `]` or `}` that comes next it is an inserted one,
/// since it is not that lexeme; before any other lexeme it is no inserted one, since a `]` or `}` must stand
/// directly after it. So one pass that never goes back finds the one way to match them, where there is one.
fn compare<'a>(
    lexemes: impl Iterator<Item = Option<&'a [u8]>>,
    mut pieces: impl Iterator<Item = Option<&'a [u8]>>,
) -> Option<(usize, usize)> {
    let (mut number, mut commas) = (0, 0);
    for lexeme in lexemes {
        let lexeme = lexeme?;
        let mut piece = pieces.next()??;
        if piece == b"," && matches!(lexeme, b"]" | b"}") {
            commas += 1;
            piece = pieces.next()??;
        }
        if piece != lexeme {
            return None;
        }
        number += 1;
    }
    pieces.next().is_none().then_some((number + commas, commas))
}

#[cfg(test)]
mod tests {
    use super::*;
    use crate::{rows_as_bytes, Trivia};

    fn words(line: &str) -> impl Iterator<Item = Option<&[u8]>> {
        line.split_whitespace().map(|word| Some(word.as_bytes()))
    }

    fn compared(lexemes: &str, pieces: &str) -> Option<(usize, usize)> {
        compare(words(lexemes), words(pieces))
    }

    /// A library that answered otherwise than the proof says would be found out.
    #[test]
    fn what_is_claimed_is_compared() {
        let rows = [
            Row::token(Kind::LeftBracket, 0, 1),
            Row::trailing(Trivia::BlockComment, 3, 4),
            Row::token(Kind::Newline, 3, 4),
            Row::token(Kind::Identifier, 1, 2),
            Row::token(Kind::RightBracket, 2, 3),
            Row::token(Kind::Eof, 3, 4),
        ];
        let list = (rows_as_bytes(&rows), &b"[a]c"[..]);
        let pieces = [0, 1, 1, 2, 2, 3, 3, 4, 0, 1];
        assert!(holds(list, b"[a,]", &pieces, (4, 1)));
        for claimed in [(4, 0), (4, 2), (3, 1), (5, 1), (6, 1), (0, 0), (usize::MAX, usize::MAX)] {
            assert!(!holds(list, b"[a,]", &pieces, claimed), "{claimed:?}");
        }
        assert!(!holds(list, b"[a,]", &pieces[..7], (4, 1)));
        assert!(!holds(list, b"[a,", &pieces, (4, 1)));
        assert!(!holds(list, b"[b,]", &pieces, (4, 1)));
        assert!(!holds((list.0, b"[a"), b"[a,]", &pieces, (4, 1)));
    }

    #[test]
    fn the_pieces_are_the_lexemes() {
        assert_eq!(compared("", ""), Some((0, 0)));
        assert_eq!(compared("a , b }", "a , b }"), Some((4, 0)));
        assert_eq!(compared("a b", "a"), None);
        assert_eq!(compared("a", "a b"), None);
        assert_eq!(compared("a", "b"), None);
        assert_eq!(compared("a b", "b a"), None);
        assert_eq!(compared("ab", "a b"), None);
    }

    #[test]
    fn one_comma_may_be_inserted_directly_before_a_closer() {
        assert_eq!(compared("x [ a ]", "x [ a , ]"), Some((5, 1)));
        assert_eq!(compared("x [ a , ]", "x [ a , , ]"), Some((6, 1)));
        assert_eq!(compared("{ [ ] }", "{ [ , ] , }"), Some((6, 2)));
        assert_eq!(compared("x [ a ]", "x [ a , , ]"), None);
        assert_eq!(compared("x [ a , ]", "x [ a , , , ]"), None);
        assert_eq!(compared("f ( a )", "f ( a , )"), None);
        assert_eq!(compared("a b ]", "a , b ]"), None);
        assert_eq!(compared("x [ a ] b", "x [ a ] , b"), None);
        assert_eq!(compared("x [ a", "x [ a ,"), None);
        assert_eq!(compared("x [ a , ]", "x [ a ]"), None);
        assert_eq!(compared("a ]", "a , }"), None);
        assert_eq!(compared("]", ","), None);
    }

    #[test]
    fn a_lexeme_that_lies_in_no_text_is_no_match() {
        assert_eq!(compare([None].into_iter(), [Some(&b"a"[..])].into_iter()), None);
        assert_eq!(compare([Some(&b"a"[..])].into_iter(), [None].into_iter()), None);
        assert_eq!(part(b"abc", 2, 1), None);
        assert_eq!(part(b"abc", 1, 4), None);
        assert_eq!(part(b"abc", 1, 3), Some(&b"bc"[..]));
    }
}
