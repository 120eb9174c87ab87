//! The layout of rl source text: token rows in, text out.
//!
//! These are safe calls of the five C doors of the repository's static library, in which every function is
//! proved to meet its contract. docs/SPECIFICATION.md decides what they answer, and is cited here by its
//! sections, as: specification, 'Rows'. No call panics, and none allocates but [`rows_to_bytes`] and
//! [`rows_from_bytes`]: the caller lends all memory, and each answer is the complete result or one
//! [`Refusal`] with its place.
//!
//! # How to use it
//!
//! A package of your workspace names this crate by its path:
//!
//! ```toml
//! [dependencies]
//! furzewrench = { path = "<the repository>/bindings/furzewrench" }
//! ```
//!
//! The build script looks for `libdoors.a`, the static library, which is for Linux on x86-64:
//!
//! 1. in the folder that the environment variable `FURZEWRENCH_LIB_DIR` names, by an absolute path; where
//!    that is not set,
//! 2. in the repository's `target/staticlib`, where `tools/build.sh doors` proves the library and writes it;
//!    and then
//! 3. in `lib` of a release archive, which has this crate as `rust/furzewrench`.
//!
//! `examples/lexer.rs` is a small lexer that makes rows, lays them out and reads the text back.
//!
//! # Example
//!
//! A sheet of tokens is read, laid out, and the text read back into pieces.
//!
//! ```
//! use furzewrench::{layout, read_pieces, read_sheet, Options, Row};
//!
//! let sheet = b"what kind text\nT 22 log\nT 4 (\nT 22 a\nT 8 ,\nT 22 b\nT 5 )\n";
//! let (mut rows, mut text) = ([0; 128], [0; 64]);
//! let read = read_sheet(sheet, &mut rows, &mut text)?;
//! let (rows, text) = (&rows[..Row::BYTES * read.rows], &text[..read.text_bytes]);
//!
//! let mut out = [0; 64];
//! let laid = layout(Options::default(), rows, text, &mut out)?;
//! let out = &out[..laid.length];
//! assert_eq!(out, b"log(a, b)");
//!
//! let mut pieces = [0; 12];
//! assert!(laid.plain);
//! assert_eq!(read_pieces(out, &mut pieces)?, read.rows + laid.commas);
//! assert_eq!(pieces, [0, 3, 3, 4, 4, 5, 5, 6, 7, 8, 8, 9]);
//! # Ok::<(), furzewrench::Refusal>(())
//! ```
//!
//! # Texts that a loader takes
//!
//! A loader takes plain texts alone: those whose answer has [`plain`](Layout::plain) true. They read back as
//! the tokens that were laid out (specification, 'What the mark promises'). `plain: false` promises nothing,
//! and is no refusal: the text may have lost tokens. [`layout_and_read_back`] also looks whether the promise
//! holds of the text that it returns.
//!
//! # Comments
//!
//! Make a comment a **leading** row of the next token that is no Newline, or of Eof at the file's end. As a
//! trailing row it hides what comes after it, since no line feed ends it:
//!
//! ```
//! use furzewrench::{layout, rows_as_bytes, Kind, Options, Row, Trivia};
//!
//! let text = b"xwhyy";
//! let (x, y) = (Row::token(Kind::Identifier, 0, 1), Row::token(Kind::Identifier, 4, 5));
//! let mut out = [0; 64];
//!
//! let trap = [x, Row::trailing(Trivia::LineComment, 1, 4), y];
//! let laid = layout(Options::default(), rows_as_bytes(&trap), text, &mut out)?;
//! assert_eq!(&out[..laid.length], b"x// why y"); // y is gone, without a refusal
//! assert!(!laid.plain);
//!
//! let line_end = Row::token(Kind::Newline, 1, 1);
//! let advice = [x, line_end, Row::leading(Trivia::LineComment, 1, 4), y];
//! let laid = layout(Options::default(), rows_as_bytes(&advice), text, &mut out)?;
//! assert_eq!(&out[..laid.length], b"x\n// why\ny");
//! assert!(!laid.plain);
//! # Ok::<(), furzewrench::Refusal>(())
//! ```
//!
//! A list with any comment, or any other trivia row, never bears the plain mark, wherever the comment is put.
//! So a file with comments is for people; what a loader is to take is laid out without them.
//!
//! What a trivia row with the bytes `c` writes (specification, 'Comments'):
//!
//! | kind | leading | trailing |
//! |---|---|---|
//! | [`LineComment`](Trivia::LineComment) | gap, `// c`, line feed | `// c` |
//! | [`DocComment`](Trivia::DocComment) | gap, `/// c`, line feed | `/// c` |
//! | [`BlockComment`](Trivia::BlockComment) | gap, `/* c */`, line feed | `/*c*/` |
//! | [`BlankLine`](Trivia::BlankLine) | line feed, but in a record nothing | nothing |
//!
//! - The gap is the indent at the start of a line, and one space elsewhere.
//! - A comment does not change whether the walk is at the start of a line. So the token after a leading
//!   comment gets the gap that it would have without the comment: the indent after a comment that began a
//!   line, else a space, or none, though it now begins a line. A leading BlankLine has the indent written
//!   next, in a record too.
//! - A trailing comment has no gap before it, neither space nor indent, and no line feed after it.
//! - The bytes `c` are written as they are: a line feed in a LineComment, or `*/` in a BlockComment, ends it.
//! - Some rows are not written: the trailing rows of the `)` or `]` that ends a broken list, and of the `)`
//!   that ends a broken signature; and where a `}` directly follows a record's `{`, the trailing rows of that
//!   `{` and all rows of that `}`.
//!
//! A blank line needs no trivia: outside a record two Newline tokens in a row write one, and the list can be
//! plain.
//!
//! # How much to lend
//!
//! The length of a layout is known when it is done. After [`Refusal::Full`] lend more and call again, up to a
//! limit of your own: deep nests are indented, so that 2,000 opening braces ask for 8,000,000 bytes.
//!
//! ```
//! use furzewrench::{layout, Layout, Options, Refusal};
//!
//! const LIMIT: usize = 1 << 24;
//!
//! fn grown(rows: &[u8], text: &[u8]) -> Result<(Layout, Vec<u8>), Refusal> {
//!     let mut out = vec![0; 64];
//!     loop {
//!         match layout(Options::default(), rows, text, &mut out) {
//!             Err(Refusal::Full(_)) if out.len() < LIMIT => out.resize(2 * out.len(), 0),
//!             Err(refusal) => return Err(refusal),
//!             Ok(laid) => {
//!                 out.truncate(laid.length);
//!                 return Ok((laid, out));
//!             }
//!         }
//!     }
//! }
//! # use furzewrench::{rows_as_bytes, Kind, Row};
//! # let name = [Row::token(Kind::Identifier, 0, 1)].repeat(1_000);
//! # let (laid, out) = grown(rows_as_bytes(&name), b"a")?;
//! # assert_eq!((laid.length, &out[..]), (1_999, &b"a ".repeat(1_000)[..1_999]));
//! # let long = vec![7; LIMIT + 1];
//! # let end = long.len() as u32;
//! # let refusal = grown(rows_as_bytes(&[Row::token(Kind::Identifier, 0, end)]), &long);
//! # assert_eq!(refusal, Err(Refusal::Full(0)));
//! # Ok::<(), furzewrench::Refusal>(())
//! ```
//!
//! For the pieces of a text two numbers for each of its bytes always suffice: `vec![0; 2 * laid.length]`. For
//! a sheet of `n` bytes `n / 5` rows of [`Row::BYTES`] and `n` bytes of text do, since a row's line has 5
//! bytes at least.
//!
//! # Lent memory after a call
//!
//! On success the result stands first, and what lies past it is unchanged. After [`Refusal::Deep`],
//! [`Refusal::Full`], [`Refusal::BadLine`], [`Refusal::SheetFull`], [`Refusal::Unreadable`] and
//! [`Refusal::PiecesFull`] every place of the slices lent for change is 0; after the others they are
//! unchanged. [`layout_and_read_back`], which is two calls of a door, says itself what it leaves.
//!
//! # Threads, stack and time
//!
//! - Calls share nothing but what they are lent: the library has no data that can be written, no heap and no
//!   lock. So any number of threads can call at once.
//! - Nothing recurses. Plan with 8 KiB of stack for a call.
//! - A layout takes 5 to 15 ns a token on usual lists, and reading takes time in proportion to the bytes. The
//!   worst layouts take time with the square of the rows: the worst that was found, of 65,535 rows, takes 5 s
//!   by the default options and 14 s by the widest.
//!
//! The numbers were measured, and are not proved; include/furzewrench.h tells more of them.
#![deny(unsafe_op_in_unsafe_fn, missing_docs)]

mod doors;
mod numbers;
mod read_back;
mod refusal;
mod rows;

pub use numbers::{Kind, Style, Trivia, What};
pub use read_back::{layout_and_read_back, ReadBack};
pub use refusal::Refusal;
pub use rows::{bytes_as_rows, rows_as_bytes, rows_from_bytes, rows_to_bytes, Row};

/// How a layout is to look (specification, 'Options'). Each is a number, as the door takes it: one that is
/// out of bounds is [`Refusal::Option`].
///
/// ```
/// use furzewrench::{Options, Style};
///
/// let narrow = Options { list_width: 20, ..Options::default() };
/// assert_eq!(narrow.style, Style::Allman.number());
/// ```
#[derive(Clone, Copy, Debug, PartialEq, Eq, Hash)]
pub struct Options {
    /// The number of a [`Style`]; option 0.
    pub style: u32,
    /// Spaces for each level of indent, at most 16; option 1.
    pub indent_width: u32,
    /// A wider signature breaks; at most 65,535; option 2.
    pub signature_width: u32,
    /// A wider list that has a comma breaks; at most 65,535; option 3.
    pub list_width: u32,
}

impl Default for Options {
    /// Allman, 4, 40, 40.
    fn default() -> Options {
        Options { style: Style::Allman.number(), indent_width: 4, signature_width: 40, list_width: 40 }
    }
}

/// What a layout answers.
#[derive(Clone, Copy, Debug, PartialEq, Eq, Hash)]
pub struct Layout {
    /// The text's length; it is the output's first bytes.
    pub length: usize,
    /// How many commas the layout inserted.
    pub commas: usize,
    /// The plain mark (specification, 'The plain mark'). Where true, the text, if it has at most
    /// 4,294,967,295 bytes, reads back as the lexemes of all tokens but Newline and Eof, with the inserted
    /// commas. Where false, nothing is promised: the text may have lost tokens.
    pub plain: bool,
}

/// What the sheet reader answers.
#[derive(Clone, Copy, Debug, PartialEq, Eq, Hash)]
pub struct Sheet {
    /// How many rows it wrote, of [`Row::BYTES`] bytes each.
    pub rows: usize,
    /// How many bytes of text it wrote.
    pub text_bytes: usize,
}

/// Lays out the tokens that `rows` name in `text`.
///
/// `rows` has [`Row::BYTES`] bytes for each [`Row`], at most 65,535 of them; `text` has the lexemes and the
/// comments. The bytes of rows are [`rows_as_bytes`]. How the text comes about: specification, 'The walk'.
///
/// # Errors
///
/// [`Refusal::Option`], [`Refusal::Ragged`] and [`Refusal::BadRow`], in that order, before anything is
/// written; then [`Refusal::Deep`] or [`Refusal::Full`], whichever the walk meets first.
///
/// # Example
///
/// ```
/// use furzewrench::{layout, rows_as_bytes, Kind, Layout, Options, Row};
///
/// let text = b"log(a,b)";
/// let rows = [
///     Row::token(Kind::Identifier, 0, 3),
///     Row::token(Kind::LeftParen, 3, 4),
///     Row::token(Kind::Identifier, 4, 5),
///     Row::token(Kind::Comma, 5, 6),
///     Row::token(Kind::Identifier, 6, 7),
///     Row::token(Kind::RightParen, 7, 8),
/// ];
/// let mut out = [0; 64];
/// let laid = layout(Options::default(), rows_as_bytes(&rows), text, &mut out)?;
/// assert_eq!(laid, Layout { length: 9, commas: 0, plain: true });
/// assert_eq!(&out[..laid.length], b"log(a, b)");
/// # Ok::<(), furzewrench::Refusal>(())
/// ```
pub fn layout(options: Options, rows: &[u8], text: &[u8], out: &mut [u8]) -> Result<Layout, Refusal> {
    doors::layout(options, rows, text, out).map(laid)
}

/// Lays out with the default options, after the shebang line of `source` where it has one (specification,
/// 'The shebang wrapper').
///
/// Where the first line of `source` begins `#!` and not `#![`, that line and a line feed come first. They
/// count in the length, and `plain` is false. Nothing else of `source` is read: the tokens come from `rows`
/// and `text`, as in [`layout`].
///
/// # Errors
///
/// As [`layout`], but for [`Refusal::Option`]. A shebang line that does not fit `out` is [`Refusal::Full`] at
/// 0.
///
/// # Example
///
/// ```
/// use furzewrench::{layout_source, rows_as_bytes, Kind, Layout, Row};
///
/// let source = b"#!/usr/bin/rl\nstop ;\n";
/// let rows = [Row::token(Kind::Identifier, 14, 18), Row::token(Kind::Semicolon, 19, 20)];
/// let mut out = [0; 64];
/// let laid = layout_source(source, rows_as_bytes(&rows), source, &mut out)?;
/// assert_eq!(laid, Layout { length: 19, commas: 0, plain: false });
/// assert_eq!(&out[..laid.length], b"#!/usr/bin/rl\nstop;");
/// # Ok::<(), furzewrench::Refusal>(())
/// ```
pub fn layout_source(source: &[u8], rows: &[u8], text: &[u8], out: &mut [u8]) -> Result<Layout, Refusal> {
    doors::layout_source(source, rows, text, out).map(laid)
}

/// Reads a sheet into the bytes of its rows and the text that they name (specification, 'The sheet').
///
/// A sheet is the line `what kind text` and then one line for each row: `L`, `T` or `R`, the kind's number,
/// and the text, in which `\n` stands for a line feed and `\\` for a backslash. Every line ends in a line
/// feed. The rows are [`bytes_as_rows`] of the bytes written.
///
/// # Errors
///
/// [`Refusal::NoNames`], [`Refusal::BadLine`], [`Refusal::SheetFull`].
///
/// # Example
///
/// ```
/// use furzewrench::{bytes_as_rows, read_sheet, Kind, Row, Sheet, Trivia};
///
/// let (mut rows, mut text) = ([0; 64], [0; 64]);
/// let read = read_sheet(b"what kind text\nL 0 why\nT 22 log\n", &mut rows, &mut text)?;
/// assert_eq!(read, Sheet { rows: 2, text_bytes: 6 });
/// assert_eq!(&text[..read.text_bytes], b"whylog");
/// let (rows, _) = bytes_as_rows(&rows[..Row::BYTES * read.rows]);
/// assert_eq!(rows, [Row::leading(Trivia::LineComment, 0, 3), Row::token(Kind::Identifier, 3, 6)]);
/// # Ok::<(), furzewrench::Refusal>(())
/// ```
pub fn read_sheet(sheet: &[u8], rows: &mut [u8], text: &mut [u8]) -> Result<Sheet, Refusal> {
    let [rows, text_bytes, _] = doors::read_sheet(sheet, rows, text)?;
    Ok(Sheet { rows, text_bytes })
}

/// Reads a text back into pieces and answers their number (specification, 'Reading back').
///
/// Two numbers of `pieces` are needed for each: where it starts in `text`, and where it ends, end not
/// included. Two for each byte of `text` always suffice.
///
/// # Errors
///
/// [`Refusal::Unreadable`], [`Refusal::PiecesFull`], in text order.
///
/// # Example
///
/// ```
/// use furzewrench::read_pieces;
///
/// let mut pieces = [0; 8];
/// assert_eq!(read_pieces(b"x: 1.5,", &mut pieces)?, 4);
/// assert_eq!(pieces, [0, 1, 1, 2, 3, 6, 6, 7]);
/// # Ok::<(), furzewrench::Refusal>(())
/// ```
pub fn read_pieces(text: &[u8], pieces: &mut [u32]) -> Result<usize, Refusal> {
    let [number, _, _] = doors::read_pieces(text, pieces)?;
    Ok(number)
}

/// Whether a space is needed between two tokens, by the numbers of their kinds (specification, 'Spaces').
///
/// # Errors
///
/// [`Refusal::BadRow`] at 0 or 1, for the first of the two that is above 34.
///
/// # Example
///
/// ```
/// use furzewrench::{needs_space, Kind};
///
/// assert_eq!(needs_space(Kind::Comma.number(), Kind::Identifier.number()), Ok(true));
/// assert_eq!(needs_space(Kind::Identifier.number(), Kind::LeftParen.number()), Ok(false));
/// ```
pub fn needs_space(first: u32, second: u32) -> Result<bool, Refusal> {
    let [needed, _, _] = doors::needs_space(first, second)?;
    Ok(needed == 1)
}

fn laid([length, commas, plain]: [usize; 3]) -> Layout {
    Layout { length, commas, plain: plain == 1 }
}
