//! A small lexer for an rl-like language. It makes rows as the crate's documentation advises, has them laid
//! out, and prints the layout, whether it is plain and reads back, and, where it is, the index of its pieces.
//!
//!     cargo run --example lexer -- examples/sample.rl
//!
//! The source is the file that is named, else standard input. Its words, numbers, quotes and operators are
//! those of ASCII; other bytes stand in quotes and comments alone.
use furzewrench::{layout_and_read_back, rows_as_bytes, Kind, Options, ReadBack, Refusal, Row, Trivia};
use std::io::{self, Read, Write};
use std::{env, fs, process};

/// The most bytes of text that a layout may have here.
const LIMIT: usize = 1 << 24;

fn main() {
    let printed = source().map_err(|error| error.to_string()).and_then(|source| {
        let laid = lay_out(&lex(&source)?, &source).map_err(|refusal| refusal.to_string())?;
        print(&laid, &mut io::stdout().lock()).map_err(|error| error.to_string())
    });
    if let Err(message) = printed {
        eprintln!("{message}");
        process::exit(1);
    }
}

fn source() -> io::Result<Vec<u8>> {
    match env::args_os().nth(1) {
        Some(file) => fs::read(file),
        None => {
            let mut source = Vec::new();
            io::stdin().read_to_end(&mut source).map(|_| source)
        }
    }
}

fn print(laid: &Laid, to: &mut impl Write) -> io::Result<()> {
    to.write_all(&laid.text)?;
    if laid.text.last().is_some_and(|&byte| byte != b'\n') {
        writeln!(to)?;
    }
    writeln!(to, "plain: {}, reads back: {}", laid.answer.layout.plain, laid.answer.holds)?;
    for (number, piece) in laid.pieces.chunks_exact(2).enumerate() {
        let bytes = String::from_utf8_lossy(&laid.text[piece[0] as usize..piece[1] as usize]);
        writeln!(to, "{number} {} {} {}", piece[0], piece[1], bytes.replace('\n', "\\n"))?;
    }
    Ok(())
}

// ---- layout

struct Laid {
    answer: ReadBack,
    text: Vec<u8>,
    pieces: Vec<u32>,
}

/// Lends more until the layout fits. Two numbers for each byte of the output suffice for its pieces.
fn lay_out(rows: &[Row], source: &[u8]) -> Result<Laid, Refusal> {
    let mut text = vec![0; 64];
    let mut pieces = vec![0; 2 * text.len()];
    loop {
        let rows = rows_as_bytes(rows);
        match layout_and_read_back(Options::default(), rows, source, &mut text, &mut pieces) {
            Err(Refusal::Full(_)) if text.len() < LIMIT => {
                text.resize(2 * text.len(), 0);
                pieces.resize(2 * text.len(), 0);
            }
            Err(refusal) => return Err(refusal),
            Ok(answer) => {
                text.truncate(answer.layout.length);
                pieces.truncate(2 * answer.pieces);
                return Ok(Laid { answer, text, pieces });
            }
        }
    }
}

// ---- rows

/// The rows of a source.
///
/// A comment is a leading row of the next token that is no Newline, which at the file's end is Eof: a
/// trailing row would hide what comes after it. It ends its own line, so a line of comments alone has no
/// Newline. A blank line is two Newlines in a row and not trivia, so it does not cost the plain mark.
fn lex(source: &[u8]) -> Result<Vec<Row>, String> {
    if source.len() > u32::MAX as usize {
        return Err("the source is longer than an index of a row can say".to_string());
    }
    let mut lexer = Lexer { source, rows: Vec::new(), comments: Vec::new(), line: Line::Empty };
    let mut at = 0;
    while at < source.len() {
        at = lexer.next(at).ok_or_else(|| format!("byte {at} begins nothing"))?;
    }
    lexer.token(Kind::Eof, at, at);
    Ok(lexer.rows)
}

struct Lexer<'a> {
    source: &'a [u8],
    rows: Vec<Row>,
    /// The comments that wait for their token.
    comments: Vec<Row>,
    line: Line,
}

/// What the line has had so far.
#[derive(PartialEq)]
enum Line {
    Empty,
    Comments,
    Tokens,
}

impl Lexer<'_> {
    /// Reads what begins at an index and answers where it ends, or None where nothing begins there.
    fn next(&mut self, at: usize) -> Option<usize> {
        let rest = &self.source[at..];
        match rest[0] {
            b' ' | b'\t' | b'\r' => Some(at + 1),
            b'\n' => Some(self.line_end(at)),
            b'/' if rest.starts_with(b"//") => Some(self.line_comment(at)),
            b'/' if rest.starts_with(b"/*") => self.block_comment(at),
            _ => {
                let (kind, length) = token(rest)?;
                self.line = Line::Tokens;
                Some(self.token(kind, at, at + length))
            }
        }
    }

    fn line_end(&mut self, at: usize) -> usize {
        if self.line != Line::Comments {
            self.rows.push(row(Row::token, Kind::Newline, at, at + 1));
        }
        self.line = Line::Empty;
        at + 1
    }

    fn line_comment(&mut self, at: usize) -> usize {
        let length = self.source[at..].iter().take_while(|&&byte| byte != b'\n').count();
        let is_doc = self.source[at..].starts_with(b"///");
        let (trivia, mark) = if is_doc { (Trivia::DocComment, 3) } else { (Trivia::LineComment, 2) };
        self.comment(trivia, at + mark, at + length);
        at + length
    }

    fn block_comment(&mut self, at: usize) -> Option<usize> {
        let inside = at + 2;
        let length = self.source[inside..].windows(2).position(|mark| mark == b"*/")?;
        self.comment(Trivia::BlockComment, inside, inside + length);
        Some(inside + length + 2)
    }

    /// Keeps a comment for the next token, without the spaces around its text: the layout writes its own.
    fn comment(&mut self, trivia: Trivia, start: usize, end: usize) {
        let text = &self.source[start..end];
        let start = start + (text.len() - text.trim_ascii_start().len());
        self.comments.push(row(Row::leading, trivia, start, start + text.trim_ascii().len()));
        if self.line == Line::Empty {
            self.line = Line::Comments;
        }
    }

    /// A token that is no Newline, after the comments that wait for it; answers where it ends.
    fn token(&mut self, kind: Kind, start: usize, end: usize) -> usize {
        self.rows.append(&mut self.comments);
        self.rows.push(row(Row::token, kind, start, end));
        end
    }
}

/// A row of indexes that fit: `lex` looked at the source's length.
fn row<K>(make: fn(K, u32, u32) -> Row, kind: K, start: usize, end: usize) -> Row {
    make(kind, start as u32, end as u32)
}

// ---- tokens

/// The token that the bytes begin with, and its length.
fn token(rest: &[u8]) -> Option<(Kind, usize)> {
    match rest[0] {
        b'"' => quoted(rest).map(|length| (Kind::StringLiteral, length)),
        b'\'' => quoted(rest).map(|length| (Kind::CharacterLiteral, length)),
        b'0'..=b'9' => Some(number(rest)),
        byte if is_word(byte) => {
            let length = words(rest);
            Some((word(&rest[..length]), length))
        }
        _ => operator(rest),
    }
}

/// How long a quote is, to the next equal one; a backslash takes the byte after it along.
fn quoted(rest: &[u8]) -> Option<usize> {
    let mut at = 1;
    while *rest.get(at)? != rest[0] {
        at += if rest[at] == b'\\' { 2 } else { 1 };
    }
    Some(at + 1)
}

/// A number takes a dot along where a digit follows it.
fn number(rest: &[u8]) -> (Kind, usize) {
    let length = words(rest);
    match rest[length..] {
        [b'.', b'0'..=b'9', ..] => (Kind::FloatLiteral, length + 1 + words(&rest[length + 1..])),
        _ => (Kind::NumberLiteral, length),
    }
}

fn words(rest: &[u8]) -> usize {
    rest.iter().take_while(|&&byte| is_word(byte)).count()
}

fn is_word(byte: u8) -> bool {
    byte.is_ascii_alphanumeric() || byte == b'_'
}

/// Words that are no names but have no kind of their own are among all others.
fn word(word: &[u8]) -> Kind {
    match word {
        b"else" => Kind::Else,
        b"fn" => Kind::Fn,
        b"record" => Kind::Record,
        b"true" | b"false" => Kind::BoolLiteral,
        b"null" => Kind::Null,
        b"arr" => Kind::Array,
        b"map" => Kind::Map,
        b"set" => Kind::Set,
        b"result" => Kind::Result,
        b"let" | b"if" | b"for" | b"in" | b"while" | b"return" => Kind::Other,
        _ => Kind::Identifier,
    }
}

/// An operator of two bytes that has no kind of its own, then the longest that a kind asks for, then any
/// other of one byte.
fn operator(rest: &[u8]) -> Option<(Kind, usize)> {
    const OTHERS: [&[u8]; 8] = [b"->", b"==", b"!=", b"<=", b">=", b"&&", b"||", b"+="];
    if OTHERS.iter().any(|operator| rest.starts_with(operator)) {
        return Some((Kind::Other, 2));
    }
    let length =
        |kind: Kind| kind.lexeme().filter(|lexeme| rest.starts_with(lexeme.as_bytes())).map(str::len);
    let kinds = (0..35).filter_map(Kind::from_number);
    match kinds.filter_map(|kind| Some((kind, length(kind)?))).max_by_key(|&(_, length)| length) {
        Some(longest) => Some(longest),
        None => b"+*/%=<>&|^~@$".contains(&rest[0]).then_some((Kind::Other, 1)),
    }
}

#[cfg(test)]
mod tests {
    use super::*;
    use furzewrench::What;

    const SAMPLE: &[u8] = include_bytes!("sample.rl");
    const COMMENTED: &[u8] = include_bytes!("commented.rl");

    type Part = (u32, Vec<u8>);

    /// The tokens but Newline and Eof, and the comments: their kinds and bytes.
    fn parts(source: &[u8]) -> (Vec<Part>, Vec<Part>) {
        let rows = lex(source).expect("rows");
        let part = |row: &Row| (row.kind(), source[row.start() as usize..row.end() as usize].to_vec());
        let (tokens, comments) =
            rows.iter().partition::<Vec<Row>, _>(|row| row.what() == What::Token.number());
        (tokens.iter().filter(|row| row.kind() > 1).map(part).collect(), comments.iter().map(part).collect())
    }

    /// Without the commas directly before a `]` or `}`.
    fn struck(tokens: &[Part]) -> Vec<&Part> {
        let mut struck: Vec<&Part> = Vec::new();
        for token in tokens {
            let closes = [b"]", b"}"].iter().any(|closer| token.1 == *closer);
            while closes && struck.last().is_some_and(|last| last.1 == b",") {
                struck.pop();
            }
            struck.push(token);
        }
        struck
    }

    /// A lexer that reads the layout again finds every token and every comment: no mark hides one.
    fn assert_nothing_is_lost(source: &[u8]) -> Laid {
        let laid = lay_out(&lex(source).expect("rows"), source).expect("a layout");
        let shown = String::from_utf8_lossy(&laid.text);
        let ((tokens, comments), (tokens_again, comments_again)) = (parts(source), parts(&laid.text));
        assert_eq!(struck(&tokens), struck(&tokens_again), "{shown}");
        assert_eq!(tokens.len() + laid.answer.layout.commas, tokens_again.len(), "{shown}");
        assert_eq!(comments, comments_again, "{shown}");
        laid
    }

    #[test]
    fn the_sample_is_plain_and_holds() {
        let laid = assert_nothing_is_lost(SAMPLE);
        assert!(laid.answer.layout.plain && laid.answer.holds);
        assert_eq!(laid.answer.pieces, parts(SAMPLE).0.len() + laid.answer.layout.commas);
    }

    #[test]
    fn the_commented_source_loses_nothing() {
        let laid = assert_nothing_is_lost(COMMENTED);
        assert!(!laid.answer.layout.plain && laid.pieces.is_empty());
        assert_eq!(parts(COMMENTED).1.len(), 18);
    }

    #[test]
    fn a_comment_before_any_token_loses_nothing() {
        let rows = lex(SAMPLE).expect("rows");
        for comment in ["// c\n", "/// c\n", "/* c */", "/* c\n c */ // d\n"] {
            for at in rows.iter().map(|row| row.start() as usize) {
                let source = [&SAMPLE[..at], comment.as_bytes(), &SAMPLE[at..]].concat();
                assert!(!assert_nothing_is_lost(&source).answer.layout.plain);
            }
        }
    }

    #[test]
    fn comments_lead_the_next_token_that_is_no_newline() {
        let rows = lex(b"x // c\n\ny\n// d\n").expect("rows");
        let expected = [
            Row::token(Kind::Identifier, 0, 1),
            Row::token(Kind::Newline, 6, 7),
            Row::token(Kind::Newline, 7, 8),
            Row::leading(Trivia::LineComment, 5, 6),
            Row::token(Kind::Identifier, 8, 9),
            Row::token(Kind::Newline, 9, 10),
            Row::leading(Trivia::LineComment, 13, 14),
            Row::token(Kind::Eof, 15, 15),
        ];
        assert_eq!(rows, expected);
    }

    #[test]
    fn each_token_has_its_kind() {
        let asked = (0..35).filter_map(Kind::from_number).filter_map(|kind| Some((kind.lexeme()?, kind)));
        let others = [
            ("fn", Kind::Fn),
            ("record", Kind::Record),
            ("fn_1", Kind::Identifier),
            ("1x", Kind::NumberLiteral),
            ("\"s\\\"\"", Kind::StringLiteral),
            ("'c'", Kind::CharacterLiteral),
            ("1.5", Kind::FloatLiteral),
            ("false", Kind::BoolLiteral),
            ("null", Kind::Null),
            ("result", Kind::Result),
            ("->", Kind::Other),
            ("<", Kind::Other),
        ];
        for (source, kind) in asked.chain(others) {
            assert_eq!(parts(source.as_bytes()).0, [(kind.number(), source.into())]);
        }
        let range: Vec<u32> = parts(b"1..x.y").0.iter().map(|part| part.0).collect();
        assert_eq!(range, [23, 13, 22, 12, 22]);
    }

    #[test]
    fn what_begins_nothing_is_named() {
        let cases: [(&[u8], usize); 5] =
            [(b"a \x00", 2), (b"a 'b", 2), (b"\"\\", 0), (b"a /* b *", 2), (b"\xc3\xa9", 0)];
        for (source, at) in cases {
            assert_eq!(lex(source), Err(format!("byte {at} begins nothing")));
        }
    }
}
