//! The walk of format.rs token by token, by its own `push_token`. This is a child of the module that holds format.rs, so it
//! reaches what is private there.
use super::{FormatOptions, Formatter, Token, TokenType};

pub struct Step {
    /// The token's index.
    pub index: usize,
    /// The text's length once the token's leading trivia stands written; of a token that opens no broken group, before it.
    pub leading: usize,
    /// The text's length behind the token.
    pub length: usize,
    /// How many broken groups are open behind the token.
    pub groups: usize,
    /// Whether a comma was put in before the token.
    pub comma: bool,
}

pub fn steps(tokens: &[Token], opts: &FormatOptions) -> Vec<Step> {
    let mut formatter = Formatter::new(*opts);
    let mut steps = Vec::new();
    let mut index = 0;
    while index < tokens.len() {
        let (start, open) = (formatter.out.len(), formatter.break_stack.len());
        let next = formatter.push_token(tokens, index);
        let (length, groups) = (formatter.out.len(), formatter.break_stack.len());
        let leading = if groups > open { leading_length(tokens, opts, index) } else { 0 };
        steps.push(Step {
            index,
            leading: start + leading,
            length,
            groups,
            comma: puts_comma(tokens, opts, index, length),
        });
        index = next;
    }
    steps
}

/// The formatter as it stands before a token.
fn before(tokens: &[Token], opts: &FormatOptions, index: usize) -> Formatter {
    let mut formatter = Formatter::new(*opts);
    let mut at = 0;
    while at < index {
        at = formatter.push_token(tokens, at);
    }
    formatter
}

/// How many bytes a token's leading trivia takes: what an Eof with the same leading trivia writes.
fn leading_length(tokens: &[Token], opts: &FormatOptions, index: usize) -> usize {
    if tokens[index].leading_trivia.is_empty() {
        return 0;
    }
    let mut formatter = before(tokens, opts, index);
    let start = formatter.out.len();
    let eof = Token { token: TokenType::Eof, trailing_trivia: Vec::new(), ..tokens[index].clone() };
    formatter.push_token(&[eof], 0);
    formatter.out.len() - start
}

/// Whether a `]` or `}` got a comma: behind a Comma it gets none, so there it takes one byte less.
fn puts_comma(tokens: &[Token], opts: &FormatOptions, index: usize, length: usize) -> bool {
    if !matches!(tokens[index].token, TokenType::RightBrace | TokenType::RightBracket) {
        return false;
    }
    let mut formatter = before(tokens, opts, index);
    formatter.prev = Some(TokenType::Comma);
    formatter.push_token(tokens, index);
    formatter.out.len() < length
}
