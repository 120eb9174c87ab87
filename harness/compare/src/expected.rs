//! What a layout call must answer and write: the Rust's walk, and the model's refusals and plain mark.
use crate::doors::{refuse, success, Answer, Options};
use crate::model;
use crate::rust_side::{self, Tokens, Walk};

/// A list, as the model and the Rust see it.
pub struct List<'a> {
    pub rows: &'a [u8],
    pub text: &'a [u8],
    tokens: Result<Vec<model::Token<'a>>, Answer>,
    rust: Tokens,
    plain: bool,
}

impl<'a> List<'a> {
    pub fn new(rows: &'a [u8], text: &'a [u8]) -> Self {
        let tokens = model::tokens(rows, text);
        let good: &[model::Token] = tokens.as_deref().unwrap_or(&[]);
        let (rust, plain) = (rust_side::tokens(good), model::plain(good));
        List { rows, text, tokens, rust, plain }
    }

    /// A layout under options.
    pub fn laid_out(&self, options: Options) -> Call<'_, 'a> {
        let good = self.tokens.is_ok() && model::bad_option(options).is_none();
        let walk = good.then(|| rust_side::walk(&self.rust, options));
        Call { list: self, options, source: None, line: 0, walk }
    }

    /// A layout under the default options, behind the shebang line of a source.
    pub fn with_source<'l>(&'l self, source: &'l [u8]) -> Call<'l, 'a> {
        let mut call = self.laid_out([1, 4, 40, 40]);
        let line = model::shebang(source);
        if let Some(walk) = &mut call.walk {
            put_first(&line, walk);
        }
        Call { source: Some(source), line: line.len(), ..call }
    }

    /// The lexemes of all tokens but Newline and Eof, of rows that are not refused.
    pub fn lexemes(&self) -> Vec<&'a [u8]> {
        model::lexemes(self.tokens.as_deref().unwrap_or(&[]))
    }
}

/// Puts a line before a walk's text.
fn put_first(line: &[u8], walk: &mut Walk) {
    walk.text.splice(0..0, line.iter().copied());
    walk.after.iter_mut().for_each(|length| *length += line.len());
    if let Some(deep) = &mut walk.deep {
        deep.led += line.len();
    }
}

/// A layout call, but for the size of its output.
pub struct Call<'l, 'a> {
    pub list: &'l List<'a>,
    pub options: Options,
    pub source: Option<&'l [u8]>,
    /// The bytes of the shebang line and its line feed.
    line: usize,
    /// None where the options or the rows are refused.
    walk: Option<Walk>,
}

impl Call<'_, '_> {
    pub fn text(&self) -> &[u8] {
        self.walk.as_ref().map_or(&[], |w| &w.text)
    }

    pub fn commas(&self) -> u64 {
        self.walk.as_ref().map_or(0, |w| w.commas)
    }

    /// The bytes that are written if there is room.
    pub fn reach(&self) -> usize {
        match &self.walk {
            Some(Walk { deep: Some(deep), .. }) => deep.led,
            _ => self.text().len(),
        }
    }

    /// The sizes at which each token's text just fits, and one less.
    pub fn edges(&self) -> Vec<usize> {
        let mut lengths = self.walk.as_ref().map_or(Vec::new(), |w| w.after.clone());
        lengths.push(self.reach());
        lengths.iter().flat_map(|&n| [n.saturating_sub(1), n]).collect()
    }

    /// Whether the Rust's public call has the text that its steps led to, where the two can be compared.
    pub fn steps_are_the_call(&self) -> bool {
        let Some(Walk { deep: None, .. }) = &self.walk else { return true };
        let rust = &self.list.rust;
        match self.source.map(std::str::from_utf8) {
            None => rust_side::text(rust, self.options) == self.text(),
            Some(Ok(source)) => rust_side::text_with_source(rust, source) == self.text(),
            Some(Err(_)) => true,
        }
    }

    /// What the call answers with an output of a size.
    pub fn answer(&self, room: usize) -> Answer {
        if let Some(refusal) = model::bad_option(self.options) {
            return refusal;
        }
        let walk = match (&self.list.tokens, &self.walk) {
            (Err(refusal), _) => return *refusal,
            (_, walk) => walk.as_ref().unwrap(),
        };
        if self.line > room {
            return refuse(5, 0);
        }
        if let Some(token) = walk.after.iter().position(|&length| length > room) {
            return refuse(5, token);
        }
        match &walk.deep {
            Some(deep) if deep.led > room => refuse(5, deep.token),
            Some(deep) => refuse(4, deep.token),
            None => success(walk.text.len() as u64, walk.commas, self.is_plain() as u64),
        }
    }

    fn is_plain(&self) -> bool {
        self.list.plain && self.line == 0
    }
}
