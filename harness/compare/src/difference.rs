//! What is told of a difference.
use crate::doors::Options;
use crate::lists::written;

/// Where the two sides differ, and the layout call on which they do, if it is one.
#[derive(Clone, Debug)]
pub struct Difference {
    pub said: String,
    pub call: Option<LayoutCall>,
}

#[derive(Clone, Debug)]
pub struct LayoutCall {
    pub options: Options,
    pub rows: Vec<u8>,
    pub text: Vec<u8>,
    pub source: Option<Vec<u8>>,
    pub room: usize,
}

impl From<String> for Difference {
    fn from(said: String) -> Self {
        Difference { said, call: None }
    }
}

impl std::fmt::Display for Difference {
    fn fmt(&self, f: &mut std::fmt::Formatter) -> std::fmt::Result {
        match &self.call {
            Some(c) => write!(f, "{}\n  {c}", self.said),
            None => write!(f, "{}", self.said),
        }
    }
}

impl std::fmt::Display for LayoutCall {
    fn fmt(&self, f: &mut std::fmt::Formatter) -> std::fmt::Result {
        let rows = written(&self.rows, &self.text);
        if let Some(source) = &self.source {
            write!(f, "source {}, ", shown(source))?;
        }
        write!(f, "options {:?}, an output of {} bytes, the list: {rows}", self.options, self.room)
    }
}

/// Bytes as a string literal.
pub fn shown(bytes: &[u8]) -> String {
    format!("\"{}\"", bytes.escape_ascii())
}
