//! What is wrong with a text, and where.

use std::fmt;
use std::ops::Range;

/// Bytes of a text, counted from its beginning.
pub type Span = Range<usize>;

/// A fault of a text. The line is counted from 1.
#[derive(Clone, Debug, PartialEq, Eq)]
pub struct Error {
    pub line: usize,
    pub span: Span,
    pub text: String,
    /// What to write instead, where it can be guessed.
    pub hint: Option<String>,
}

/// All faults of a text, in the order of their lines; one at least.
#[derive(Clone, Debug, PartialEq, Eq)]
pub struct Errors(pub Vec<Error>);

impl fmt::Display for Error {
    fn fmt(&self, f: &mut fmt::Formatter<'_>) -> fmt::Result {
        write!(f, "line {}: {}", self.line, self.text)?;
        match &self.hint {
            Some(hint) => write!(f, " ({hint})"),
            None => Ok(()),
        }
    }
}

impl fmt::Display for Errors {
    fn fmt(&self, f: &mut fmt::Formatter<'_>) -> fmt::Result {
        let lines: Vec<String> = self.0.iter().map(Error::to_string).collect();
        write!(f, "{}", lines.join("\n"))
    }
}

impl std::error::Error for Error {}
impl std::error::Error for Errors {}

/// A fault before its line is known.
#[derive(Clone, Debug)]
pub struct Fault {
    span: Span,
    text: String,
    hint: Option<String>,
}

impl Fault {
    pub fn new(span: Span, text: impl Into<String>) -> Fault {
        Fault {
            span,
            text: text.into(),
            hint: None,
        }
    }

    pub fn hint(self, hint: impl Into<String>) -> Fault {
        self.maybe(Some(hint.into()))
    }

    pub fn maybe(self, hint: Option<String>) -> Fault {
        Fault { hint, ..self }
    }

    pub fn on_line(self, line: usize) -> Error {
        Error {
            line,
            span: self.span,
            text: self.text,
            hint: self.hint,
        }
    }
}
