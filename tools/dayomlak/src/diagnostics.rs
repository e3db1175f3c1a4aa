//! Messages with the source line that they are about.

use asm::{Error, Span};
use codespan_reporting::diagnostic::{Diagnostic, Label, Severity};
use codespan_reporting::files::SimpleFile;
use codespan_reporting::term::termcolor::{Buffer, ColorChoice, StandardStream, WriteColor};
use codespan_reporting::term::{self, Chars, Config};

/// A message: what is found, where, and what to do.
#[derive(Debug)]
pub struct Finding {
    pub severity: Severity,
    pub title: String,
    /// A part of the text, with what is to be said of it.
    pub at: Option<(Span, String)>,
    /// Another part that has to do with it.
    pub also: Option<(Span, String)>,
    pub notes: Vec<String>,
}

impl Finding {
    pub fn new(severity: Severity, title: impl Into<String>) -> Finding {
        Finding {
            severity,
            title: title.into(),
            at: None,
            also: None,
            notes: Vec::new(),
        }
    }

    pub fn error(title: impl Into<String>) -> Finding {
        Finding::new(Severity::Error, title)
    }

    pub fn warning(title: impl Into<String>) -> Finding {
        Finding::new(Severity::Warning, title)
    }

    /// Marks a part of the text, if there is one.
    pub fn at(mut self, span: Option<Span>, words: impl Into<String>) -> Finding {
        self.at = span.map(|span| (span, words.into()));
        self
    }

    /// Marks another part that has to do with it, if there is one.
    pub fn also(mut self, span: Option<Span>, words: impl Into<String>) -> Finding {
        self.also = span.map(|span| (span, words.into()));
        self
    }

    pub fn note(mut self, note: impl Into<String>) -> Finding {
        self.notes.push(note.into());
        self
    }

    fn diagnostic(&self) -> Diagnostic<()> {
        let at = self.at.iter();
        let at = at.map(|(span, words)| Label::primary((), span.clone()).with_message(words));
        let also = self.also.iter();
        let also = also.map(|(span, words)| Label::secondary((), span.clone()).with_message(words));
        Diagnostic::new(self.severity)
            .with_message(&self.title)
            .with_labels(at.chain(also).collect())
            .with_notes(self.notes.clone())
    }
}

impl From<Error> for Finding {
    fn from(error: Error) -> Finding {
        Finding::error(error.text).at(Some(error.span), error.hint.unwrap_or_default())
    }
}

/// Shows findings on standard error, in colours where it is a terminal.
pub fn complain(label: &str, text: &str, findings: &[Finding]) {
    let choice = match std::io::IsTerminal::is_terminal(&std::io::stderr()) {
        true => ColorChoice::Auto,
        false => ColorChoice::Never,
    };
    emit(
        &mut StandardStream::stderr(choice).lock(),
        label,
        text,
        findings,
    );
}

/// Findings as plain text.
pub fn plain(label: &str, text: &str, findings: &[Finding]) -> String {
    let mut buffer = Buffer::no_color();
    emit(&mut buffer, label, text, findings);
    String::from_utf8_lossy(buffer.as_slice()).into_owned()
}

fn emit(out: &mut dyn WriteColor, label: &str, text: &str, findings: &[Finding]) {
    let file = SimpleFile::new(label, text);
    let config = Config {
        chars: Chars::ascii(),
        ..Config::default()
    };
    for finding in findings {
        // A message that cannot be shown has nobody to be shown to.
        let _ = term::emit(out, &config, &file, &finding.diagnostic());
    }
}
