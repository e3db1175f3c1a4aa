//! Saved states: what a run left, kept in a file, from which it is carried on.

pub mod conditions;
pub mod file;
pub mod view;

use crate::failure::Failure;
use crate::machine::End;
use crate::program::{self, Program};
use crate::records::{CELL, TOKEN};
use crate::sources::Source;
use file::SavedFile;

/// What a run left: the used records of the ledger, all cells, and how many firings led there.
#[derive(Clone, Debug, PartialEq, Eq)]
pub struct State {
    pub firings: u16,
    pub ledger: Vec<u8>,
    pub cells: Vec<u8>,
}

impl State {
    pub fn of(end: &End) -> State {
        let (ledger, cells) = end.bytes();
        State {
            firings: end.answer.firings as u16,
            ledger: ledger.to_vec(),
            cells: cells.to_vec(),
        }
    }

    /// How many tokens it has. A file has no more than 16 bits can say.
    pub fn tokens(&self) -> u16 {
        (self.ledger.len() / TOKEN) as u16
    }

    pub fn cell_count(&self) -> usize {
        self.cells.len() / CELL
    }
}

/// What the file is to whoever would write over it.
pub const ITSELF: &str = "the saved state itself";

/// Whether bytes are those of a saved state, whole or damaged.
pub fn is_saved(bytes: &[u8]) -> bool {
    bytes.starts_with(file::START.as_bytes())
}

/// Reads a saved state by its name, or `-` from standard input.
pub fn read(name: &str) -> Result<(Program, SavedFile), Failure> {
    let (bytes, source) = program::bytes(name, ITSELF)?;
    if !is_saved(&bytes) {
        let label = program::label(name);
        let text =
            format!("{label} is no saved state\n  `dayomlak run FILE --save X.saved` makes one");
        return Err(Failure::Wrong(text));
    }
    decode(program::label(name), &bytes, source)
}

/// The program and the state in the bytes of a file. Damage is said before the state is looked at.
pub fn decode(
    label: &str,
    bytes: &[u8],
    source: Option<Source>,
) -> Result<(Program, SavedFile), Failure> {
    let wrong = |text: String| Failure::Wrong(format!("{label}: {text}"));
    let saved = SavedFile::decode(bytes).map_err(wrong)?;
    let no_graph = || wrong("its text is not the text of its graph".to_string());
    let mut program = match Program::typed(&format!("text in {label}"), saved.text.clone()) {
        Err(Failure::SavedState(_)) => return Err(no_graph()),
        program => program?,
    };
    if program.files.graph != saved.graph || program.files.arrays != saved.arrays {
        return Err(no_graph());
    }
    program.label = label.to_string();
    program.sources.extend(source);
    Ok((program, saved))
}
