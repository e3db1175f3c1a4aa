//! The answer to a run.

pub use ttda::Word;

use crate::refusals;

#[derive(Clone, Copy, Debug, PartialEq, Eq)]
pub struct Answer {
    /// As the engine gave it.
    pub packed: u64,
    pub word: Word,
    pub firings: usize,
    pub tokens: usize,
    pub place: usize,
}

impl Answer {
    pub fn of(packed: u64) -> Answer {
        let answer = ttda::Answer(packed);
        Answer {
            packed,
            word: answer.word(),
            firings: answer.firings(),
            tokens: answer.tokens(),
            place: answer.place(),
        }
    }

    pub fn completed(&self) -> bool {
        self.word == Word::Completed
    }

    /// Whether nothing more can fire. By demand 3 every order then ends alike.
    pub fn ended(&self) -> bool {
        matches!(self.word, Word::Completed | Word::Hung)
    }

    /// Whether the run was refused before its inputs were taken; then nothing was written, and a place is that of a graph
    /// record or an input. A firing has operands, and 18 and 20 come when the inputs are written, so both have tokens,
    /// unless there are no inputs.
    pub fn refused_at_once(&self) -> bool {
        matches!(self.word, Word::Refused(number) if number != 18 && number != 20)
            && self.tokens == 0
    }

    /// The answer in a few words, without the place.
    pub fn words(&self) -> String {
        match self.word {
            Word::Completed => "completed".to_string(),
            Word::Hung => "hung".to_string(),
            Word::Spent => "spent".to_string(),
            Word::Refused(number) => format!("refused by {number}, {}", refusals::word(number)),
        }
    }

    /// `67 firings, 89 tokens`.
    pub fn counts(&self) -> String {
        let (firings, tokens) = (count(self.firings, "firing"), count(self.tokens, "token"));
        format!("{firings}, {tokens}")
    }
}

/// `1 firing`, `2 firings`.
pub fn count(number: usize, noun: &str) -> String {
    let s = if number == 1 { "" } else { "s" };
    format!("{number} {noun}{s}")
}
