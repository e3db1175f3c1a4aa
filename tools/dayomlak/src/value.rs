//! What tokens and cells carry: a number, or, in a run of ranges, all numbers between two.

use std::fmt;

/// All numbers from the low one to the high one. A plain run has single ones only.
#[derive(Clone, Copy, Debug, PartialEq, Eq)]
pub struct Value {
    pub low: i32,
    pub high: i32,
}

impl Value {
    /// A single number.
    pub fn of(number: i32) -> Value {
        Value {
            low: number,
            high: number,
        }
    }

    pub fn is_single(&self) -> bool {
        self.low == self.high
    }

    pub fn contains(&self, number: i32) -> bool {
        (self.low..=self.high).contains(&number)
    }
}

/// `12`, or `12..18`.
impl fmt::Display for Value {
    fn fmt(&self, f: &mut fmt::Formatter<'_>) -> fmt::Result {
        match self.is_single() {
            true => write!(f, "{}", self.low),
            false => write!(f, "{}..{}", self.low, self.high),
        }
    }
}
