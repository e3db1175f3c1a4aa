//! Where the fields of a record stand. A field of one byte is given by its place, a longer one by its bytes.

pub mod instruction {
    use std::ops::Range;

    pub const CODE: usize = 0;
    pub const FAN_OUT: usize = 1;
    pub const CONSTANT: Range<usize> = 8..12;
    pub const ZEROS: Range<usize> = 12..16;

    /// The port of destination 0 or 1.
    pub const fn port(destination: usize) -> usize {
        2 + destination
    }

    /// The instruction of destination 0 or 1.
    pub const fn target(destination: usize) -> Range<usize> {
        4 + 2 * destination..6 + 2 * destination
    }
}

pub mod token {
    use std::ops::Range;

    pub const PATH: Range<usize> = 0..16;
    pub const ITERATION: usize = 16;
    pub const PORT: usize = 17;
    pub const INSTRUCTION: Range<usize> = 18..20;
    /// Path, iteration, port and instruction: what no two tokens of a run share.
    pub const KEY: Range<usize> = 0..20;
    pub const VALUE: Range<usize> = 20..24;
    pub const STATE: usize = 24;
    pub const ZEROS: Range<usize> = 25..28;
    /// Of a range run.
    pub const HIGH: Range<usize> = 28..32;

    pub const LIVE: u8 = 0;
    pub const SPENT: u8 = 1;
    pub const DEFERRED: u8 = 2;
}

pub mod cell {
    use std::ops::Range;

    pub const VALUE: Range<usize> = 0..4;
    pub const STATE: usize = 4;
    pub const ZEROS: Range<usize> = 5..8;
    /// Of a range run.
    pub const HIGH: Range<usize> = 8..12;

    pub const ABSENT: u8 = 0;
    pub const WAITING: u8 = 1;
    pub const PRESENT: u8 = 2;
}

/// A firing in a log. Its tag stands where that of a token does.
pub mod logged {
    pub use super::token::{INSTRUCTION, ITERATION, PATH};

    pub const ZERO: usize = 17;
}

/// An ideal step in a profile.
pub mod step {
    use std::ops::Range;

    pub const FIRINGS: Range<usize> = 0..2;
    pub const TOKENS: Range<usize> = 2..4;
}

pub mod array {
    use std::ops::Range;

    pub const FIRST: Range<usize> = 0..2;
    pub const LENGTH: Range<usize> = 2..4;
}

pub mod expression {
    use std::ops::Range;

    pub const KIND: usize = 0;
    pub const LEFT: usize = 1;
    pub const RIGHT: usize = 2;
    pub const ZEROS: Range<usize> = 3..8;
}
