//! How many bytes a record has, how many records a buffer may have, and how long a printed line may be.

use std::ops::RangeInclusive;

/// Bytes of an instruction in a graph.
pub const INSTRUCTION: usize = 16;
/// Bytes of a token in inputs, ledger and listing.
pub const TOKEN: usize = 28;
/// Bytes of a token before paths of eight levels, which `convert` reads.
pub const OLD_TOKEN: usize = 20;
/// Bytes of an I-structure cell.
pub const CELL: usize = 8;
/// Bytes of a token in inputs and ledger of a range run: a plain token of the low value, and the high value.
pub const RANGE_TOKEN: usize = TOKEN + 4;
/// Bytes of a cell of a range run: a plain cell of the low value, and the high value.
pub const RANGE_CELL: usize = CELL + 4;
/// Bytes of an array in its table.
pub const ARRAY: usize = 4;
/// Bytes of a pick.
pub const PICK: usize = 2;
/// Bytes of a firing in a log.
pub const LOGGED: usize = 20;
/// Bytes of a firing in a log before paths of eight levels, which `convert_log` reads.
pub const OLD_LOGGED: usize = 12;
/// Bytes of a step in a profile.
pub const STEP: usize = 4;
/// Bytes of a record of an expression.
pub const EXPRESSION: usize = 8;
/// Bytes of the value of a variable.
pub const VARIABLE: usize = 4;

/// Most instructions of a graph.
pub const MOST_INSTRUCTIONS: usize = 256;
/// Most tokens of a ledger, and so most inputs, picks, firings and steps.
pub const MOST_RECORDS: usize = 2048;
/// Most cells.
pub const MOST_CELLS: usize = 1024;
/// Most named arrays.
pub const MOST_ARRAYS: usize = 64;
/// Most records of an expression.
pub const MOST_EXPRESSION: usize = 100;
/// Most levels of calls.
pub const MOST_LEVELS: usize = 8;
/// The budget that no run exceeds: firings never exceed tokens.
pub const WHOLE_BUDGET: u16 = MOST_RECORDS as u16;

/// The bounds of loops; 0 is none.
pub const BOUNDS: RangeInclusive<u16> = 2..=256;

/// Bytes of the longest printed answer, token and cell.
pub const ANSWER_LINE: usize = 74;
pub const TOKEN_LINE: usize = 75;
pub const CELL_LINE: usize = 46;

/// Room enough for what `print` writes of these tokens and cells.
pub const fn printed(tokens: usize, cells: usize) -> usize {
    ANSWER_LINE + TOKEN_LINE * tokens + CELL_LINE * cells
}
