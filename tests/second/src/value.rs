//! What tokens and cells carry: a number, or a range of numbers (02, R-11).

use crate::arithmetic::Arithmetic;
use crate::{CELL_RECORD, TOKEN_RECORD};

/// A value of the machine. What a firing asks of one that a number always answers, a
/// range may leave undecided.
pub trait Value: Copy {
    /// Bytes of a token record.
    const TOKEN: usize;
    /// Bytes of a cell record.
    const CELL: usize;

    /// A certain number.
    fn of(number: i32) -> Self;

    /// The number, if it is certain.
    fn single(self) -> Option<i32>;

    /// Whether it is not 0, if that is certain.
    fn truth(self) -> Option<bool>;

    /// The result, or `None` for refusal 12.
    fn apply(operation: Arithmetic, left: Self, right: Self) -> Option<Self>;

    /// The value of a record's value field and its bytes past a plain record.
    fn parse(field: i32, further: &[u8]) -> Self;

    /// The value field of a record.
    fn field(self) -> i32;

    /// Writes the bytes past a plain record.
    fn write_further(self, further: &mut [u8]);

    /// Whether an input may have it; if not, 23.
    fn proper(self) -> bool;
}

impl Value for i32 {
    const TOKEN: usize = TOKEN_RECORD;
    const CELL: usize = CELL_RECORD;

    fn of(number: i32) -> i32 {
        number
    }

    fn single(self) -> Option<i32> {
        Some(self)
    }

    fn truth(self) -> Option<bool> {
        Some(self != 0)
    }

    fn apply(operation: Arithmetic, left: i32, right: i32) -> Option<i32> {
        operation.apply(left, right)
    }

    fn parse(field: i32, _: &[u8]) -> i32 {
        field
    }

    fn field(self) -> i32 {
        self
    }

    fn write_further(self, _: &mut [u8]) {}

    fn proper(self) -> bool {
        true
    }
}
