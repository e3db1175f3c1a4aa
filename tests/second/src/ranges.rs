//! Runs of inputs that are known only between limits (02, R-11).

use crate::arithmetic::Arithmetic;
use crate::machine::Machine;
use crate::value::Value;
use crate::{Answer, Lent, Program, Schedule, CELL_RECORD, TOKEN_RECORD};

/// Bytes of a token record with a range: the high value behind a plain record of the low.
pub const RANGE_TOKEN_RECORD: usize = TOKEN_RECORD + 4;
/// Bytes of a cell record with a range.
pub const RANGE_CELL_RECORD: usize = CELL_RECORD + 4;

/// All numbers from the low value to the high one.
#[derive(Clone, Copy, Debug, PartialEq, Eq)]
pub struct Range {
    pub low: i32,
    pub high: i32,
}

/// Runs as `run` does, with a range in the place of each value.
pub fn run_ranges(
    program: Program,
    inputs: &[u8],
    schedule: Schedule,
    ledger: &mut [u8],
    cells: &mut [u8],
) -> Answer {
    let lent = Lent {
        program,
        inputs,
        ledger,
        cells,
    };
    lent.accept(schedule, true, |machine: &mut Machine<Range>| {
        machine.run(schedule, |firing, _| schedule.pick(firing))
    })
}

impl Range {
    /// The least range that holds some numbers, or `None` for refusal 12 if one of them is
    /// past 32 bits.
    fn around(numbers: &[i64]) -> Option<Range> {
        let low = i32::try_from(*numbers.iter().min()?).ok()?;
        let high = i32::try_from(*numbers.iter().max()?).ok()?;
        Some(Range { low, high })
    }

    /// The range of a comparison, by whether it may fail and whether it may hold.
    fn comparison(may_fail: bool, may_hold: bool) -> Range {
        Range {
            low: i32::from(!may_fail),
            high: i32::from(may_hold),
        }
    }

    pub fn contains(self, number: i32) -> bool {
        (self.low..=self.high).contains(&number)
    }

    /// The range of an operation, or `None` for refusal 12.
    pub fn of_operation(code: u8, left: Range, right: Range) -> Option<Range> {
        let operation = Arithmetic::ALL[usize::from(code - 16)];
        Range::apply(operation, left, right)
    }

    /// The least range of an operation that is monotone in each operand.
    fn of_corners(left: Range, right: Range, result: impl Fn(i64, i64) -> i64) -> Option<Range> {
        let [a, b] = [left.low, left.high].map(i64::from);
        let [c, d] = [right.low, right.high].map(i64::from);
        let corners = [(a, c), (a, d), (b, c), (b, d)];
        Range::around(&corners.map(|(left, right)| result(left, right)))
    }

    /// REM of single values is exact; otherwise only signs and the divisor's largest
    /// magnitude count.
    fn remainder(self, divisor: Range) -> Option<Range> {
        if let (Some(dividend), Some(divisor)) = (self.single(), divisor.single()) {
            return Arithmetic::Rem.apply(dividend, divisor).map(Range::of);
        }
        let most = [divisor.low, divisor.high].map(|end| i64::from(end).abs());
        let most = most[0].max(most[1]);
        let low = if self.low < 0 { 1 - most } else { 0 };
        let high = if self.high > 0 { most - 1 } else { 0 };
        Range::around(&[low, high])
    }
}

impl Value for Range {
    const TOKEN: usize = RANGE_TOKEN_RECORD;
    const CELL: usize = RANGE_CELL_RECORD;

    fn of(number: i32) -> Range {
        Range {
            low: number,
            high: number,
        }
    }

    fn single(self) -> Option<i32> {
        (self.low == self.high).then_some(self.low)
    }

    fn truth(self) -> Option<bool> {
        match self.contains(0) {
            false => Some(true),
            true if self.single().is_some() => Some(false),
            true => None,
        }
    }

    /// The least range that holds every outcome, each operand chosen freely.
    fn apply(operation: Arithmetic, left: Range, right: Range) -> Option<Range> {
        match operation {
            Arithmetic::Div | Arithmetic::Rem if right.contains(0) => None,
            Arithmetic::Add => Range::of_corners(left, right, |a, b| a + b),
            Arithmetic::Sub => Range::of_corners(left, right, |a, b| a - b),
            Arithmetic::Mul => Range::of_corners(left, right, |a, b| a * b),
            Arithmetic::Div => Range::of_corners(left, right, |a, b| a / b),
            Arithmetic::Rem => left.remainder(right),
            Arithmetic::Lt => Some(Range::comparison(
                left.high >= right.low,
                left.low < right.high,
            )),
            Arithmetic::Le => Some(Range::comparison(
                left.high > right.low,
                left.low <= right.high,
            )),
            Arithmetic::Eq => Some(Range::comparison(
                left != right || left.single().is_none(),
                left.low <= right.high && right.low <= left.high,
            )),
        }
    }

    fn parse(field: i32, further: &[u8]) -> Range {
        Range {
            low: field,
            high: i32::from_le_bytes([further[0], further[1], further[2], further[3]]),
        }
    }

    fn field(self) -> i32 {
        self.low
    }

    fn write_further(self, further: &mut [u8]) {
        further.copy_from_slice(&self.high.to_le_bytes());
    }

    fn proper(self) -> bool {
        self.low <= self.high
    }
}
