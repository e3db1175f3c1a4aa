//! Ranges (02, R-11): the least range of every outcome, runs of 32-byte tokens and
//! 12-byte cells, refusal 23, and plain runs of all choices within the ranges.

mod common;

use common::*;
use second::{run, run_ranges, Answer, Outcome, Range};

fn range(low: i32, high: i32) -> Range {
    Range { low, high }
}

/// A plain operation, or `None` for 12.
fn plain(code: u8, left: i32, right: i32) -> Option<i32> {
    let (a, b) = (i64::from(left), i64::from(right));
    let result = match code {
        ADD => a + b,
        SUB => a - b,
        MUL => a * b,
        DIV => a.checked_div(b)?,
        REM => a.checked_rem(b)?,
        LT => i64::from(a < b),
        LE => i64::from(a <= b),
        _ => i64::from(a == b),
    };
    i32::try_from(result).ok()
}

/// The least range of all outcomes, or `None` if one of them is 12.
fn least(code: u8, left: Range, right: Range) -> Option<Range> {
    let mut least: Option<Range> = None;
    for a in left.low..=left.high {
        for b in right.low..=right.high {
            let result = plain(code, a, b)?;
            let so_far = least.unwrap_or(range(result, result));
            least = Some(range(so_far.low.min(result), so_far.high.max(result)));
        }
    }
    least
}

/// All ranges between two numbers.
fn ranges_between(low: i32, high: i32) -> Vec<Range> {
    (low..=high)
        .flat_map(|start| (start..=high).map(move |end| range(start, end)))
        .collect()
}

const CODES: [u8; 8] = [ADD, SUB, MUL, DIV, REM, LT, LE, EQ];

fn holds_every_outcome(code: u8, left: Range, right: Range) {
    let found = Range::of_operation(code, left, right);
    let due = least(code, left, right);
    let single = left.low == left.high && right.low == right.high;
    if code == REM && !single {
        assert_eq!(found, remainder(left, right), "{left:?} REM {right:?}");
        if let (Some(found), Some(due)) = (found, due) {
            assert!(found.contains(due.low) && found.contains(due.high));
        }
    } else {
        assert_eq!(found, due, "{code}: {left:?}, {right:?}");
    }
}

/// 02's rule for REM of values that are not both single.
fn remainder(left: Range, right: Range) -> Option<Range> {
    if right.contains(0) {
        return None;
    }
    let most = i64::from(right.low).abs().max(i64::from(right.high).abs());
    let low = if left.low < 0 { 1 - most } else { 0 };
    let high = if left.high > 0 { most - 1 } else { 0 };
    Some(range(low as i32, high as i32))
}

#[test]
fn the_least_range_of_every_outcome() {
    for left in ranges_between(-6, 6) {
        for right in ranges_between(-6, 6) {
            for code in CODES {
                holds_every_outcome(code, left, right);
            }
        }
    }
}

#[test]
fn the_least_range_at_the_ends_of_32_bits() {
    let mut ends = ranges_between(i32::MIN, i32::MIN + 2);
    ends.extend(ranges_between(i32::MAX - 2, i32::MAX));
    ends.extend(ranges_between(-2, 2));
    ends.extend(ranges_between(46_340, 46_341));
    ends.extend(ranges_between(-46_342, -46_340));
    for &left in &ends {
        for &right in &ends {
            for code in CODES {
                holds_every_outcome(code, left, right);
            }
        }
    }
}

#[test]
fn ranges_of_operations() {
    let all = range(i32::MIN, i32::MAX);
    for (code, left, right, due) in [
        (ADD, range(1, 3), range(-2, 4), Some(range(-1, 7))),
        (SUB, range(1, 3), range(-2, 4), Some(range(-3, 5))),
        (MUL, range(-3, 2), range(-5, 4), Some(range(-12, 15))),
        (MUL, range(-3, -2), range(4, 5), Some(range(-15, -8))),
        (DIV, range(-7, 7), range(2, 3), Some(range(-3, 3))),
        (DIV, range(-7, 9), range(-3, -2), Some(range(-4, 3))),
        (DIV, range(5, 9), range(-1, 1), None),
        (DIV, range(5, 9), range(0, 3), None),
        (DIV, range(i32::MIN, 0), range(-3, -1), None),
        (
            DIV,
            range(i32::MIN + 1, 0),
            range(-3, -1),
            Some(range(0, i32::MAX)),
        ),
        (REM, range(5, 9), range(-1, 1), None),
        (
            REM,
            range(i32::MIN, i32::MIN),
            range(-1, -1),
            Some(range(0, 0)),
        ),
        (REM, range(-9, -9), range(4, 4), Some(range(-1, -1))),
        (REM, range(-9, -5), range(4, 6), Some(range(-5, 0))),
        (REM, range(0, 5), range(-6, -4), Some(range(0, 5))),
        (REM, range(-1, 1), range(7, 7), Some(range(-6, 6))),
        (REM, range(0, 0), range(3, 4), Some(range(0, 0))),
        (
            REM,
            all,
            range(i32::MIN, -1),
            Some(range(-i32::MAX, i32::MAX)),
        ),
        (ADD, range(0, 1), range(i32::MAX, i32::MAX), None),
        (LT, range(1, 3), range(4, 9), Some(range(1, 1))),
        (LT, range(1, 4), range(4, 9), Some(range(0, 1))),
        (LT, range(4, 9), range(1, 4), Some(range(0, 0))),
        (LE, range(1, 4), range(4, 9), Some(range(1, 1))),
        (LE, range(5, 9), range(1, 4), Some(range(0, 0))),
        (EQ, range(4, 4), range(4, 4), Some(range(1, 1))),
        (EQ, range(4, 5), range(4, 5), Some(range(0, 1))),
        (EQ, range(1, 3), range(4, 5), Some(range(0, 0))),
        (EQ, range(1, 4), range(4, 5), Some(range(0, 1))),
    ] {
        assert_eq!(
            Range::of_operation(code, left, right),
            due,
            "{code} {left:?} {right:?}"
        );
    }
}

/// An input token with a range.
fn between(instruction: u16, port: u8, low: i32, high: i32) -> [u8; 32] {
    wide(input(instruction, port, low), high)
}

fn wide(record: [u8; 28], high: i32) -> [u8; 32] {
    let mut wide = [0; 32];
    wide[..28].copy_from_slice(&record);
    wide[28..].copy_from_slice(&high.to_le_bytes());
    wide
}

/// What is lent to a range run, by a plain one.
#[derive(Clone)]
struct Ranged {
    lent: Lent,
    inputs: Vec<u8>,
    ledger_bytes: usize,
    cells_bytes: usize,
}

fn lend_ranges(records: &[[u8; 16]], tokens: &[[u8; 32]]) -> Ranged {
    Ranged {
        lent: lend(records, &[]).cells(12),
        inputs: tokens.concat(),
        ledger_bytes: 32 * 2048,
        cells_bytes: 12 * 12,
    }
}

struct RangesLeft {
    answer: Answer,
    ledger: Vec<u8>,
    cells: Vec<u8>,
}

impl RangesLeft {
    fn record(&self, position: usize) -> &[u8] {
        &self.ledger[32 * position..][..32]
    }

    fn cell(&self, number: usize) -> &[u8] {
        &self.cells[12 * number..][..12]
    }

    fn range(&self, position: usize) -> Range {
        let number =
            |at: usize| i32::from_le_bytes(self.record(position)[at..at + 4].try_into().unwrap());
        range(number(20), number(28))
    }
}

impl Ranged {
    /// Runs over garbage, and sees what stays as lent.
    fn run(&self) -> RangesLeft {
        let mut left = RangesLeft {
            answer: completed(0, 0),
            ledger: vec![0xa5; self.ledger_bytes],
            cells: vec![0xa5; self.cells_bytes],
        };
        let (program, schedule) = (self.lent.program(), self.lent.schedule());
        let (ledger, cells) = (&mut left.ledger, &mut left.cells);
        left.answer = run_ranges(program, &self.inputs, schedule, ledger, cells);
        let used = 32 * left.answer.tokens;
        assert!(left.ledger[used..].iter().all(|&byte| byte == 0xa5));
        if left.answer.refused_at_once() {
            assert!(left.cells.iter().all(|&byte| byte == 0xa5));
        }
        left
    }

    fn answer(&self) -> Answer {
        self.run().answer
    }

    fn inputs(&self) -> Vec<([u8; 28], Range)> {
        let records = self.inputs.chunks_exact(32);
        records
            .map(|record| {
                let low = i32::from_le_bytes(record[20..24].try_into().unwrap());
                let high = i32::from_le_bytes(record[28..].try_into().unwrap());
                (record[..28].try_into().unwrap(), range(low, high))
            })
            .collect()
    }

    /// The plain run of one choice of the inputs.
    fn choice(&self, values: &[i32]) -> Left {
        let mut inputs = Vec::new();
        for ((mut record, _), value) in self.inputs().into_iter().zip(values) {
            record[20..24].copy_from_slice(&value.to_le_bytes());
            inputs.extend(record);
        }
        let mut left = Left {
            answer: completed(0, 0),
            ledger: vec![0; self.ledger_bytes / 32 * 28],
            cells: vec![0; self.cells_bytes / 12 * 8],
        };
        let (program, schedule) = (self.lent.program(), self.lent.schedule());
        let (ledger, cells) = (&mut left.ledger, &mut left.cells);
        left.answer = run(program, &inputs, schedule, ledger, cells);
        left
    }

    /// Every choice of the inputs within their ranges.
    fn choices(&self) -> Vec<Vec<i32>> {
        let mut choices = vec![Vec::new()];
        for (_, range) in self.inputs() {
            choices = choices
                .iter()
                .flat_map(|choice: &Vec<i32>| {
                    (range.low..=range.high).map(|value| [&choice[..], &[value]].concat())
                })
                .collect();
        }
        choices
    }

    /// Each plain run ends alike, with each value in its token's range.
    fn holds_all_choices(&self) -> Answer {
        let left = self.run();
        for values in self.choices() {
            let plain = self.choice(&values);
            assert_eq!(plain.answer, left.answer, "{values:?}");
            for position in 0..left.answer.tokens {
                inside(plain.record(position), left.record(position));
            }
            for number in 0..left.cells.len() / 12 {
                inside_cell(plain.cell(number), left.cell(number));
            }
        }
        left.answer
    }
}

/// The token has the key and the state of the range token, and its value lies inside.
fn inside(plain: &[u8], range: &[u8]) {
    assert_eq!(plain[..20], range[..20]);
    assert_eq!(plain[24..28], range[24..28]);
    inside_values(&plain[20..24], &range[20..24], &range[28..32]);
}

fn inside_cell(plain: &[u8], range: &[u8]) {
    assert_eq!(plain[4..8], range[4..8]);
    inside_values(&plain[..4], &range[..4], &range[8..]);
}

fn inside_values(value: &[u8], low: &[u8], high: &[u8]) {
    let number = |bytes: &[u8]| i32::from_le_bytes(bytes.try_into().unwrap());
    assert!(range(number(low), number(high)).contains(number(value)));
}

fn sum_of(left: (i32, i32), right: (i32, i32)) -> Ranged {
    let records = [instruction(ADD, &[(1, 0)], 0), instruction(OUT, &[], 0)];
    let tokens = [
        between(0, 0, left.0, left.1),
        between(0, 1, right.0, right.1),
    ];
    lend_ranges(&records, &tokens)
}

#[test]
fn a_sum_of_two_ranges() {
    let left = sum_of((7, 9), (-9, -8)).run();
    assert_eq!(left.answer, completed(1, 3));
    assert_eq!(left.record(0), wide(token(0, 0, 0, 0, 7, 1), 9));
    assert_eq!(left.record(2), wide(token(0, 0, 1, 0, -2, 0), 1));
    assert!(left.cells.iter().all(|&byte| byte == 0));
    assert_eq!(
        sum_of((7, 9), (-9, -8)).holds_all_choices(),
        completed(1, 3)
    );
    assert_eq!(
        sum_of((0, 1), (i32::MAX, i32::MAX)).answer(),
        refused(12, 0, 2, 0)
    );
}

#[test]
fn an_input_whose_low_exceeds_its_high() {
    assert_eq!(sum_of((7, 9), (3, 2)).answer(), refused(23, 0, 0, 1));
    assert_eq!(sum_of((7, 6), (3, 2)).answer(), refused(23, 0, 0, 0));
    // After 6 of all inputs, and before 8 and 9.
    let mut bad = sum_of((7, 6), (3, 4));
    bad.inputs[32 + 16] = 1;
    assert_eq!(bad.answer(), refused(6, 0, 0, 1));
    let mut full = sum_of((7, 9), (4, 3));
    full.ledger_bytes = 32;
    assert_eq!(full.answer(), refused(23, 0, 0, 1));
    full = sum_of((7, 9), (3, 4));
    full.ledger_bytes = 32;
    assert_eq!(full.answer(), refused(8, 0, 0, 1));
    let mut twice = sum_of((7, 9), (3, 4));
    twice.inputs.extend(between(0, 0, 2, 1));
    assert_eq!(twice.answer(), refused(23, 0, 0, 2));
    // After 7, 21 and 22.
    let mut odd = sum_of((7, 6), (3, 4));
    odd.cells_bytes = 8;
    assert_eq!(odd.answer(), refused(7, 0, 0, 0));
    let mut bound = sum_of((7, 6), (3, 4));
    bound.lent.bound = 1;
    assert_eq!(bound.answer(), refused(21, 0, 0, 0));
    let mut table = sum_of((7, 6), (3, 4));
    table.lent.arrays = array(12, 1).to_vec();
    assert_eq!(table.answer(), refused(22, 0, 0, 0));
}

#[test]
fn records_are_of_32_and_12_bytes() {
    for (inputs, ledger, cells) in [
        (28 * 2, 320, 24),
        (64, 28 * 10, 24),
        (64, 320, 8),
        (64, 320, 20),
    ] {
        let mut ranged = sum_of((7, 9), (3, 4));
        ranged.inputs.resize(inputs, 0);
        ranged.ledger_bytes = ledger;
        ranged.cells_bytes = cells;
        assert_eq!(ranged.answer(), refused(7, 0, 0, 0));
    }
    let mut most = sum_of((7, 9), (3, 4));
    most.cells_bytes = 12 * 1024;
    assert_eq!(most.answer(), completed(1, 3));
    most.cells_bytes = 12 * 1025;
    assert_eq!(most.answer(), refused(7, 0, 0, 0));
}

/// A SWITCH to two OUTs, its control between two numbers.
fn switch_by(low: i32, high: i32) -> Answer {
    let records = [
        instruction(SWITCH, &[(1, 0), (2, 0)], 0),
        instruction(OUT, &[], 0),
        instruction(OUT, &[], 0),
    ];
    let tokens = [between(0, 0, 4, 6), between(0, 1, low, high)];
    let ranged = lend_ranges(&records, &tokens);
    let left = ranged.run();
    if left.answer.outcome == Outcome::Completed {
        let side = if (low, high) == (0, 0) { 2 } else { 1 };
        assert_eq!(left.record(2), wide(token(0, 0, side, 0, 4, 0), 6));
        ranged.holds_all_choices();
    }
    left.answer
}

#[test]
fn a_control_that_may_be_zero_or_not() {
    for (low, high) in [(0, 0), (1, 1), (1, 3), (-3, -1)] {
        assert_eq!(switch_by(low, high), completed(1, 3));
    }
    for (low, high) in [(0, 1), (-1, 0), (-2, 5)] {
        assert_eq!(switch_by(low, high), refused(23, 0, 2, 0));
    }
}

/// 0 FETCH to 1 OUT, 2 STORE; the index of each and the value that is written.
fn cells_by(read: (i32, i32), written: (i32, i32), value: (i32, i32)) -> Ranged {
    let records = [
        instruction(FETCH, &[(1, 0)], 0),
        instruction(OUT, &[], 0),
        instruction(STORE, &[], 0),
    ];
    let tokens = [
        between(0, 0, read.0, read.1),
        between(2, 0, written.0, written.1),
        between(2, 1, value.0, value.1),
    ];
    lend_ranges(&records, &tokens)
}

#[test]
fn a_cell_takes_a_range() {
    let ranged = cells_by((5, 5), (5, 5), (-3, 40));
    let left = ranged.run();
    assert_eq!(left.answer, completed(2, 4));
    assert_eq!(left.cell(5), [253, 255, 255, 255, 2, 0, 0, 0, 40, 0, 0, 0]);
    assert_eq!(left.range(3), range(-3, 40));
    assert_eq!(ranged.holds_all_choices(), completed(2, 4));
}

#[test]
fn a_deferred_token_has_the_cell_number_in_both() {
    let left = cells_by((5, 5), (6, 6), (1, 2)).run();
    assert_eq!(left.answer, hung(2, 4));
    assert_eq!(left.record(3), wide(token(0, 0, 1, 0, 5, 2), 5));
    assert_eq!(left.cell(5), [0, 0, 0, 0, 1, 0, 0, 0, 0, 0, 0, 0]);
    // Under a name it is the cell's number too.
    let mut named = cells_by((2, 2), (1, 1), (1, 2));
    named.lent.graph[8] = 1;
    named.lent.graph[32 + 8] = 1;
    named.lent.arrays = array(7, 3).to_vec();
    let left = named.run();
    assert_eq!(left.record(3), wide(token(0, 0, 1, 0, 8, 2), 8));
    assert_eq!(named.holds_all_choices(), hung(2, 4));
}

/// 10 and 11 are judged of single ones only.
#[test]
fn an_index_that_is_not_a_single_value() {
    assert_eq!(
        cells_by((4, 5), (5, 5), (1, 1)).answer(),
        refused(23, 0, 3, 0)
    );
    assert_eq!(
        cells_by((12, 19), (5, 5), (1, 1)).answer(),
        refused(23, 0, 3, 0)
    );
    assert_eq!(
        cells_by((-3, -1), (5, 5), (1, 1)).answer(),
        refused(23, 0, 3, 0)
    );
    assert_eq!(
        cells_by((12, 12), (5, 5), (1, 1)).answer(),
        refused(10, 0, 3, 0)
    );
    assert_eq!(
        cells_by((5, 5), (5, 6), (1, 1)).answer(),
        refused(23, 1, 4, 1)
    );
    assert_eq!(
        cells_by((5, 5), (12, 13), (1, 1)).answer(),
        refused(23, 1, 4, 1)
    );
}

/// 23 comes before 8 and 9.
#[test]
fn undecided_before_a_full_ledger_and_a_second_token() {
    let mut full = cells_by((4, 5), (5, 5), (1, 1));
    full.ledger_bytes = 3 * 32;
    assert_eq!(full.answer(), refused(23, 0, 3, 0));
    let records = [
        instruction(FETCH, &[(1, 0), (1, 0)], 0),
        instruction(OUT, &[], 0),
    ];
    let ranged = lend_ranges(&records, &[between(0, 0, 4, 5)]);
    assert_eq!(ranged.answer(), refused(23, 0, 1, 0));
    let ranged = lend_ranges(&records, &[between(0, 0, 4, 4)]);
    assert_eq!(ranged.answer(), refused(9, 0, 1, 0));
}

/// A loop of three passes that stores multiples of its index; one of them less a
/// measurement is divided. Under a bound of 2 the SUB's operand holds the loop.
#[test]
fn all_choices_of_a_loop() {
    let records = [
        instruction(COPY, &[(1, 0), (2, 0)], 0),
        instruction(LT + WITH_CONSTANT, &[(2, 1)], 3),
        instruction(SWITCH, &[(3, 0), (9, 0)], 0),
        instruction(COPY, &[(4, 0), (5, 0)], 0),
        instruction(ADD + WITH_CONSTANT, &[(6, 0)], 1),
        instruction(COPY, &[(7, 0), (8, 0)], 0),
        instruction(NEXT, &[(0, 0)], 0),
        instruction(MUL + WITH_CONSTANT, &[(10, 1)], -2),
        instruction(COPY, &[(10, 0)], 0),
        instruction(SINK, &[], 0),
        instruction(STORE, &[], 0),
        instruction(FETCH, &[(12, 0)], 0),
        instruction(SUB, &[(13, 0), (14, 0)], 0),
        instruction(REM + WITH_CONSTANT, &[(15, 0)], 4),
        instruction(DIV + WITH_CONSTANT, &[(16, 0)], -3),
        instruction(OUT, &[], 0),
        instruction(OUT, &[], 0),
    ];
    let tokens = [
        between(0, 0, 0, 0),
        between(11, 0, 2, 2),
        between(12, 1, -4, 5),
    ];
    for (bound, outcome) in [(0, Outcome::Completed), (2, Outcome::Hung)] {
        let mut ranged = lend_ranges(&records, &tokens);
        ranged.lent.bound = bound;
        for picks in [vec![], vec![1; 60], vec![2; 60]] {
            ranged.lent.picks = common::picks(&picks);
            assert_eq!(ranged.holds_all_choices().outcome, outcome);
        }
    }
}

/// A range run of single values is the plain run.
#[test]
fn single_values_are_the_plain_run() {
    for (left, right) in [(7, -9), (i32::MIN, -1), (5, 0), (-7, 2)] {
        for code in CODES {
            let records = [instruction(code, &[(1, 0)], 0), instruction(OUT, &[], 0)];
            let tokens = [between(0, 0, left, left), between(0, 1, right, right)];
            lend_ranges(&records, &tokens).holds_all_choices();
        }
    }
}
