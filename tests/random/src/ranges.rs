//! Range runs (02, R-11): the engine against the second emulator, whole and damaged, with and
//! without a bound, and the engine's plain runs of choices within the ranges.

use std::ops::Range;

use layout::fields::{cell, token};
use layout::widths::{CELL, RANGE_CELL, RANGE_TOKEN, TOKEN, WHOLE_BUDGET};
use layout::{code_of, signed, FETCH, STORE, SWITCH};
use second::{Answer, Outcome};

use crate::case::{Case, Guarded};
use crate::damage;
use crate::orders::End;
use crate::prng::Prng;
use crate::Harness;

/// Most choices of the inputs that are all tried; of more some are.
const MOST_CHOICES: usize = 16;

/// What is lent to a range run: a plain case, with inputs, ledger and cells of its own.
struct Lent<'a> {
    case: &'a Case,
    inputs: Vec<u8>,
    ledger_bytes: usize,
    cells_bytes: usize,
}

/// What a range run leaves.
struct Ranged {
    answer: Answer,
    ledger: Vec<u8>,
    cells: Vec<u8>,
}

impl Ranged {
    fn records(&self) -> impl Iterator<Item = &[u8]> {
        let records = self.ledger.chunks_exact(RANGE_TOKEN);
        records.take(self.answer.tokens)
    }
}

impl Harness {
    /// Inputs widened to ranges, in two orders, beside plain runs of choices; then under a
    /// bound, with another budget, and damaged.
    pub fn all_ranges(&mut self, ends: &[End], prng: &mut Prng) {
        let case = &ends[prng.below(ends.len())].case;
        if !case.stores_fit() {
            return;
        }
        let inputs = widened(&case.inputs, prng);
        let left = self.range_run(&lent(case, &inputs));
        self.tally.count_ranges(names(case, &left));
        let result = self.choices(case, &inputs, &left, prng);
        if let Err(reason) = result {
            self.fail(case, &format!("ranges: {reason}"));
        }
        let other = Case {
            picks: ends[prng.below(ends.len())].case.picks.clone(),
            ..case.clone()
        };
        let again = self.range_run(&lent(&other, &inputs));
        if let Err(reason) = agree(&left, &again) {
            self.fail(&other, &format!("ranges in another order: {reason}"));
        }
        self.other_ranges(&other, &inputs, prng);
    }

    /// The same inputs under a bound and a budget, good ones and bad ones, and damaged.
    fn other_ranges(&mut self, case: &Case, inputs: &[u8], prng: &mut Prng) {
        let mut case = case.clone();
        case.bound = [2, 3, 8, 256, 1, 257][prng.below(6)];
        case.garbage = prng.word();
        let left = self.range_run(&lent(&case, inputs));
        self.tally.count_ranges(vec![match left.answer.refusal() {
            Some(21) => "21",
            _ => "a good bound",
        }]);
        let result = self.choices(&case, inputs, &left, prng);
        if let Err(reason) = result {
            self.fail(&case, &format!("ranges, bound {}: {reason}", case.bound));
        }
        case.bound = 0;
        case.budget = [0, 1, prng.below(40) as u16][prng.below(3)];
        self.range_run(&lent(&case, inputs));
        case.budget = WHOLE_BUDGET;
        for _ in 0..2 {
            let mut case = case.clone();
            let mut lent = damaged(&mut case, inputs, prng);
            if prng.one_in(3) {
                damage::flip(&mut lent.inputs, prng);
            }
            let left = self.range_run(&lent);
            self.tally
                .count_ranges(vec![match left.answer.refused_at_once() {
                    true => "damaged, refused at once",
                    false => "damaged, and run",
                }]);
        }
    }

    /// The engine's range run must leave what the second emulator's does, in every byte.
    fn range_run(&mut self, lent: &Lent) -> Ranged {
        self.ranges += 1;
        let (left, result) = compared(lent);
        if let Err(reason) = result {
            self.fail(lent.case, &format!("range run: {reason}"));
        }
        left
    }

    /// Plain runs of all choices, or of some.
    fn choices(
        &mut self,
        case: &Case,
        inputs: &[u8],
        left: &Ranged,
        prng: &mut Prng,
    ) -> Result<(), String> {
        let all = all_choices(inputs);
        self.tally.count_ranges(vec![match all {
            Some(_) => "all choices",
            None => "some choices",
        }]);
        let some = || (0..4).map(|_| a_choice(inputs, prng)).collect();
        for chosen in all.unwrap_or_else(some) {
            let plain = Case {
                inputs: chosen,
                ..case.clone()
            };
            holds(left, &plain)?;
        }
        Ok(())
    }
}

/// Inputs with a high value each: mostly the low one, or some more; seldom less.
fn widened(inputs: &[u8], prng: &mut Prng) -> Vec<u8> {
    let mut wide = Vec::new();
    let mut wider = 0;
    for record in inputs.chunks_exact(TOKEN) {
        let low = signed(record, token::VALUE);
        let width = match prng.below(8) {
            0..=4 => 0,
            5 | 6 if wider < 3 => prng.between(1, 3),
            7 if wider < 3 && prng.one_in(4) => prng.between(4, 1000),
            7 if prng.one_in(30) => -1,
            _ => 0,
        };
        wider += i32::from(width > 0);
        wide.extend(record);
        wide.extend(low.saturating_add(width).to_le_bytes());
    }
    wide
}

/// The ranges of the inputs.
fn limits(inputs: &[u8]) -> impl Iterator<Item = (i32, i32)> + '_ {
    let records = inputs.chunks_exact(RANGE_TOKEN);
    records.map(|record| (signed(record, token::VALUE), signed(record, token::HIGH)))
}

/// Plain inputs with these values.
fn chosen(inputs: &[u8], values: &[i32]) -> Vec<u8> {
    let records = inputs.chunks_exact(RANGE_TOKEN).zip(values);
    records
        .flat_map(|(record, value)| {
            [
                &record[token::KEY],
                &value.to_le_bytes(),
                &record[token::STATE..TOKEN],
            ]
            .concat()
        })
        .collect()
}

/// All choices of the inputs, if they are few; none if a low value exceeds its high.
fn all_choices(inputs: &[u8]) -> Option<Vec<Vec<u8>>> {
    let mut choices = vec![Vec::new()];
    for (low, high) in limits(inputs) {
        if i64::from(high) - i64::from(low) > MOST_CHOICES as i64 {
            return None;
        }
        let more = |choice: &Vec<i32>| {
            let choice = choice.clone();
            (low..=high).map(move |value| [&choice[..], &[value]].concat())
        };
        choices = choices.iter().flat_map(more).collect();
        if choices.len() > MOST_CHOICES {
            return None;
        }
    }
    let plain = choices.iter().map(|values| chosen(inputs, values));
    Some(plain.collect())
}

fn a_choice(inputs: &[u8], prng: &mut Prng) -> Vec<u8> {
    let value = |(low, high): (i32, i32)| prng.between(low.min(high), high);
    let values: Vec<i32> = limits(inputs).map(value).collect();
    chosen(inputs, &values)
}

/// Buffers of as many records as the case's.
fn lent<'a>(case: &'a Case, inputs: &[u8]) -> Lent<'a> {
    Lent {
        case,
        inputs: inputs.to_vec(),
        ledger_bytes: case.ledger_bytes / TOKEN * RANGE_TOKEN,
        cells_bytes: case.cells_bytes / CELL * RANGE_CELL,
    }
}

/// A case damaged as a plain one is, or in the lengths of what a range run is lent.
fn damaged<'a>(case: &'a mut Case, inputs: &[u8], prng: &mut Prng) -> Lent<'a> {
    case.kind = "damaged";
    let which = prng.below(5);
    match which {
        0 => damage::damage_graph(&mut case.graph, prng),
        1 => damage::damage(case, prng),
        _ => {}
    }
    let mut lent = lent(case, inputs);
    match which {
        2 => lent.inputs.truncate(prng.below(inputs.len() + 1)),
        3 => lent.ledger_bytes = prng.below(lent.ledger_bytes + 2),
        4 => lent.cells_bytes = prng.below(lent.cells_bytes + 2),
        _ => {}
    }
    lent
}

/// What the second emulator leaves, and whether the engine leaves the same.
fn compared(lent: &Lent) -> (Ranged, Result<(), String>) {
    let mut prng = Prng::new(lent.case.garbage);
    let mut garbage = |length: usize| {
        let mut bytes = vec![0; length];
        prng.fill(&mut bytes);
        bytes
    };
    let (mut ledger, mut cells) = (garbage(lent.ledger_bytes), garbage(lent.cells_bytes));
    let mut found_ledger = Guarded::new(&ledger, 17);
    let mut found_cells = Guarded::new(&cells, 19);
    let (program, schedule) = (lent.case.program(), lent.case.schedule());
    let answer = second::run_ranges(program, &lent.inputs, schedule, &mut ledger, &mut cells);
    let found = engine::run_ranges(
        program,
        &lent.inputs,
        schedule,
        found_ledger.lent(),
        found_cells.lent(),
    );
    let due = engine::packed_answer(&answer);
    let result = match found == due {
        true => found_ledger
            .holds("ledger", &ledger)
            .and_then(|()| found_cells.holds("cells", &cells)),
        false => Err(format!(
            "answer (word, firings, tokens, place): {:?}, due {:?}",
            engine::unpacked(found),
            engine::unpacked(due)
        )),
    };
    let left = Ranged {
        answer,
        ledger,
        cells,
    };
    (left, result)
}

/// A plain run ends as the range run, with each value in its range; it may be refused by
/// 12 or 23 where no choice is.
fn holds(left: &Ranged, plain: &Case) -> Result<(), String> {
    if matches!(left.answer.refusal(), Some(12 | 23)) {
        return Ok(());
    }
    let mut ledger = vec![0; plain.ledger_bytes];
    let mut cells = vec![0; plain.cells_bytes];
    let (program, schedule) = (plain.program(), plain.schedule());
    let answer = engine::run(program, &plain.inputs, schedule, &mut ledger, &mut cells);
    if answer != engine::packed_answer(&left.answer) {
        let answer = engine::unpacked(answer);
        return Err(format!("{answer:?}, due {:?}", left.answer));
    }
    // Then both left every byte as lent.
    if left.answer.refused_at_once() {
        return Ok(());
    }
    // The value of a plain record against the low and the high one of a range.
    let inside = |plain: &[u8], range: &[u8], value: Range<usize>, high: Range<usize>| {
        (signed(range, value.clone())..=signed(range, high)).contains(&signed(plain, value))
    };
    for (token, range) in ledger.chunks_exact(TOKEN).zip(left.records()) {
        let alike = token[token::KEY] == range[token::KEY]
            && token[token::STATE..] == range[token::STATE..TOKEN];
        if !alike || !inside(token, range, token::VALUE, token::HIGH) {
            return Err("a token outside its range".to_string());
        }
    }
    let ranges = left.cells.chunks_exact(RANGE_CELL);
    for (cell, range) in cells.chunks_exact(CELL).zip(ranges) {
        let alike = cell[cell::STATE..] == range[cell::STATE..CELL];
        if !alike || !inside(cell, range, cell::VALUE, cell::HIGH) {
            return Err("a cell outside its range".to_string());
        }
    }
    Ok(())
}

/// Any two orders of a range run agree as those of a plain one do.
fn agree(one: &Ranged, other: &Ranged) -> Result<(), String> {
    let sorted = |ranged: &Ranged| {
        let mut records: Vec<Vec<u8>> = ranged.records().map(<[u8]>::to_vec).collect();
        records.sort_unstable();
        records
    };
    match (one.answer.outcome, other.answer.outcome) {
        (Outcome::Refused(_), Outcome::Refused(_)) => Ok(()),
        (Outcome::Completed, Outcome::Completed) | (Outcome::Hung, Outcome::Hung)
            if one.answer == other.answer
                && one.cells == other.cells
                && sorted(one) == sorted(other) =>
        {
            Ok(())
        }
        _ => Err(format!("{:?}, due {:?}", other.answer, one.answer)),
    }
}

/// What has to come up among the range runs.
pub const NAMES: [&str; 19] = [
    "completed",
    "hung",
    "refused at once",
    "23 of an input",
    "23 at a SWITCH",
    "23 at a FETCH",
    "23 at a STORE",
    "12",
    "10 or 11",
    "13 to 17",
    "8 or 9",
    "a result that is a range",
    "a cell that is a range",
    "all choices",
    "some choices",
    "21",
    "a good bound",
    "damaged, refused at once",
    "damaged, and run",
];

/// Which of the names a range run has.
fn names(case: &Case, left: &Ranged) -> Vec<&'static str> {
    let mut names = match left.answer.outcome {
        Outcome::Completed | Outcome::Spent => vec!["completed"],
        Outcome::Hung => vec!["hung"],
        Outcome::Refused(refusal) => vec![match refusal.number {
            23 if left.answer.tokens == 0 => "23 of an input",
            23 => undecided(case, left),
            _ if left.answer.refused_at_once() => "refused at once",
            12 => "12",
            10 | 11 => "10 or 11",
            13..=17 => "13 to 17",
            _ => "8 or 9",
        }],
    };
    if left.answer.outcome == Outcome::Completed {
        let wide = |record: &[u8]| {
            record[token::STATE] == token::LIVE && record[token::VALUE] != record[token::HIGH]
        };
        if left.records().any(wide) {
            names.push("a result that is a range");
        }
        let wide = |record: &[u8]| record[cell::VALUE] != record[cell::HIGH];
        if left.cells.chunks_exact(RANGE_CELL).any(wide) {
            names.push("a cell that is a range");
        }
    }
    names
}

/// The operation that 23 could not decide.
fn undecided(case: &Case, left: &Ranged) -> &'static str {
    let place = left.answer.place();
    let record = left.records().nth(place).expect("a token at its place");
    match code_of(&case.graph, record) {
        SWITCH => "23 at a SWITCH",
        FETCH => "23 at a FETCH",
        STORE => "23 at a STORE",
        code => unreachable!("23 at code {code}"),
    }
}
