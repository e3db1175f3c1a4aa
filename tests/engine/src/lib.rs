//! The engine under test, and what the second emulator expects of it. Answers stay packed as the C functions give them,
//! so that a comparison sees every bit.

use second::{Bounds, Counts, Outcome, Program, Refusal, Schedule};
use ttda::{Answer, Limits, Printed, Word};

/// The word of a completed run in a packed answer; a refused run has the refusal's number.
pub const COMPLETED: u64 = Word::COMPLETED as u64;
/// The word of a run whose budget is spent.
pub const SPENT: u64 = Word::SPENT as u64;
/// The word of a run that hangs: nothing is enabled, and it is not completed.
pub const HUNG: u64 = Word::HUNG as u64;
/// What `print` answers when the text does not fit.
pub const TOO_SMALL: u64 = Printed::TOO_SMALL.0;
/// What `print` answers to a number that is no packed answer.
pub const NO_ANSWER: u64 = Printed::NO_ANSWER.0;

/// Whether a word is the number of a refusal. Numbers 15 and 16 have left the table.
pub fn is_refusal(word: u64) -> bool {
    matches!(word, 1..=14 | 17..=26)
}

/// The packed answer of a word with its firings, tokens and place.
pub fn packed(word: u64, firings: usize, tokens: usize, place: usize) -> u64 {
    word + ((firings as u64) << 16) + ((tokens as u64) << 32) + ((place as u64) << 48)
}

/// The packed form of the second emulator's answer.
pub fn packed_answer(answer: &second::Answer) -> u64 {
    let word = match answer.outcome {
        Outcome::Completed => COMPLETED,
        Outcome::Hung => HUNG,
        Outcome::Spent => SPENT,
        Outcome::Refused(refusal) => u64::from(refusal.number),
    };
    packed(word, answer.firings, answer.tokens, answer.place())
}

/// The packed form of the second emulator's bounds.
pub fn packed_bounds(bounds: &Result<Bounds, Refusal>) -> u64 {
    match bounds {
        Ok(bounds) => packed(0, bounds.firings, bounds.tokens, 0),
        Err(refusal) => packed(u64::from(refusal.number), 0, 0, refusal.place),
    }
}

/// The packed form of the second emulator's answer to an expression: word 0 or a refusal, records made, 0, place.
pub fn packed_expression(records: &Result<usize, Refusal>) -> u64 {
    match records {
        Ok(records) => packed(0, *records, 0, 0),
        Err(refusal) => packed(u64::from(refusal.number), 0, 0, refusal.place),
    }
}

/// The packed form of the second emulator's value of an expression: word 0 or a refusal, 32 bits of the value, place.
pub fn packed_value(value: &Result<i32, Refusal>) -> u64 {
    match value {
        Ok(value) => u64::from(*value as u32) << 16,
        Err(refusal) => packed(u64::from(refusal.number), 0, 0, refusal.place),
    }
}

/// The parts of a packed answer: word, firings, tokens and place.
pub fn unpacked(answer: u64) -> (u64, u64, u64, u64) {
    let (word, firings, tokens, place) = Answer(answer).parts();
    (word.into(), firings.into(), tokens.into(), place.into())
}

/// Runs the engine.
pub fn run(
    Program { graph, arrays }: Program,
    inputs: &[u8],
    Schedule {
        picks,
        budget,
        bound,
    }: Schedule,
    ledger: &mut [u8],
    cells: &mut [u8],
) -> u64 {
    ttda::run(graph, arrays, inputs, picks, budget, bound, ledger, cells).0
}

/// Runs the engine over ranges.
pub fn run_ranges(
    Program { graph, arrays }: Program,
    inputs: &[u8],
    Schedule {
        picks,
        budget,
        bound,
    }: Schedule,
    ledger: &mut [u8],
    cells: &mut [u8],
) -> u64 {
    ttda::run_ranges(graph, arrays, inputs, picks, budget, bound, ledger, cells).0
}

/// Goes on from the state that ledger and cells hold.
pub fn carry_on(
    Program { graph, arrays }: Program,
    Schedule {
        picks,
        budget,
        bound,
    }: Schedule,
    Counts { firings, tokens }: Counts,
    ledger: &mut [u8],
    cells: &mut [u8],
) -> u64 {
    ttda::carry_on(
        graph, arrays, picks, budget, bound, firings, tokens, ledger, cells,
    )
    .0
}

/// The engine's profile in ideal steps; the answer and the number of records.
pub fn profile(
    Program { graph, arrays }: Program,
    inputs: &[u8],
    ledger: &mut [u8],
    cells: &mut [u8],
    profile: &mut [u8],
) -> (u64, u64) {
    // A number that no profile has, so that one left unwritten shows.
    let mut records = u64::MAX;
    let answer = ttda::profile(graph, arrays, inputs, ledger, cells, profile, &mut records);
    (answer.0, records)
}

/// Runs the engine and writes the log of its firings.
pub fn run_logged(
    Program { graph, arrays }: Program,
    inputs: &[u8],
    Schedule {
        picks,
        budget,
        bound,
    }: Schedule,
    ledger: &mut [u8],
    cells: &mut [u8],
    log: &mut [u8],
) -> u64 {
    ttda::run_logged(
        graph, arrays, inputs, picks, budget, bound, ledger, cells, log,
    )
    .0
}

/// Fires what a log names.
pub fn replay(
    Program { graph, arrays }: Program,
    inputs: &[u8],
    log: &[u8],
    ledger: &mut [u8],
    cells: &mut [u8],
) -> u64 {
    ttda::replay(graph, arrays, inputs, log, ledger, cells).0
}

/// The engine's bounds of a graph: word 0 or a refusal, most firings, most tokens, place.
pub fn bounds(graph: &[u8], inputs: &[u8]) -> u64 {
    ttda::bounds(graph, inputs).0
}

/// Makes the graph of an expression at the start of `graph`.
pub fn expression(expression: &[u8], graph: &mut [u8]) -> u64 {
    ttda::expression(expression, graph).0
}

/// The value of an expression, of the values of its variables.
pub fn expression_value(expression: &[u8], values: &[u8]) -> u64 {
    ttda::expression_value(expression, values).0
}

/// Makes token records of 20 bytes records of 28; answers 0 or 7.
pub fn convert(old: &[u8], out: &mut [u8]) -> u64 {
    ttda::convert(old, out).0
}

/// The same of log records, 12 bytes made 20.
pub fn convert_log(old: &[u8], out: &mut [u8]) -> u64 {
    ttda::convert_log(old, out).0
}

/// A run as a cache knows it: what is lent, ledger and cells by their lengths in bytes.
#[derive(Clone, Copy)]
pub struct Request<'a> {
    pub program: Program<'a>,
    pub inputs: &'a [u8],
    pub schedule: Schedule<'a>,
    pub ledger: usize,
    pub cells: usize,
}

impl Request<'_> {
    fn limits(&self) -> Limits {
        Limits {
            budget: self.schedule.budget.into(),
            bound: self.schedule.bound.into(),
            ledger: self.ledger as u64,
            cells: self.cells as u64,
        }
    }
}

/// How many activities a bound holds back in a saved state, and how many are enabled in all; `None` if it is refused.
pub fn held(
    graph: &[u8],
    bound: u16,
    Counts { firings, tokens }: Counts,
    ledger: &[u8],
    cells: &[u8],
) -> Option<(usize, usize)> {
    let found = ttda::held(graph, bound, firings, tokens, ledger, cells);
    (found.word() == Word::Completed).then_some((found.held(), found.enabled()))
}

/// Whether what was kept of a run, with its packed answer and the number of activities held back if it hung, serves for a run
/// that is asked for: 1 or 0.
pub fn serves(kept: &Request, kept_answer: u64, kept_held: usize, asked: &Request) -> u64 {
    ttda::serves(
        kept.program.graph,
        kept.program.arrays,
        kept.inputs,
        kept.schedule.picks,
        &kept.limits(),
        Answer(kept_answer),
        kept_held as u64,
        asked.program.graph,
        asked.program.arrays,
        asked.inputs,
        asked.schedule.picks,
        &asked.limits(),
    )
    .0
}

/// Sorts the used records of a ledger into `out`; answers 0 or 7.
pub fn list(ledger: &[u8], out: &mut [u8]) -> u64 {
    ttda::list(ledger, out).0
}

/// Prints a packed answer, a listing and cells to the start of `out`; answers the number of bytes, `TOO_SMALL` or
/// `NO_ANSWER`.
pub fn print(answer: u64, listing: &[u8], cells: &[u8], out: &mut [u8]) -> u64 {
    ttda::print(Answer(answer), listing, cells, out).0
}
