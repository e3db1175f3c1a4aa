//! A second emulator of the tagged-token machine with a ledger.
//!
//! It is written from the rules (documents 01 and 02) alone and shares nothing with the
//! engine, so that a run of both over the same bytes is a test of the engine.
//! Instructions and tokens are parsed once, the matching store is a map by
//! path, iteration, instruction and port, and the lent buffers are written once,
//! at the end of the run.

mod arithmetic;
mod arrays;
mod bounds;
mod convert;
mod expression;
mod graph;
mod hold;
mod listing;
mod log;
mod machine;
mod places;
mod printing;
mod profile;
mod ranges;
mod saved;
mod token;
mod value;

pub use bounds::{bounds, Bounds};
pub use convert::{convert, convert_log};
pub use expression::{expression, expression_value, EXPRESSION_RECORD, MOST_EXPRESSION_RECORDS};
pub use graph::{operand_count, Graph};
pub use hold::{held, Held};
pub use listing::list;
pub use log::{replay, run_logged};
pub use printing::print;
pub use profile::{profile, Profiled};
pub use ranges::{run_ranges, Range, RANGE_CELL_RECORD, RANGE_TOKEN_RECORD};
pub use saved::{broken_conditions, carry_on, Condition, Counts};

use std::collections::HashSet;

use arrays::Arrays;
use machine::{Checked, Machine};
use token::{KeyHashing, State, Token};
use value::Value;

/// Bytes of a graph record (01, "Graph records").
pub const GRAPH_RECORD: usize = 16;
/// Bytes of a token record (01, "Tokens and tags").
pub const TOKEN_RECORD: usize = 28;
/// Bytes of a cell record (01, "Firing").
pub const CELL_RECORD: usize = 8;
/// Bytes of a pick (01, "The printed listing").
pub const PICK_RECORD: usize = 2;
/// Bytes of a profile record (02, R-1).
pub const PROFILE_RECORD: usize = 4;
/// Bytes of a log record (02, R-7).
pub const LOG_RECORD: usize = 20;
/// Bytes of a record of the table of named arrays (02, R-10).
pub const ARRAY_RECORD: usize = 4;
/// Most records of inputs, picks or ledger (01, refusal 7).
pub const MOST_RECORDS: usize = 2048;
/// Most cells (01, refusal 7).
pub const MOST_CELLS: usize = 1024;
/// Most named arrays (02, R-10).
pub const MOST_ARRAYS: usize = 64;

/// A graph and its table of named arrays; an empty table names none.
#[derive(Clone, Copy, Debug)]
pub struct Program<'a> {
    pub graph: &'a [u8],
    pub arrays: &'a [u8],
}

impl Program<'_> {
    /// A graph without a table.
    pub fn plain(graph: &[u8]) -> Program<'_> {
        Program { graph, arrays: &[] }
    }
}

/// Which of the enabled activities a run takes, and how many firings it has.
#[derive(Clone, Copy, Debug)]
pub struct Schedule<'a> {
    pub picks: &'a [u8],
    pub budget: u16,
    /// The bound of loops, or 0 for none (02, R-9).
    pub bound: u16,
}

impl<'a> Schedule<'a> {
    /// Picks and a budget, without a bound.
    pub fn new(picks: &'a [u8], budget: u16) -> Schedule<'a> {
        Schedule {
            picks,
            budget,
            bound: 0,
        }
    }

    pub fn bounded(self, bound: u16) -> Schedule<'a> {
        Schedule { bound, ..self }
    }

    /// A schedule for a call that takes none.
    const NONE: Schedule<'static> = Schedule {
        picks: &[],
        budget: MOST_RECORDS as u16,
        bound: 0,
    };

    /// Refusal 21 for a bound that is neither 0 nor 2 to 256.
    fn check_bound(&self) -> Result<(), Refusal> {
        match self.bound {
            0 | 2..=256 => Ok(()),
            _ => Err(Refusal {
                number: 21,
                place: 0,
            }),
        }
    }

    fn picks_fit(&self) -> bool {
        fits(self.picks.len(), PICK_RECORD, MOST_RECORDS)
    }

    /// The pick for a firing; once picks run out, the first is taken (01, "Firing").
    fn pick(&self, firing: usize) -> u16 {
        match self.picks.get(2 * firing..2 * firing + 2) {
            Some(pick) => u16::from_le_bytes([pick[0], pick[1]]),
            None => 0,
        }
    }
}

/// A refusal by its number in the table of 01, with its place.
#[derive(Clone, Copy, Debug, PartialEq, Eq)]
pub struct Refusal {
    pub number: u8,
    pub place: usize,
}

impl Refusal {
    const BAD_STORE: Refusal = Refusal {
        number: 7,
        place: 0,
    };
}

/// How a run ended (01, "The answer and the refusals").
#[derive(Clone, Copy, Debug, PartialEq, Eq)]
pub enum Outcome {
    Completed,
    /// Nothing is enabled, and a token waits for a cell or for its partner (02, R-2).
    Hung,
    Spent,
    Refused(Refusal),
}

/// The answer to a run: its outcome with the counts of firings and tokens.
#[derive(Clone, Copy, Debug, PartialEq, Eq)]
pub struct Answer {
    pub outcome: Outcome,
    pub firings: usize,
    pub tokens: usize,
}

impl Answer {
    /// A refusal before anything is written.
    fn refused_at_first(refusal: Refusal) -> Answer {
        Answer {
            outcome: Outcome::Refused(refusal),
            firings: 0,
            tokens: 0,
        }
    }

    /// The place of a refusal; 0 otherwise.
    pub fn place(&self) -> usize {
        match self.outcome {
            Outcome::Refused(refusal) => refusal.place,
            Outcome::Completed | Outcome::Hung | Outcome::Spent => 0,
        }
    }

    /// The number of a refusal; `None` otherwise.
    pub fn refusal(&self) -> Option<u8> {
        match self.outcome {
            Outcome::Refused(refusal) => Some(refusal.number),
            Outcome::Completed | Outcome::Hung | Outcome::Spent => None,
        }
    }

    /// Whether the call was refused before its inputs were written, so that ledger and
    /// cells stay as lent. These refusals are 1 to 9 and 21 to 24 without tokens: a firing
    /// has at least one operand, and 18 and 20 come after the inputs, of which a replay
    /// may have none.
    pub fn refused_at_once(&self) -> bool {
        self.refusal()
            .is_some_and(|number| matches!(number, 1..=9 | 21..=24))
            && self.tokens == 0
    }
}

/// Runs a graph under the given picks; the lent ledger and cells are written as
/// 01 says, and stay as lent when the run is refused before any firing.
pub fn run(
    program: Program,
    inputs: &[u8],
    schedule: Schedule,
    ledger: &mut [u8],
    cells: &mut [u8],
) -> Answer {
    let lent = Lent {
        program,
        inputs,
        ledger,
        cells,
    };
    lent.accept(schedule, true, |machine: &mut Machine| {
        machine.run(schedule, |firing, _| schedule.pick(firing))
    })
}

/// The list of picks that a choosing function makes over a whole run with the
/// given capacity and number of cells. It gets the number of firings done and the
/// number of enabled activities, and answers with a pick.
pub fn picks_of(
    program: Program,
    inputs: &[u8],
    capacity: usize,
    cell_count: usize,
    mut choose: impl FnMut(usize, usize) -> u16,
) -> Vec<u8> {
    let mut picks = Vec::new();
    let lent = Lent {
        program,
        inputs,
        ledger: &mut vec![0; capacity * TOKEN_RECORD],
        cells: &mut vec![0; cell_count * CELL_RECORD],
    };
    lent.accept(Schedule::NONE, true, |machine: &mut Machine| {
        machine.run(Schedule::NONE, |firing, enabled| {
            let pick = choose(firing, enabled);
            picks.extend_from_slice(&pick.to_le_bytes());
            pick
        })
    });
    picks
}

/// The picks that always take the enabled activity with the latest place.
pub fn picks_newest_first(
    program: Program,
    inputs: &[u8],
    capacity: usize,
    cell_count: usize,
) -> Vec<u8> {
    picks_of(program, inputs, capacity, cell_count, |_, enabled| {
        (enabled - 1) as u16
    })
}

/// What every call that fires is lent.
struct Lent<'a> {
    program: Program<'a>,
    inputs: &'a [u8],
    ledger: &'a mut [u8],
    cells: &'a mut [u8],
}

impl Lent<'_> {
    /// Checks what is lent, and lets a machine go from the inputs; ledger and cells are
    /// written unless the checks refuse. `others_fit` says that refusal 7 finds no
    /// fault with what else is lent.
    fn accept<V: Value>(
        self,
        schedule: Schedule,
        others_fit: bool,
        go: impl FnOnce(&mut Machine<V>) -> Answer,
    ) -> Answer {
        match self.check(schedule, others_fit) {
            Err(refusal) => Answer::refused_at_first(refusal),
            Ok((program, tokens)) => {
                let capacity = self.ledger.len() / V::TOKEN;
                let cell_count = self.cells.len() / V::CELL;
                let mut machine = Machine::new(&program, capacity, cell_count, &tokens);
                let answer = go(&mut machine);
                machine.write(self.ledger, self.cells);
                answer
            }
        }
    }

    /// All checks before the first firing, in the order of 01 and 02: 1; records in turn,
    /// each 2 to 5; 7; 21; 22; inputs in turn for 6, then for 23; 8; 9 by input in turn.
    fn check<V: Value>(
        &self,
        schedule: Schedule,
        others_fit: bool,
    ) -> Result<(Checked, Vec<Token<V>>), Refusal> {
        let graph = Graph::parse(self.program.graph)?;
        let stores_fit = fits(self.inputs.len(), V::TOKEN, MOST_RECORDS)
            && fits(self.ledger.len(), V::TOKEN, MOST_RECORDS)
            && fits(self.cells.len(), V::CELL, MOST_CELLS);
        if !others_fit || !stores_fit || !schedule.picks_fit() {
            return Err(Refusal::BAD_STORE);
        }
        schedule.check_bound()?;
        let cell_count = self.cells.len() / V::CELL;
        let arrays = Arrays::parse(self.program.arrays, cell_count, &graph)?;
        let tokens: Vec<Token<V>> = parse_inputs(self.inputs, &graph)?;
        if let Some(place) = tokens.iter().position(|token| !token.value.proper()) {
            return Err(Refusal { number: 23, place });
        }
        let capacity = self.ledger.len() / V::TOKEN;
        if tokens.len() > capacity {
            // The first input that doesn't fit.
            return Err(Refusal {
                number: 8,
                place: capacity,
            });
        }
        let mut taken = HashSet::with_capacity_and_hasher(tokens.len(), KeyHashing::default());
        for (place, token) in tokens.iter().enumerate() {
            if !taken.insert(token.key()) {
                return Err(Refusal { number: 9, place });
            }
        }
        Ok((Checked { graph, arrays }, tokens))
    }
}

/// Whether a buffer is whole records, and no more than `most` (01, refusal 7).
fn fits(length: usize, record: usize, most: usize) -> bool {
    length % record == 0 && length / record <= most
}

/// The input tokens in turn, or 6 at the first that is bad.
fn parse_inputs<V: Value>(inputs: &[u8], graph: &Graph) -> Result<Vec<Token<V>>, Refusal> {
    let records = inputs.chunks_exact(V::TOKEN).enumerate();
    records
        .map(|(place, record)| input_token(record, graph).ok_or(Refusal { number: 6, place }))
        .collect()
}

/// The token of an input record, or `None` for refusal 6: the root path and
/// iteration, state 0, zeros, and an instruction and port that exist.
fn input_token<V: Value>(record: &[u8], graph: &Graph) -> Option<Token<V>> {
    let token = Token::parse(record)?;
    let root = token.path == 0 && token.iteration == 0 && token.state == State::Live;
    let operands = graph.operands(usize::from(token.instruction))?;
    (root && token.port < operands).then_some(token)
}
