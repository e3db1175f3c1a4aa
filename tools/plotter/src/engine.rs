//! What the plotter asks of the engine, and the proved library that answers it.

use ttda::layout::fields::step;
use ttda::layout::unsigned;
use ttda::widths::{CELL, MOST_RECORDS, STEP, TOKEN};

/// All that a run depends on.
#[derive(Clone, Debug, PartialEq, Eq)]
pub struct Request {
    pub graph: Vec<u8>,
    /// The table of named arrays, which may be empty.
    pub arrays: Vec<u8>,
    pub inputs: Vec<u8>,
    pub picks: Vec<u8>,
    pub budget: u16,
    /// The loop bound, 0 for none. A profile takes none.
    pub bound: u16,
    /// Records of the ledger.
    pub capacity: u16,
    /// I-structure cells.
    pub cells: u16,
}

/// What a run answers and leaves.
#[derive(Clone, Debug, PartialEq, Eq)]
pub struct Left {
    /// The answer in one number, as the library gives it.
    pub answer: u64,
    /// The used records of the ledger, in order of arrival.
    pub ledger: Vec<u8>,
    pub cells: Vec<u8>,
}

/// A run in ideal steps, which takes no picks, no budget and no loop bound.
#[derive(Clone, Debug, PartialEq, Eq)]
pub struct Profile {
    pub answer: u64,
    /// The whole steps.
    pub steps: Vec<Step>,
}

/// One ideal step: how many activities fired in it, and how many tokens are live or deferred after it.
#[derive(Clone, Copy, Debug, PartialEq, Eq)]
pub struct Step {
    pub firings: u16,
    pub tokens: u16,
}

impl Step {
    /// The steps of a profile's records.
    pub fn all(records: &[u8]) -> Vec<Step> {
        let step = |record: &[u8]| Step {
            firings: unsigned(record, step::FIRINGS),
            tokens: unsigned(record, step::TOKENS),
        };
        records.chunks_exact(STEP).map(step).collect()
    }

    /// The records of steps.
    pub fn records(steps: &[Step]) -> Vec<u8> {
        let bytes = |step: &Step| [step.firings.to_le_bytes(), step.tokens.to_le_bytes()].concat();
        steps.iter().flat_map(bytes).collect()
    }
}

/// The engine, by what it promises of these three calls.
pub trait Engine {
    /// Runs a graph in buffers of the asked sizes.
    fn run(&self, asked: &Request) -> Left;

    /// The profile of the graph, arrays and inputs that are asked for.
    fn profile(&self, asked: &Request) -> Profile;

    /// Whether the run asked for gives the answer of the kept run, which left this, and its listing, cells and profile in every byte.
    fn serves(&self, kept: &Request, left: &Left, asked: &Request) -> bool;
}

/// The proved library, lent buffers of zeros.
pub struct Library;

impl Engine for Library {
    fn run(&self, asked: &Request) -> Left {
        let (mut ledger, mut cells) = lent(asked);
        let answer = ttda::run(
            &asked.graph,
            &asked.arrays,
            &asked.inputs,
            &asked.picks,
            asked.budget,
            asked.bound,
            &mut ledger,
            &mut cells,
        );
        ledger.truncate(TOKEN * answer.tokens());
        Left {
            answer: answer.0,
            ledger,
            cells,
        }
    }

    fn profile(&self, asked: &Request) -> Profile {
        let (mut ledger, mut cells) = lent(asked);
        let (mut profile, mut records) = (vec![0; STEP * MOST_RECORDS], 0);
        let answer = ttda::profile(
            &asked.graph,
            &asked.arrays,
            &asked.inputs,
            &mut ledger,
            &mut cells,
            &mut profile,
            &mut records,
        );
        Profile {
            answer: answer.0,
            steps: Step::all(&profile[..STEP * records as usize]),
        }
    }

    fn serves(&self, kept: &Request, left: &Left, asked: &Request) -> bool {
        let served = ttda::serves(
            &kept.graph,
            &kept.arrays,
            &kept.inputs,
            &kept.picks,
            &limits(kept),
            ttda::Answer(left.answer),
            held(kept, left),
            &asked.graph,
            &asked.arrays,
            &asked.inputs,
            &asked.picks,
            &limits(asked),
        );
        served.is_yes()
    }
}

/// How many activities the bound of a run holds back in what it left. A run that is refused before any firing leaves no state, and
/// none is asked of it.
fn held(kept: &Request, left: &Left) -> u64 {
    let (_, firings, tokens, _) = ttda::Answer(left.answer).parts();
    let counts = ttda::held(
        &kept.graph,
        kept.bound,
        firings,
        tokens,
        &left.ledger,
        &left.cells,
    );
    counts.held() as u64
}

fn limits(request: &Request) -> ttda::Limits {
    ttda::Limits {
        budget: request.budget.into(),
        bound: request.bound.into(),
        ledger: (TOKEN * usize::from(request.capacity)) as u64,
        cells: (CELL * usize::from(request.cells)) as u64,
    }
}

/// A ledger and cells of the asked sizes.
fn lent(asked: &Request) -> (Vec<u8>, Vec<u8>) {
    let (capacity, cells) = (usize::from(asked.capacity), usize::from(asked.cells));
    (vec![0; TOKEN * capacity], vec![0; CELL * cells])
}
