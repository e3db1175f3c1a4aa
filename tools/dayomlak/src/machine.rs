//! Runs of the proved engine over a program, with buffers of chosen sizes.

use plotter::{Fingerprint, Left, Step};
pub use ttda::widths::WHOLE_BUDGET as WHOLE;
use ttda::widths::{self, PICK, STEP};

use crate::answer::Answer;
use crate::failure::Failure;
use crate::orders::Order;
use crate::pictures;
use crate::program::Program;
use crate::ranges;
use crate::records::{
    self, Cell, Tag, Token, CELL, LOGGED, MOST_CELLS, MOST_RECORDS, RANGE_CELL, RANGE_TOKEN, TOKEN,
};
use crate::saved::State;

/// The records of ledger and cells.
#[derive(Clone, Copy, Debug, PartialEq, Eq)]
pub struct Sizes {
    pub capacity: usize,
    pub cells: usize,
}

/// The most that a run may be lent.
impl Default for Sizes {
    fn default() -> Sizes {
        Sizes {
            capacity: MOST_RECORDS,
            cells: MOST_CELLS,
        }
    }
}

/// What a run answers and leaves.
#[derive(Clone, Debug, PartialEq, Eq)]
pub struct End {
    pub answer: Answer,
    /// The used records, in order of arrival.
    ledger: Vec<u8>,
    cells: Vec<u8>,
    /// Whether the records are those of a run of ranges.
    pub ranged: bool,
}

impl End {
    pub fn of(answer: Answer, ledger: Vec<u8>, cells: Vec<u8>) -> End {
        End {
            answer,
            ledger,
            cells,
            ranged: false,
        }
    }

    /// Of a run of ranges.
    pub fn of_ranges(answer: Answer, ledger: Vec<u8>, cells: Vec<u8>) -> End {
        End {
            ranged: true,
            ..End::of(answer, ledger, cells)
        }
    }

    /// The used records of the ledger, in order of arrival, and the cells.
    pub fn bytes(&self) -> (&[u8], &[u8]) {
        (&self.ledger, &self.cells)
    }

    /// The same as plain records: of a run of ranges those of the low ends, which have the same tags, ports and states.
    fn low_ends(&self) -> (Vec<u8>, Vec<u8>) {
        match self.ranged {
            true => (
                records::low_ends(&self.ledger, TOKEN),
                records::low_ends(&self.cells, CELL),
            ),
            false => (self.ledger.clone(), self.cells.clone()),
        }
    }

    /// The tokens in order of arrival.
    pub fn tokens(&self) -> Vec<Token> {
        match self.ranged {
            true => records::range_tokens(&self.ledger),
            false => records::tokens(&self.ledger),
        }
    }

    pub fn cells(&self) -> Vec<Cell> {
        match self.ranged {
            true => records::range_cells(&self.cells),
            false => records::cells(&self.cells),
        }
    }

    /// The tokens in the order of the listing: by path, iteration, instruction and port. The engine lists plain records only.
    pub fn listed(&self) -> Vec<Token> {
        if !self.ranged {
            return records::tokens(&self.listing());
        }
        let mut tokens = self.tokens();
        tokens.sort_by_key(|token| (token.tag, token.port));
        tokens
    }

    /// The sorted records of the tokens, of a plain run.
    pub fn listing(&self) -> Vec<u8> {
        let mut listing = vec![0; self.ledger.len()];
        ttda::list(&self.ledger, &mut listing);
        listing
    }

    /// The lines of the printing program.
    pub fn text(&self) -> Result<Vec<u8>, Failure> {
        let listing = self.listing();
        let cells = self.cells.len() / CELL;
        let mut room = vec![0; widths::printed(self.answer.tokens, cells)];
        let printed = ttda::print(
            ttda::Answer(self.answer.packed),
            &listing,
            &self.cells,
            &mut room,
        );
        let length = printed.length().map_err(|_| {
            Failure::Inconsistent("the engine prints no lines of its own answer".to_string())
        })?;
        room.truncate(length);
        Ok(room)
    }
}

impl From<&Left> for End {
    fn from(left: &Left) -> End {
        let (ledger, cells) = (left.ledger.clone(), left.cells.clone());
        End::of(Answer::of(left.answer), ledger, cells)
    }
}

/// A program with the buffers that it is run in, and the loop bound of its runs.
#[derive(Clone, Copy)]
pub struct Machine<'p> {
    pub program: &'p Program,
    pub sizes: Sizes,
    /// 0 for none. Profiles and replays take none.
    pub bound: u16,
    /// What runs go on from; without it they begin at the inputs.
    pub start: Option<&'p State>,
    /// Whether runs are of ranges. All else that is asked of it is of the low ends.
    pub ranged: bool,
}

impl<'p> Machine<'p> {
    pub fn new(program: &'p Program, sizes: Sizes) -> Machine<'p> {
        Machine {
            program,
            sizes,
            bound: 0,
            start: None,
            ranged: false,
        }
    }

    /// The same for runs of ranges, or for plain ones, of the low ends.
    pub fn ranged(self, ranged: bool) -> Machine<'p> {
        Machine { ranged, ..self }
    }

    /// The same with a loop bound, 0 for none.
    pub fn bounded(self, bound: u16) -> Machine<'p> {
        Machine { bound, ..self }
    }

    /// The fingerprint of its runs: graph, arrays, inputs and bound.
    pub fn fingerprint(&self) -> Fingerprint {
        pictures::fingerprint(&self.program.files).bounded(self.bound)
    }

    /// An order of its runs in words.
    pub fn order(&self, order: &Order) -> String {
        self.under_bound(&order.words(self.program))
    }

    /// The words of an order, with the bound if there is one.
    pub fn under_bound(&self, order: &str) -> String {
        match self.bound {
            0 => order.to_string(),
            bound => format!("{order}, bound {bound}"),
        }
    }

    pub fn run(&self, picks: &[u8], budget: u16) -> End {
        if let Some(state) = self.start {
            return self.carry_on(state, picks, budget);
        }
        match self.ranged {
            true => self.run_ranges(picks, budget),
            false => self.run_inputs(&self.program.files.inputs, picks, budget),
        }
    }

    /// A plain run with these inputs in the place of the program's own.
    pub fn run_inputs(&self, inputs: &[u8], picks: &[u8], budget: u16) -> End {
        let (graph, arrays, _) = self.lent();
        let bound = self.bound;
        self.call(|ledger, cells| {
            ttda::run(graph, arrays, inputs, picks, budget, bound, ledger, cells)
        })
    }

    fn run_ranges(&self, picks: &[u8], budget: u16) -> End {
        let (graph, arrays, _) = self.lent();
        let inputs = self.program.range_inputs();
        let mut ledger = vec![0; RANGE_TOKEN * self.sizes.capacity];
        let mut cells = vec![0; RANGE_CELL * self.sizes.cells];
        let answer = ranges::run::run_ranges(
            graph,
            arrays,
            &inputs,
            picks,
            budget,
            self.bound,
            &mut ledger,
            &mut cells,
        );
        let answer = Answer::of(answer.0);
        ledger.truncate(RANGE_TOKEN * answer.tokens);
        End::of_ranges(answer, ledger, cells)
    }

    /// Goes on from a state. Budget and picks are those of this part.
    pub fn carry_on(&self, state: &State, picks: &[u8], budget: u16) -> End {
        let (graph, arrays, _) = self.lent();
        // Tokens that do not fit are cut off here; the engine is told of all and refuses them.
        let mut ledger = state.ledger.clone();
        ledger.resize(TOKEN * self.sizes.capacity, 0);
        let mut cells = state.cells.clone();
        let (firings, tokens) = (state.firings, state.tokens());
        let answer = ttda::carry_on(
            graph,
            arrays,
            picks,
            budget,
            self.bound,
            firings,
            tokens,
            &mut ledger,
            &mut cells,
        );
        let answer = Answer::of(answer.0);
        ledger.truncate(TOKEN * answer.tokens);
        End::of(answer, ledger, cells)
    }

    /// How many firings and tokens there are before the first firing of a run.
    pub fn given(&self) -> (usize, usize) {
        match self.start {
            Some(state) => (state.firings.into(), state.tokens().into()),
            None => (0, self.program.input_count()),
        }
    }

    /// Runs and answers the activities in the order of their firing too, from wherever runs begin.
    pub fn run_traced(&self, picks: &[u8], budget: u16) -> Result<(End, Vec<Tag>), Failure> {
        match self.start {
            Some(state) => self.run_stepped(state, picks, budget),
            None => Ok(self.run_logged(picks, budget)),
        }
    }

    /// Fires one by one, since a run from a state has no log: what is spent after a firing, and was not before, has fired.
    fn run_stepped(
        &self,
        state: &State,
        picks: &[u8],
        budget: u16,
    ) -> Result<(End, Vec<Tag>), Failure> {
        let (mut at, mut log) = (state.clone(), Vec::new());
        let mut picks_left = picks.chunks_exact(PICK);
        for _ in 0..budget {
            let end = self.carry_on(&at, picks_left.next().unwrap_or_default(), 1);
            let Some(tag) = fired(&records::tokens(&at.ledger), &end.tokens()) else {
                break;
            };
            log.push(tag);
            at = State::of(&end);
        }
        let end = self.run(picks, budget);
        match end.answer.refused_at_once() || State::of(&end) == at {
            true => Ok((end, log)),
            false => Err(Failure::Inconsistent(
                "the run from the saved state and its firings one by one differ".to_string(),
            )),
        }
    }

    /// Runs and answers the activities in the order of their firing too.
    pub fn run_logged(&self, picks: &[u8], budget: u16) -> (End, Vec<Tag>) {
        let (end, log) = self.run_for_log(picks, budget);
        (end, log.chunks_exact(LOGGED).map(Tag::of).collect())
    }

    /// Runs and answers the records of the log too.
    pub fn run_for_log(&self, picks: &[u8], budget: u16) -> (End, Vec<u8>) {
        let mut log = vec![0; LOGGED * MOST_RECORDS];
        let (graph, arrays, inputs) = self.lent();
        let end = self.call(|ledger, cells| {
            ttda::run_logged(
                graph, arrays, inputs, picks, budget, self.bound, ledger, cells, &mut log,
            )
        });
        log.truncate(LOGGED * end.answer.firings);
        (end, log)
    }

    pub fn replay(&self, log: &[u8]) -> End {
        let (graph, arrays, inputs) = self.lent();
        self.call(|ledger, cells| ttda::replay(graph, arrays, inputs, log, ledger, cells))
    }

    pub fn profile(&self) -> (End, Vec<Step>) {
        self.profile_within(MOST_RECORDS)
    }

    /// The profile with room for these steps; before the next one it is refused by 18.
    pub fn profile_within(&self, most: usize) -> (End, Vec<Step>) {
        let (graph, arrays, inputs) = self.lent();
        let (mut profile, mut records) = (vec![0; STEP * most], 0);
        let end = self.call(|ledger, cells| {
            ttda::profile(
                graph,
                arrays,
                inputs,
                ledger,
                cells,
                &mut profile,
                &mut records,
            )
        });
        profile.truncate(STEP * records as usize);
        (end, Step::all(&profile))
    }

    /// Refused, or how many firings and tokens no run exceeds.
    pub fn bounds(&self) -> Answer {
        let (graph, _, inputs) = self.lent();
        Answer::of(ttda::bounds(graph, inputs).0)
    }

    /// How many activities the engine counts as held back, and how many as enabled, in what a run left; `None` if it refuses the
    /// state.
    pub fn held(&self, end: &End) -> Option<(usize, usize)> {
        let (graph, _, _) = self.lent();
        let (ledger, cells) = end.low_ends();
        let (_, firings, tokens, _) = ttda::Answer(end.answer.packed).parts();
        let found = ttda::held(graph, self.bound, firings, tokens, &ledger, &cells);
        (found.word() == ttda::Word::Completed).then(|| (found.held(), found.enabled()))
    }

    /// What every call is lent: the graph, its arrays and its inputs.
    fn lent(&self) -> (&[u8], &[u8], &[u8]) {
        let files = &self.program.files;
        (&files.graph, &files.arrays, &files.inputs)
    }

    /// Lends new buffers of zeros as ledger and cells, and keeps what is used of them.
    fn call(&self, engine: impl FnOnce(&mut [u8], &mut [u8]) -> ttda::Answer) -> End {
        let mut ledger = vec![0; TOKEN * self.sizes.capacity];
        let mut cells = vec![0; CELL * self.sizes.cells];
        let answer = Answer::of(engine(&mut ledger, &mut cells).0);
        ledger.truncate(TOKEN * answer.tokens);
        End::of(answer, ledger, cells)
    }
}

/// The activity that was fired between two states.
pub fn fired(before: &[Token], after: &[Token]) -> Option<Tag> {
    let is_spent = |token: &Token| token.state == records::State::Spent;
    let mut both = before.iter().zip(after);
    both.find(|(before, after)| !is_spent(before) && is_spent(after))
        .map(|(before, _)| before.tag)
}
