//! Saved states: runs cut into parts, orders from a state, and states that are damaged
//! (02, R-13).

use layout::fields::token;
use layout::widths::{MOST_RECORDS, PICK, TOKEN, WHOLE_BUDGET};
use second::{Condition, Counts, Outcome};

use crate::arrays;
use crate::case::{Call, Case, Left, State};
use crate::damage;
use crate::orders::{self, End};
use crate::prng::Prng;
use crate::states;
use crate::Harness;

impl Left {
    /// What a run left, to be carried on.
    pub fn state(&self) -> State {
        State {
            saved: Counts {
                firings: self.answer.firings as u16,
                tokens: self.answer.tokens as u16,
            },
            ledger: self.ledger.clone(),
            cells: self.cells.clone(),
        }
    }
}

/// A run of a case from a state, in place of its inputs.
fn from_state(case: &Case, state: State) -> Case {
    Case {
        kind: "saved",
        inputs: Vec::new(),
        ledger_bytes: state.ledger.len(),
        cells_bytes: state.cells.len(),
        call: Call::CarryOn(state),
        ..case.clone()
    }
}

/// Runs of more firings are cut at a few of them only.
const MOST_CUTS: usize = 40;

impl Harness {
    /// An order cut into parts; two orders from a state that a run left; and states that
    /// are damaged or that no run leaves.
    pub fn all_states(&mut self, ends: &[End], prng: &mut Prng) {
        let end = &ends[prng.below(ends.len())];
        if end.left.answer.refused_at_once() {
            return;
        }
        let every = end.left.answer.firings <= MOST_CUTS && prng.one_in(4);
        if prng.one_in(4) {
            let short = self.with_less(end, prng);
            self.cut(&short, every, prng);
        } else {
            self.cut(end, every, prng);
        }
        let state = self.with_less(end, prng).left.state();
        let case = from_state(&end.case, state);
        if prng.one_in(2) {
            self.orders_from(&case, prng);
        }
        for _ in 0..4 {
            let mut case = case.clone();
            let Call::CarryOn(state) = &mut case.call else {
                unreachable!("the case is a run from a state")
            };
            states::change(&case.graph, state, prng);
            case.ledger_bytes = state.ledger.len();
            case.cells_bytes = state.cells.len();
            case.budget = [0, 1, WHOLE_BUDGET, WHOLE_BUDGET][prng.below(4)];
            match prng.below(24) {
                0 => damage::damage_graph(&mut case.graph, prng),
                1 => damage::damage_picks(&mut case.picks, prng),
                2 => arrays::damage(&mut case, prng),
                _ => {}
            }
            self.carry_on(&case);
        }
    }

    /// A run from a state; the tally says what of the list the state breaks.
    fn carry_on(&mut self, case: &Case) -> Left {
        let left = self.call(case);
        if let Call::CarryOn(state) = &case.call {
            self.tally.count_saved(names(case, state, &left));
        }
        left
    }

    /// A run again with a budget for some of its firings.
    fn with_less(&mut self, end: &End, prng: &mut Prng) -> End {
        let mut case = end.case.clone();
        case.call = Call::Run;
        case.budget = prng.below(end.left.answer.firings + 1) as u16;
        let left = self.call(&case);
        End { case, left }
    }

    /// A run in parts, whose budgets add up to its own and whose picks are divided alike,
    /// ends as the uncut run in every byte of answer, ledger and cells.
    fn cut(&mut self, end: &End, every: bool, prng: &mut Prng) {
        let mut case = end.case.clone();
        case.call = Call::Run;
        let mut budget = end.case.budget;
        let mut picks = &end.case.picks[..];
        let left = loop {
            let part = part_of(budget, every, end, prng);
            let own = picks.len().min(PICK * usize::from(part));
            (case.budget, case.picks) = (part, picks[..own].to_vec());
            let next = self.carry_on(&case);
            (budget, picks) = (budget - part, &picks[own..]);
            if next.answer.outcome != Outcome::Spent || budget == 0 {
                break next;
            }
            case = from_state(&case, next.state());
        };
        self.tally.count_saved(vec![cut_name(&left, every)]);
        if let Err(reason) = same_end(&end.left, &left) {
            self.fail(&end.case, &format!("cut into parts: {reason}"));
        }
    }

    /// Any two orders from one state agree.
    fn orders_from(&mut self, case: &Case, prng: &mut Prng) {
        let mut first: Option<Left> = None;
        for length in [0, 1 + prng.below(20), MOST_RECORDS] {
            let mut case = case.clone();
            case.budget = WHOLE_BUDGET;
            case.picks = vec![0; PICK * length];
            prng.fill(&mut case.picks);
            let left = self.carry_on(&case);
            let Some(first) = &first else {
                first = Some(left);
                continue;
            };
            self.agreements += 1;
            self.tally.count_saved(vec![pair_name(&left)]);
            if let Err(reason) = orders::agree(first, &left) {
                self.fail(&case, &format!("from a saved state: {reason}"));
            }
        }
    }
}

/// The budget of the next part: one firing, or a share of what the run has left; now and
/// then none.
fn part_of(budget: u16, every: bool, end: &End, prng: &mut Prng) -> u16 {
    if every {
        return budget.min(1);
    }
    let share = match prng.below(8) {
        0 => 0,
        1 => budget,
        _ => 1 + prng.below(end.left.answer.firings + 2) as u16,
    };
    share.min(budget)
}

fn same_end(uncut: &Left, cut: &Left) -> Result<(), String> {
    if cut.answer != uncut.answer {
        return Err(format!("{:?}, due {:?}", cut.answer, uncut.answer));
    }
    if cut.ledger != uncut.ledger || cut.cells != uncut.cells {
        return Err("other bytes in ledger or cells".to_string());
    }
    Ok(())
}

/// What has to come up among the saved states. The names behind 24 say which condition
/// alone is broken.
pub const NAMES: [&str; 32] = [
    "completed",
    "completed, nothing fired",
    "hung",
    "hung, nothing fired",
    "spent",
    "refused in a firing",
    "1 to 5",
    "7",
    "22",
    "24 tokens past the capacity",
    "24 fields or states",
    "24 tag and port twice",
    "24 path of no sites",
    "24 operands spent apart",
    "24 a result spent",
    "24 deferred on no cell",
    "24 waiting for none",
    "24 value before present",
    "24 firings not as spent",
    "24 by several conditions",
    "taken, eight levels",
    "taken, 2,048 tokens",
    "taken, tokens deferred",
    "taken, ledger full",
    "cut at every firing, at rest",
    "cut at every firing, refused",
    "cut in parts, at rest",
    "cut in parts, refused",
    "cut, the last part spent",
    "two orders complete",
    "two orders hang",
    "two orders refused",
];

fn condition_name(condition: Condition) -> &'static str {
    match condition {
        Condition::TokensWithinCapacity => "24 tokens past the capacity",
        Condition::FieldsAllowed => "24 fields or states",
        Condition::TagAndPortOnce => "24 tag and port twice",
        Condition::PathsMadeOfSites => "24 path of no sites",
        Condition::OperandsSpentTogether => "24 operands spent apart",
        Condition::ResultsNotSpent => "24 a result spent",
        Condition::DeferredNamesACell => "24 deferred on no cell",
        Condition::WaitingWhereDeferred => "24 waiting for none",
        Condition::ZeroUntilPresent => "24 value before present",
        Condition::FiringsAsSpent => "24 firings not as spent",
    }
}

/// Which of the names a run from a state has.
fn names(case: &Case, state: &State, left: &Left) -> Vec<&'static str> {
    let fired = left.answer.firings > usize::from(state.saved.firings);
    let mut names = vec![match left.answer.outcome {
        Outcome::Completed if fired => "completed",
        Outcome::Completed => "completed, nothing fired",
        Outcome::Hung if fired => "hung",
        Outcome::Hung => "hung, nothing fired",
        Outcome::Spent => "spent",
        Outcome::Refused(refusal) => match refusal.number {
            24 => broken_name(case, state),
            1..=5 => "1 to 5",
            7 => "7",
            22 => "22",
            _ => "refused in a firing",
        },
    }];
    if !left.answer.refused_at_once() {
        names.extend(taken_names(state));
    }
    names
}

/// The condition that a state breaks, if it breaks only one.
fn broken_name(case: &Case, state: &State) -> &'static str {
    let (ledger, cells) = (&state.ledger, &state.cells);
    match second::broken_conditions(case.program(), state.saved, ledger, cells).as_deref() {
        Some(&[condition]) => condition_name(condition),
        _ => "24 by several conditions",
    }
}

/// What is seldom in a state that is taken.
fn taken_names(state: &State) -> Vec<&'static str> {
    let tokens = usize::from(state.saved.tokens);
    let records = || state.ledger.chunks_exact(TOKEN).take(tokens);
    let names = [
        (
            "taken, eight levels",
            records().any(|record| record[token::PATH.end - 1] != 0),
        ),
        ("taken, 2,048 tokens", tokens == MOST_RECORDS),
        (
            "taken, tokens deferred",
            records().any(|record| record[token::STATE] == token::DEFERRED),
        ),
        ("taken, ledger full", TOKEN * tokens == state.ledger.len()),
    ];
    let has = |(name, has): (&'static str, bool)| has.then_some(name);
    names.into_iter().filter_map(has).collect()
}

fn cut_name(left: &Left, every: bool) -> &'static str {
    match (left.answer.outcome, every) {
        (Outcome::Spent, _) => "cut, the last part spent",
        (Outcome::Refused(_), true) => "cut at every firing, refused",
        (Outcome::Refused(_), false) => "cut in parts, refused",
        (_, true) => "cut at every firing, at rest",
        (_, false) => "cut in parts, at rest",
    }
}

fn pair_name(left: &Left) -> &'static str {
    match left.answer.outcome {
        Outcome::Completed | Outcome::Spent => "two orders complete",
        Outcome::Hung => "two orders hang",
        Outcome::Refused(_) => "two orders refused",
    }
}
