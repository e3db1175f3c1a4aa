//! Loop bounding (02, R-9): bounded runs, whole, logged and cut in two, what 02 claims of them,
//! and what is tallied.

use layout::fields::token;
use layout::widths::{LOGGED, PICK, TOKEN, WHOLE_BUDGET};
use layout::{code_of, path, NEXT};
use second::{Counts, Held, Outcome};

use crate::case::{Call, Case, Left, State};
use crate::orders::{self, End};
use crate::prng::Prng;
use crate::records::has;
use crate::Harness;

impl Harness {
    /// A graph under bounds, good and bad, in some of its orders.
    pub fn all_bounded(&mut self, ends: &[End], prng: &mut Prng) {
        let loops = |case: &Case| has(&case.graph, &[NEXT]);
        if !loops(&ends[0].case) || ends[0].left.answer.refused_at_once() {
            return;
        }
        let turns = if ends[0].case.kind == "loop" { 8 } else { 1 };
        for _ in 0..turns {
            let bound = bound(prng);
            let (one, other) = (prng.below(ends.len()), prng.below(ends.len()));
            let first = self.bounded(&ends[0], &ends[one], bound, WHOLE_BUDGET);
            let second = self.bounded(&ends[0], &ends[other], bound, WHOLE_BUDGET);
            let outcomes = [&first, &second].map(|end| end.left.answer.outcome);
            if outcomes.contains(&Outcome::Completed) && outcomes.contains(&Outcome::Hung) {
                self.tally
                    .count_bounded(vec!["one order hangs, not another"]);
            }
            let firings = first.left.answer.firings;
            let budget = [firings, firings.saturating_sub(1), prng.below(firings + 1)];
            let budget = budget[prng.below(3)] as u16;
            let short = self.bounded(&ends[0], &ends[one], bound, budget);
            self.replay_bounded(&short);
            self.cut_bounded(&first, prng);
        }
        let mut case = ends[0].case.clone();
        case.bound = [1, 257, 258 + prng.below(65_278) as u16][prng.below(3)];
        if prng.one_in(4) {
            case.inputs.push(0);
        }
        case.call = Call::Run;
        let left = self.call(&case);
        self.tally.count_bounded(bad_names(&case, &left));
    }

    /// An order under a bound. At rest with nothing held it ends as the unbounded orders.
    fn bounded(&mut self, unbounded: &End, order: &End, bound: u16, budget: u16) -> End {
        let case = Case {
            bound,
            budget,
            call: Call::Logged(LOGGED * usize::from(budget)),
            ..order.case.clone()
        };
        let left = self.call(&case);
        let held = held_in(&case, &left);
        let result = claimed(&case, unbounded, &left, &held);
        let result = result.and_then(|()| same_as_unbounded(order, &case, &left));
        let result = result.and_then(|()| counted(&case, &left, held.len()));
        self.tally
            .count_bounded(names(unbounded, order, &case, &left, &held));
        if let Err(reason) = result {
            self.fail(&case, &format!("bound {bound}: {reason}"));
        }
        End { case, left }
    }

    /// The replay of a bounded run's log leaves the same ledger, cells and counts.
    fn replay_bounded(&mut self, end: &End) {
        let mut case = end.case.clone();
        case.bound = 0;
        case.call = Call::Replay(end.left.log().to_vec());
        let again = self.call(&case);
        let counts = |left: &Left| (left.answer.firings, left.answer.tokens);
        let left = &end.left;
        if counts(left) != counts(&again)
            || left.ledger != again.ledger
            || left.cells != again.cells
        {
            self.fail(&end.case, "replay of a bounded run: another end");
        }
    }

    /// A bounded run in two parts ends as the uncut one.
    fn cut_bounded(&mut self, end: &End, prng: &mut Prng) {
        let firings = end.left.answer.firings;
        let mut case = end.case.clone();
        case.call = Call::Run;
        case.budget = prng.below(firings + 1) as u16;
        let part = self.call(&case);
        if part.answer.outcome != Outcome::Spent {
            return;
        }
        let own = (PICK * part.answer.firings).min(case.picks.len());
        case.picks.drain(..own);
        case.budget = end.case.budget - case.budget;
        case.inputs.clear();
        case.call = Call::CarryOn(State {
            saved: Counts {
                firings: part.answer.firings as u16,
                tokens: part.answer.tokens as u16,
            },
            ledger: part.ledger,
            cells: part.cells,
        });
        let rest = self.call(&case);
        self.tally.count_bounded(vec!["cut in two"]);
        let (due, found) = (&end.left, &rest);
        if found.answer != due.answer || found.ledger != due.ledger || found.cells != due.cells {
            self.fail(&end.case, "a bounded run cut in two: another end");
        }
    }
}

fn bound(prng: &mut Prng) -> u16 {
    let bound = match prng.below(7) {
        0 | 1 => 2,
        2 | 3 => 2 + prng.below(6),
        4 => 2 + prng.below(255),
        _ => 255 + prng.below(2),
    };
    bound as u16
}

/// What a bound holds back in what a run left, by the second emulator.
pub fn held_in(case: &Case, left: &Left) -> Vec<Held> {
    if left.answer.refused_at_once() {
        return Vec::new();
    }
    second::held(&case.graph, case.bound, left.used()).expect("a run leaves its tokens")
}

/// 02's claim, and that a bounded run is refused in a firing only where the unbounded
/// orders are refused.
fn claimed(case: &Case, unbounded: &End, left: &Left, held: &[Held]) -> Result<(), String> {
    match left.answer.outcome {
        Outcome::Completed => orders::agree(&unbounded.left, left),
        Outcome::Hung if held.is_empty() => orders::agree(&unbounded.left, left),
        Outcome::Hung => waits_besides(case, left, held),
        Outcome::Spent => Ok(()),
        Outcome::Refused(_) => match unbounded.left.answer.outcome {
            Outcome::Refused(_) => Ok(()),
            _ => Err("refused, and the unbounded run is not".to_string()),
        },
    }
}

/// Held activities do not hold each other alone: one of the tokens that hold them is at
/// no held activity.
fn waits_besides(case: &Case, left: &Left, held: &[Held]) -> Result<(), String> {
    let places: Vec<usize> = held.iter().map(|held| held.place).collect();
    let besides = |held: &Held| held.holders.iter().any(|holder| !places.contains(holder));
    if held.iter().any(besides) {
        return Ok(());
    }
    let count = left.answer.tokens;
    Err(format!(
        "bound {}: {count} tokens hold each other",
        case.bound
    ))
}

/// The engine counts as many held activities; at rest no other is enabled, and one is where the budget is spent.
fn counted(case: &Case, left: &Left, held: usize) -> Result<(), String> {
    if left.answer.refused_at_once() {
        return Ok(());
    }
    let saved = Counts {
        firings: left.answer.firings as u16,
        tokens: left.answer.tokens as u16,
    };
    let found = engine::held(&case.graph, case.bound, saved, &left.ledger, &left.cells);
    let right = match (left.answer.outcome, found) {
        (_, None) => false,
        (Outcome::Completed, Some(counts)) => counts == (0, 0) && held == 0,
        (Outcome::Hung, Some(counts)) => counts == (held, held),
        (Outcome::Spent | Outcome::Refused(_), Some((own, enabled))) => {
            own == held && enabled > held
        }
    };
    if right {
        return Ok(());
    }
    Err(format!("{held} held, counted as {found:?}"))
}

/// A bound of 256 holds only NEXTs at iteration 255.
fn same_as_unbounded(order: &End, case: &Case, left: &Left) -> Result<(), String> {
    let last =
        |record: &[u8]| record[token::ITERATION] == 255 && code_of(&case.graph, record) == NEXT;
    let records = || order.left.used().chunks_exact(TOKEN);
    if case.bound < 256 || case.budget != order.case.budget || records().any(last) {
        return Ok(());
    }
    if left.answer == order.left.answer && left.used() == order.left.used() {
        return Ok(());
    }
    Err("not the run without a bound".to_string())
}

/// What has to come up among the bounded runs.
pub const NAMES: [&str; 26] = [
    "completed",
    "completed in another order",
    "hung, none held",
    "hung on held ones",
    "hung on them, budget used up",
    "spent",
    "spent, some held",
    "refused",
    "13",
    "hung, else it completes",
    "hung, else it hangs further",
    "hung, else 13",
    "hung, else refused",
    "one order hangs, not another",
    "held by a deferred token",
    "held by a waiting operand",
    "held at a lower iteration",
    "held at m - k",
    "held from one level down",
    "held from deeper",
    "held in an entered path",
    "held at iteration 255",
    "bound 256",
    "cut in two",
    "21",
    "7 before 21",
];

fn bad_names(case: &Case, left: &Left) -> Vec<&'static str> {
    match left.answer.refusal() {
        Some(21) => vec!["21"],
        Some(7) if case.inputs.len() % TOKEN == 1 => vec!["7 before 21"],
        _ => Vec::new(),
    }
}

/// Which of the names a bounded run has.
fn names(
    unbounded: &End,
    order: &End,
    case: &Case,
    left: &Left,
    held: &[Held],
) -> Vec<&'static str> {
    let spent = left.answer.firings == usize::from(case.budget);
    let mut names = match left.answer.outcome {
        Outcome::Completed if left.used() != order.left.used() => {
            vec!["completed", "completed in another order"]
        }
        Outcome::Completed => vec!["completed"],
        Outcome::Hung if held.is_empty() => vec!["hung, none held"],
        Outcome::Hung if spent => vec!["hung on held ones", "hung on them, budget used up"],
        Outcome::Hung => vec!["hung on held ones", otherwise(unbounded)],
        Outcome::Spent if held.is_empty() => vec!["spent"],
        Outcome::Spent => vec!["spent, some held"],
        Outcome::Refused(refusal) if refusal.number == 13 => vec!["13"],
        Outcome::Refused(_) => vec!["refused"],
    };
    for held in held {
        names.extend(held_names(case, left, held));
    }
    if case.bound == 256 {
        names.push("bound 256");
    }
    names
}

/// How the unbounded orders end where a bounded one hangs on held activities.
fn otherwise(unbounded: &End) -> &'static str {
    match unbounded.left.answer.outcome {
        Outcome::Completed | Outcome::Spent => "hung, else it completes",
        Outcome::Hung => "hung, else it hangs further",
        Outcome::Refused(refusal) if refusal.number == 13 => "hung, else 13",
        Outcome::Refused(_) => "hung, else refused",
    }
}

/// What an activity is held by.
fn held_names(case: &Case, left: &Left, held: &Held) -> Vec<&'static str> {
    let record = |position: usize| &left.used()[TOKEN * position..][..TOKEN];
    let next = record(held.place);
    let mut names = Vec::new();
    if path(next) != 0 {
        names.push("held in an entered path");
    }
    if next[token::ITERATION] == 255 {
        names.push("held at iteration 255");
    }
    for holder in held.holders.iter().map(|&position| record(position)) {
        names.push(match holder[token::STATE] {
            2 => "held by a deferred token",
            _ => "held by a waiting operand",
        });
        let latest = i32::from(next[token::ITERATION]) + 1 - i32::from(case.bound);
        names.push(match path(holder) {
            entered if entered == path(next) && i32::from(holder[token::ITERATION]) == latest => {
                "held at m - k"
            }
            entered if entered == path(next) => "held at a lower iteration",
            entered if entered >> 16 == path(next) => "held from one level down",
            _ => "held from deeper",
        });
    }
    names
}
