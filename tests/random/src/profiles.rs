//! Profiles: their lengths, what their records have to add up to, and what is tallied
//! of them.

use layout::fields::step;
use layout::unsigned;
use layout::widths::{MOST_RECORDS, STEP};

use second::Outcome;

use crate::case::{Case, Left};
use crate::prng::Prng;

/// The bytes of a profile for a graph with these steps: just enough, too few, more, or
/// not whole.
pub fn bytes(steps: usize, prng: &mut Prng) -> usize {
    match prng.below(8) {
        0 | 1 => STEP * steps,
        2 => STEP * steps.saturating_sub(1),
        3 | 4 => STEP * prng.below(steps + 1),
        5 => 0,
        6 => STEP * (steps + prng.below(9)),
        _ => STEP * prng.below(steps + 2) + 1 + prng.below(3),
    }
}

/// The firings of each step.
fn firings(left: &Left) -> impl Iterator<Item = usize> + '_ {
    let steps = left.further.chunks_exact(STEP).take(left.records);
    steps.map(|record| usize::from(unsigned(record, step::FIRINGS)))
}

/// Each step has a firing, and together they have those of the answer; a refused step
/// has no record of its firings.
pub fn add_up(left: &Left) -> Result<(), String> {
    let sum: usize = firings(left).sum();
    let refused = matches!(left.answer.outcome, Outcome::Refused(_));
    if sum == left.answer.firings || refused && sum < left.answer.firings {
        if firings(left).all(|number| number > 0) {
            return Ok(());
        }
        return Err("a step without a firing".to_string());
    }
    let due = left.answer.firings;
    Err(format!("the steps have {sum} firings, the answer {due}"))
}

/// What has to come up among the profiles.
pub const NAMES: [&str; 11] = [
    "completed",
    "hung",
    "refused at once",
    "7 by the profile alone",
    "refused in a first step",
    "refused in a later step",
    "refused behind firings of it",
    "18 with nothing fired",
    "18 behind a step",
    "no record left, none needed",
    "more than 2,048 records",
];

/// Which of the names a profile has.
pub fn names(case: &Case, left: &Left) -> Vec<&'static str> {
    let whole = left.further.len() % STEP == 0;
    let room = left.further.len() / STEP;
    let stepped = left.records > 0;
    let mut names = match left.answer.outcome {
        Outcome::Completed => vec!["completed"],
        Outcome::Hung => vec!["hung"],
        Outcome::Spent => Vec::new(),
        Outcome::Refused(refusal) => match refusal.number {
            7 if !whole && case.stores_fit() => vec!["7 by the profile alone"],
            18 if stepped => vec!["18 behind a step"],
            18 => vec!["18 with nothing fired"],
            _ if left.answer.refused_at_once() => vec!["refused at once"],
            _ if stepped => vec!["refused in a later step"],
            _ => vec!["refused in a first step"],
        },
    };
    let refused = matches!(left.answer.outcome, Outcome::Refused(_));
    if refused && firings(left).sum::<usize>() < left.answer.firings {
        names.push("refused behind firings of it");
    }
    if !refused && left.records == room && stepped {
        names.push("no record left, none needed");
    }
    if !refused && room > MOST_RECORDS {
        names.push("more than 2,048 records");
    }
    names
}
