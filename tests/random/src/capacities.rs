//! The ledger that a graph really takes (02, R-12): a run that completed or hung with t
//! tokens, again with other capacities.

use layout::widths::TOKEN;
use second::Outcome;

use crate::case::{Call, Case, Left};
use crate::orders::End;
use crate::prng::Prng;
use crate::Harness;

impl Harness {
    /// Two orders that complete or hang: t records and more are enough, with equal
    /// picks, and with fewer the run is refused by 8.
    pub fn all_capacities(&mut self, ends: &[End], prng: &mut Prng) {
        let other = 1 + prng.below(ends.len() - 1);
        for end in [&ends[0], &ends[other]] {
            let tokens = end.left.answer.tokens;
            if matches!(end.left.answer.outcome, Outcome::Refused(_)) {
                continue;
            }
            self.with_capacity(end, tokens, prng);
            if prng.one_in(3) {
                self.with_capacity(end, tokens + prng.below(2049 - tokens), prng);
            }
            if tokens > 0 {
                self.with_capacity(end, tokens - 1, prng);
                self.with_capacity(end, prng.below(tokens), prng);
            }
        }
    }

    fn with_capacity(&mut self, end: &End, capacity: usize, prng: &mut Prng) {
        let case = Case {
            call: Call::Run,
            ledger_bytes: TOKEN * capacity,
            garbage: prng.word(),
            ..end.case.clone()
        };
        let left = self.call(&case);
        let result = if capacity < end.left.answer.tokens {
            too_small(&case, &left)
        } else {
            enough(&end.left, &left)
        };
        self.tally.count_capacity(name(&end.left, capacity, &left));
        if let Err(reason) = result {
            self.fail(&case, &format!("capacity {capacity}: {reason}"));
        }
    }
}

/// The end is the same apart from unused bytes.
fn enough(before: &Left, left: &Left) -> Result<(), String> {
    if left.answer != before.answer {
        return Err(format!("{:?}, due {:?}", left.answer, before.answer));
    }
    if left.used() != before.used() || left.cells != before.cells {
        return Err("other tokens or cells".to_string());
    }
    Ok(())
}

/// Refused by 8: before any firing where the inputs do not fit, at the first that does
/// not, else in a firing.
fn too_small(case: &Case, left: &Left) -> Result<(), String> {
    let (capacity, inputs) = (case.ledger_bytes / TOKEN, case.inputs.len() / TOKEN);
    let place_due = capacity < inputs;
    let answer = &left.answer;
    if answer.refusal() != Some(8) || answer.refused_at_once() != place_due {
        return Err(format!("{answer:?}, due a refusal by 8"));
    }
    if place_due && answer.place() != capacity {
        return Err(format!("place {}, due {capacity}", answer.place()));
    }
    Ok(())
}

/// What has to come up among the capacities.
pub const NAMES: [&str; 6] = [
    "enough, completed",
    "enough, hung",
    "more than enough",
    "one too few",
    "too few in a firing",
    "too few for the inputs",
];

fn name(before: &Left, capacity: usize, left: &Left) -> &'static str {
    let tokens = before.answer.tokens;
    match left.answer.outcome {
        _ if capacity > tokens => "more than enough",
        Outcome::Hung => "enough, hung",
        Outcome::Completed | Outcome::Spent => "enough, completed",
        Outcome::Refused(_) if capacity + 1 == tokens => "one too few",
        Outcome::Refused(_) if left.answer.refused_at_once() => "too few for the inputs",
        Outcome::Refused(_) => "too few in a firing",
    }
}
