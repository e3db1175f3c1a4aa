//! Bounds: the engine's against the second emulator's, and both against runs.

use layout::widths::MOST_RECORDS;
use layout::{ENTER, LEAVE, NEXT};
use second::{Bounds, Outcome, Refusal};

use crate::case::Case;
use crate::orders::End;
use crate::records::has;
use crate::Harness;

impl Harness {
    /// Compares the bounds of a case, and its runs with them.
    pub fn compare_bounds(&mut self, case: &Case, ends: &[End]) {
        self.bounds += 1;
        let bounds = second::bounds(&case.graph, &case.inputs);
        let due = engine::packed_bounds(&bounds);
        let found = engine::bounds(&case.graph, &case.inputs);
        if found != due {
            let (found, due) = (engine::unpacked(found), engine::unpacked(due));
            let reason = format!("bounds (word, firings, tokens, place): {found:?}, due {due:?}");
            self.fail(case, &reason);
        }
        self.tally.count_bounds(names(case, &bounds, ends));
        let Ok(bounds) = bounds else { return };
        for end in ends {
            if let Err(reason) = kept(&bounds, end) {
                self.fail(&end.case, &reason);
            }
        }
    }
}

/// No run exceeds a bound, and one that completes or hangs reaches both if they are
/// exact.
fn kept(bounds: &Bounds, end: &End) -> Result<(), String> {
    let answer = &end.left.answer;
    let counts = (answer.firings, answer.tokens);
    let most = (bounds.firings, bounds.tokens);
    let at_rest = matches!(answer.outcome, Outcome::Completed | Outcome::Hung);
    if counts.0 > most.0 || counts.1 > most.1 {
        return Err(format!("{counts:?} exceeds the bounds {most:?}"));
    }
    if at_rest && bounds.exact && counts != most {
        return Err(format!("{counts:?} differs from exact bounds {most:?}"));
    }
    Ok(())
}

/// What has to come up among the bounds.
pub const NAMES: [&str; 10] = [
    "1 to 5",
    "6",
    "6 of a graph with loops",
    "7",
    "7 of a graph with loops",
    "19",
    "exact, and reached by a run",
    "above a run that completes",
    "above a run that hangs",
    "more than 2,048 tokens",
];

/// Which of the names the bounds of a case have.
fn names(case: &Case, bounds: &Result<Bounds, Refusal>, ends: &[End]) -> Vec<&'static str> {
    let with_loops = has(&case.graph, &[NEXT, ENTER, LEAVE]);
    let bounds = match bounds {
        Ok(bounds) => bounds,
        Err(refusal) => {
            return vec![match refusal.number {
                6 if with_loops => "6 of a graph with loops",
                6 => "6",
                7 if with_loops => "7 of a graph with loops",
                7 => "7",
                19 => "19",
                _ => "1 to 5",
            }]
        }
    };
    let mut names = Vec::new();
    let answers = || ends.iter().map(|end| &end.left.answer);
    let ends_with = |outcome| answers().find(|answer| answer.outcome == outcome);
    for (outcome, above) in [
        (Outcome::Completed, "above a run that completes"),
        (Outcome::Hung, "above a run that hangs"),
    ] {
        match ends_with(outcome) {
            Some(_) if bounds.exact => names.push("exact, and reached by a run"),
            Some(answer) if answer.firings < bounds.firings => names.push(above),
            _ => {}
        }
    }
    if bounds.tokens > MOST_RECORDS {
        names.push("more than 2,048 tokens");
    }
    names
}
