//! What is kept of one run, shown for another: when the engine lets it, and that the run
//! asked for then has that answer, listing, cells and profile.

use engine::Request;
use layout::widths::{CELL, MOST_RECORDS, PICK, STEP, TOKEN};
use second::Outcome;

use crate::bounding::held_in;
use crate::case::{Call, Case};
use crate::damage::{damage_picks, flip};
use crate::orders::End;
use crate::prng::Prng;
use crate::Harness;

impl Harness {
    /// A run is kept, with any budget and some with a bound; others are asked for, and it itself.
    pub fn all_requests(&mut self, ends: &[End], prng: &mut Prng) {
        let end = &ends[prng.below(ends.len())];
        let mut case = end.case.clone();
        if prng.one_in(3) {
            case.budget = prng.below(end.left.answer.firings + 2) as u16;
        }
        if prng.one_in(3) {
            case.bound = 2 + prng.below(3) as u16;
        }
        let kept = self.kept(case);
        for _ in 0..4 {
            let mut asked = kept.case.clone();
            let change = change(&mut asked, kept.left.answer.firings, ends, prng);
            self.request(&kept, &asked, change);
        }
    }

    fn kept(&mut self, mut case: Case) -> End {
        case.call = Call::Run;
        let left = self.call(&case);
        End { case, left }
    }

    fn request(&mut self, kept: &End, asked: &Case, change: Change) {
        self.requests += 1;
        let answer = engine::packed_answer(&kept.left.answer);
        let held = held_in(&kept.case, &kept.left).len();
        let found = engine::serves(&request_of(&kept.case), answer, held, &request_of(asked));
        let due = serves(kept, held, asked);
        self.tally
            .count_request(name(kept, held, asked, change, due));
        if found != u64::from(due) {
            self.fail(
                asked,
                &format!("{change:?} of a kept run: {found}, due {due}"),
            );
        }
        if due {
            if let Err(reason) = self.shows(kept, asked) {
                self.fail(asked, &format!("{change:?} of a kept run: {reason}"));
            }
        }
    }

    /// The run asked for has what is kept, and so has the profile of its graph.
    fn shows(&mut self, kept: &End, asked: &Case) -> Result<(), String> {
        let left = self.call(asked);
        if left.answer != kept.left.answer || left.listing != kept.left.listing {
            return Err("another answer or listing".to_string());
        }
        if !left.answer.refused_at_once() && left.cells != kept.left.cells {
            return Err("other cells".to_string());
        }
        let steps = |case: &Case, harness: &mut Harness| {
            let mut case = case.clone();
            case.call = Call::Profile(STEP * MOST_RECORDS);
            let left = harness.call(&case);
            left.further[..STEP * left.records].to_vec()
        };
        if steps(asked, self) != steps(&kept.case, self) {
            return Err("another profile".to_string());
        }
        Ok(())
    }
}

fn request_of(case: &Case) -> Request<'_> {
    Request {
        program: case.program(),
        inputs: &case.inputs,
        schedule: case.schedule(),
        ledger: case.ledger_bytes,
        cells: case.cells_bytes,
    }
}

/// The clause of ttda.h: all else equal, the same picks, budget and bound, or an order
/// without a bound of a run that completed or hung with nothing held, with picks of
/// allowed length and a budget for its firings.
fn serves(kept: &End, held: usize, asked: &Case) -> bool {
    let case = &kept.case;
    let alike = case.graph == asked.graph
        && case.arrays == asked.arrays
        && case.inputs == asked.inputs
        && case.ledger_bytes == asked.ledger_bytes
        && case.cells_bytes == asked.cells_bytes;
    let same_order = is_itself(case, asked);
    let at_rest = match kept.left.answer.outcome {
        Outcome::Completed => true,
        Outcome::Hung => held == 0,
        Outcome::Spent | Outcome::Refused(_) => false,
    };
    let picks = asked.picks.len();
    let picks_fit = picks % PICK == 0 && picks <= PICK * MOST_RECORDS;
    let enough = usize::from(asked.budget) >= kept.left.answer.firings;
    alike && (same_order || at_rest && asked.bound == 0 && picks_fit && enough)
}

fn is_itself(kept: &Case, asked: &Case) -> bool {
    kept.picks == asked.picks && kept.budget == asked.budget && kept.bound == asked.bound
}

/// What is asked for otherwise than it was kept.
#[derive(Clone, Copy, Debug)]
enum Change {
    Nothing,
    Order,
    Picks,
    Budget,
    Bound,
    Graph,
    Arrays,
    Inputs,
    Ledger,
    Cells,
}

fn change(asked: &mut Case, firings: usize, ends: &[End], prng: &mut Prng) -> Change {
    const CHANGES: [Change; 14] = [
        Change::Nothing,
        Change::Order,
        Change::Order,
        Change::Order,
        Change::Picks,
        Change::Budget,
        Change::Budget,
        Change::Bound,
        Change::Bound,
        Change::Graph,
        Change::Arrays,
        Change::Inputs,
        Change::Ledger,
        Change::Cells,
    ];
    let change = CHANGES[prng.below(CHANGES.len())];
    if !matches!(change, Change::Nothing) && prng.one_in(2) {
        asked.bound = 0;
    }
    match change {
        Change::Nothing => {}
        Change::Order => asked.picks = ends[prng.below(ends.len())].case.picks.clone(),
        Change::Picks => damage_picks(&mut asked.picks, prng),
        Change::Budget => {
            let near = (firings + prng.below(3)).saturating_sub(1) as u16;
            asked.budget = [near, near, 0, prng.word() as u16][prng.below(4)];
        }
        Change::Bound => asked.bound = [0, 2, 3, 256][prng.below(4)],
        Change::Graph => flip(&mut asked.graph, prng),
        Change::Arrays if prng.one_in(2) => flip(&mut asked.arrays, prng),
        Change::Arrays => asked.arrays.extend(layout::array(0, 0)),
        Change::Inputs => flip(&mut asked.inputs, prng),
        Change::Ledger => asked.ledger_bytes = resized(asked.ledger_bytes, TOKEN, prng),
        Change::Cells => asked.cells_bytes = resized(asked.cells_bytes, CELL, prng),
    }
    change
}

/// A length that is a byte or a record more or less.
fn resized(length: usize, record: usize, prng: &mut Prng) -> usize {
    match prng.below(4) {
        0 => length + 1,
        1 => length.saturating_sub(1),
        2 => length + record,
        _ => length.saturating_sub(record),
    }
}

/// What has to come up among the runs that are asked for.
pub const NAMES: [&str; 21] = [
    "a run at rest, itself",
    "a spent run, itself",
    "a refused run, itself",
    "a hang on held ones, itself",
    "another order, completed",
    "another order, hung",
    "without the bound, completed",
    "without the bound, hung",
    "not a hang on held ones",
    "not with another bound",
    "with just the budget",
    "not an order of a spent run",
    "not one of a refused run",
    "not with a budget less by one",
    "not with picks refused by 7",
    "not of another graph",
    "not of another table",
    "not of other inputs",
    "not of another capacity",
    "not of other cells",
    "not otherwise",
];

fn name(kept: &End, held: usize, asked: &Case, change: Change, served: bool) -> &'static str {
    let answer = &kept.left.answer;
    let case = &kept.case;
    if served {
        return served_name(kept, held, asked, change);
    }
    match (answer.outcome, change) {
        (_, Change::Graph) => "not of another graph",
        (_, Change::Arrays) => "not of another table",
        (_, Change::Inputs) => "not of other inputs",
        (_, Change::Ledger) => "not of another capacity",
        (_, Change::Cells) => "not of other cells",
        (Outcome::Spent, _) => "not an order of a spent run",
        (Outcome::Refused(_), _) => "not one of a refused run",
        (_, Change::Picks) => "not with picks refused by 7",
        (Outcome::Hung, _) if held > 0 => "not a hang on held ones",
        _ if asked.bound != 0 && asked.bound != case.bound => "not with another bound",
        _ if usize::from(asked.budget) + 1 == answer.firings => "not with a budget less by one",
        _ => "not otherwise",
    }
}

fn served_name(kept: &End, held: usize, asked: &Case, change: Change) -> &'static str {
    let answer = &kept.left.answer;
    let just = usize::from(asked.budget) == answer.firings;
    match (answer.outcome, change) {
        (Outcome::Spent, _) => "a spent run, itself",
        (Outcome::Refused(_), _) => "a refused run, itself",
        (Outcome::Hung, _) if held > 0 => "a hang on held ones, itself",
        _ if is_itself(&kept.case, asked) => "a run at rest, itself",
        (_, Change::Budget) if just => "with just the budget",
        (Outcome::Completed, _) if kept.case.bound != 0 => "without the bound, completed",
        (Outcome::Hung, _) if kept.case.bound != 0 => "without the bound, hung",
        (Outcome::Completed, _) => "another order, completed",
        (Outcome::Hung, _) => "another order, hung",
    }
}
