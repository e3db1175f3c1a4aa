//! Runs of an example: by the engine and by the second emulator, in many orders.

use asm::Files;
use layout::widths::{printed, CELL, TOKEN, WHOLE_BUDGET};
use second::{Answer, Outcome, Program, Schedule};

use crate::{CELLS, RECORDS};

const BUDGET: u16 = WHOLE_BUDGET;
/// With oldest first and newest first, eleven orders or more.
const RANDOM_LISTS: u64 = 12;
/// Loop bounds: the smallest, one that many loops pass, and the largest.
const BOUNDS: [u16; 3] = [2, 4, 256];

/// What a run answers and leaves, the answer packed.
#[derive(PartialEq, Eq)]
pub struct Left {
    pub answer: u64,
    pub listing: Vec<u8>,
    pub cells: Vec<u8>,
}

impl Left {
    /// What the engine left in ledger and cells.
    pub fn of_engine(answer: u64, ledger: &[u8], cells: Vec<u8>) -> Left {
        let (_, _, tokens, _) = engine::unpacked(answer);
        let used = &ledger[..TOKEN * (tokens as usize).min(RECORDS)];
        let mut listing = vec![0; used.len()];
        engine::list(used, &mut listing);
        Left {
            answer,
            listing,
            cells,
        }
    }

    /// The lines that the engine prints, in a buffer of just their length.
    fn text(&self) -> Vec<u8> {
        let mut room = vec![0; printed(self.listing.len() / TOKEN, self.cells.len() / CELL)];
        let length = engine::print(self.answer, &self.listing, &self.cells, &mut room);
        let mut text = vec![0; length as usize];
        let again = engine::print(self.answer, &self.listing, &self.cells, &mut text);
        assert_eq!(again, length, "a text fits a buffer of its length");
        text
    }
}

/// The run in the order of the example's own picks, as expected.
pub fn typed_order(files: &Files, expected: &[u8]) -> Result<Left, String> {
    let due = second_run(files);
    if due.text() != expected {
        return Err("the second emulator prints other lines than expected".to_string());
    }
    let first = engine_run(files, Schedule::new(&files.picks, BUDGET));
    if first != due.left {
        return Err("the engine leaves other bytes than the second emulator".to_string());
    }
    if first.text() != expected {
        return Err("the engine prints other lines than expected".to_string());
    }
    Ok(first)
}

/// Runs the other orders; answers how many there are, without the typed one.
pub fn other_orders(files: &Files, first: &Left) -> Result<usize, String> {
    let lists = pick_lists(files);
    for (number, picks) in lists.iter().enumerate() {
        let other = engine_run(files, Schedule::new(picks, BUDGET));
        agree(first, &other).map_err(|what| format!("order {number}: {what}"))?;
    }
    Ok(lists.len())
}

/// Runs these orders and the typed one under loop bounds, each as the second emulator; what completes, or hangs with nothing
/// held, ends as without a bound, and what is refused is refused without. Answers how many hung on held activities.
pub fn bounded_orders(files: &Files, first: &Left) -> Result<usize, String> {
    let mut lists = pick_lists(files);
    lists.push(files.picks.clone());
    let mut held = 0;
    for bound in BOUNDS {
        for (number, picks) in lists.iter().enumerate() {
            let wrong = |what: &str| format!("bound {bound}, order {number}: {what}");
            let schedule = Schedule::new(picks, BUDGET).bounded(bound);
            let (due, other) = (second(files, schedule), engine_run(files, schedule));
            if other != due.left {
                return Err(wrong(
                    "the engine leaves other bytes than the second emulator",
                ));
            }
            match due.is_held(files, bound) {
                true => held += 1,
                false => agree(first, &other).map_err(|what| wrong(&what))?,
            }
        }
    }
    Ok(held)
}

/// The graph with its table of arrays.
pub fn program(files: &Files) -> Program<'_> {
    let (graph, arrays) = (&files.graph, &files.arrays);
    Program { graph, arrays }
}

/// Runs and lists as the program does.
fn engine_run(files: &Files, schedule: Schedule) -> Left {
    let mut ledger = vec![0; TOKEN * RECORDS];
    let mut cells = vec![0; 8 * CELLS];
    let (program, inputs) = (program(files), &files.inputs);
    let answer = engine::run(program, inputs, schedule, &mut ledger, &mut cells);
    Left::of_engine(answer, &ledger, cells)
}

/// A run that completes or hangs is the same in every order, in the bytes that it
/// prints too; a refused one is refused in every order.
pub fn agree(first: &Left, other: &Left) -> Result<(), String> {
    let word = |left: &Left| engine::unpacked(left.answer).0;
    match (word(first), word(other)) {
        (engine::COMPLETED, engine::COMPLETED) | (engine::HUNG, engine::HUNG) => (first == other
            && first.text() == other.text())
        .then_some(())
        .ok_or("another listing, other cells or counts".to_string()),
        (one, two) if engine::is_refusal(one) && engine::is_refusal(two) => Ok(()),
        (one, two) => Err(format!("answer word {two} instead of {one}")),
    }
}

/// Oldest first, newest first and random lists.
fn pick_lists(files: &Files) -> Vec<Vec<u8>> {
    let (program, inputs) = (program(files), &files.inputs);
    let mut lists = vec![
        Vec::new(),
        second::picks_newest_first(program, inputs, RECORDS, CELLS),
    ];
    for seed in 1..=RANDOM_LISTS {
        let mut state = seed;
        lists.push(second::picks_of(
            program,
            inputs,
            RECORDS,
            CELLS,
            |_, enabled| {
                // A linear congruential generator (Knuth, MMIX); its upper bits are used.
                state = state.wrapping_mul(6_364_136_223_846_793_005);
                state = state.wrapping_add(1_442_695_040_888_963_407);
                ((state >> 33) % enabled as u64) as u16
            },
        ));
    }
    lists
}

/// What the second emulator answers and leaves.
pub struct Second {
    answer: Answer,
    left: Left,
}

impl Second {
    pub fn text(&self) -> Vec<u8> {
        second::print(&self.answer, &self.left.listing, &self.left.cells)
    }

    /// Whether it hung because a bound holds activities back.
    fn is_held(&self, files: &Files, bound: u16) -> bool {
        let held = second::held(&files.graph, bound, &self.left.listing);
        self.answer.outcome == Outcome::Hung && held.is_some_and(|held| !held.is_empty())
    }
}

/// Runs the second emulator with the picks of the files.
pub fn second_run(files: &Files) -> Second {
    second(files, Schedule::new(&files.picks, BUDGET))
}

fn second(files: &Files, schedule: Schedule) -> Second {
    let mut ledger = vec![0; TOKEN * RECORDS];
    let mut cells = vec![0; 8 * CELLS];
    let (program, inputs) = (program(files), &files.inputs);
    let answer = second::run(program, inputs, schedule, &mut ledger, &mut cells);
    let used = &ledger[..TOKEN * answer.tokens];
    let mut listing = vec![0; used.len()];
    second::list(used, &mut listing);
    Second {
        answer,
        left: Left {
            answer: engine::packed_answer(&answer),
            listing,
            cells,
        },
    }
}
