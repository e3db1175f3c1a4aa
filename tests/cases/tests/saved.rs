//! The cases of saved states, by the second emulator and by the engine.

use cases::lent::PICK_RECORD;
use cases::line_of;
use cases::saved::{cases, cut_cases, CutCase, Saved};
use second::{Answer, Counts, Outcome, Program, Schedule};

/// A run from a saved state by either emulator, and its answer.
type CarryOn<A> = fn(Program, Schedule, Counts, &mut [u8], &mut [u8]) -> A;

/// The answer, and ledger and cells.
fn carried<A>(saved: &Saved, carry_on: CarryOn<A>) -> (A, [Vec<u8>; 2]) {
    let mut left = [saved.ledger.clone(), saved.cells.clone()];
    let [ledger, cells] = &mut left;
    let program = Program::plain(&saved.graph);
    let schedule = Schedule::new(&saved.picks, saved.budget);
    let answer = carry_on(program, schedule, saved.counts, ledger, cells);
    (answer, left)
}

#[test]
fn answers_are_those_of_the_description() {
    for case in cases() {
        let (answer, left) = carried(&case.saved, second::carry_on);
        assert_eq!(line_of(&answer), case.says, "{}", case.name);
        if answer.refused_at_once() {
            let lent = [case.saved.ledger, case.saved.cells];
            assert!(left == lent, "{}", case.name);
        }
    }
}

#[test]
fn the_engine_leaves_what_the_second_emulator_leaves() {
    for case in cases() {
        let (answer, left) = carried(&case.saved, engine::carry_on);
        let (due_answer, due) = carried(&case.saved, second::carry_on);
        assert_eq!(answer, engine::packed_answer(&due_answer), "{}", case.name);
        assert!(left == due, "{}", case.name);
    }
}

/// The first `cut` firings with their picks, and the rest from the state that they left.
fn in_two_parts(case: &CutCase, cut: u16) -> (Answer, [Vec<u8>; 2]) {
    let picks = case.lent.picks.bytes();
    let own = picks.len().min(PICK_RECORD * usize::from(cut));
    let mut first = case.lent.clone().budget(cut);
    first.picks.given.truncate(own);
    first.picks.length = own;
    let left = cases::run(&first);
    if left.answer.outcome != Outcome::Spent {
        return (left.answer, [left.ledger, left.cells]);
    }
    let saved = Saved {
        graph: case.lent.graph.bytes(),
        picks: picks[own..].to_vec(),
        budget: case.lent.budget - cut,
        counts: Counts {
            firings: left.answer.firings as u16,
            tokens: left.answer.tokens as u16,
        },
        ledger: left.ledger,
        cells: left.cells,
    };
    let (answer, left) = carried(&saved, second::carry_on);
    let (engine_answer, engine_left) = carried(&saved, engine::carry_on);
    assert_eq!(
        engine_answer,
        engine::packed_answer(&answer),
        "{}",
        case.name
    );
    assert!(engine_left == left, "{}", case.name);
    (answer, left)
}

#[test]
fn a_run_cut_at_any_firing_ends_as_the_uncut_one() {
    for case in cut_cases() {
        let uncut = cases::run(&case.lent);
        assert_eq!(line_of(&uncut.answer), case.says, "{}", case.name);
        for cut in 0..12 {
            let (answer, left) = in_two_parts(&case, cut);
            assert_eq!(answer, uncut.answer, "{}, cut at {cut}", case.name);
            assert!(
                left == [uncut.ledger.clone(), uncut.cells.clone()],
                "{}",
                case.name
            );
        }
    }
}
