//! The files of `engine_main` are those that the description gives.

use std::collections::HashSet;
use std::fs;
use std::path::PathBuf;

use second::{Program, Schedule};

fn committed(name: &str) -> Vec<u8> {
    let folder = PathBuf::from(env!("CARGO_MANIFEST_DIR")).join("../../crates/engine_main");
    fs::read(folder.join(name)).expect("engine_main has its input and output")
}

#[test]
fn the_committed_input_is_that_of_the_cases() {
    assert!(committed("stdin") == cases::input(&cases::all()));
}

#[test]
fn the_committed_output_is_that_of_the_second_emulator() {
    assert!(committed("stdout") == cases::output(&cases::all(), &cases::run));
}

#[test]
fn the_answers_are_those_of_the_description() {
    for case in cases::all() {
        let answer = cases::run(&case.lent).answer;
        assert_eq!(cases::line_of(&answer), case.says, "{}", case.name);
    }
}

#[test]
fn names_are_short_lines_of_their_own() {
    let mut names = HashSet::new();
    for case in cases::all() {
        assert!(
            case.name.len() <= 256 && case.name.is_ascii(),
            "{}",
            case.name
        );
        assert!(!case.name.contains('\n'));
        assert!(
            names.insert(case.name.clone()),
            "{} stands twice",
            case.name
        );
    }
}

#[test]
fn every_refusal_is_reached_at_once_or_in_a_firing() {
    let answers: Vec<_> = cases::all()
        .iter()
        .map(|case| cases::run(&case.lent).answer)
        .collect();
    let at_once = |number| {
        answers
            .iter()
            .any(|a| a.refusal() == Some(number) && a.refused_at_once())
    };
    let firing = |number| {
        answers
            .iter()
            .any(|a| a.refusal() == Some(number) && !a.refused_at_once())
    };
    for number in 1..=17 {
        assert_eq!(at_once(number), number <= 9, "{number} before any firing");
        // Numbers 15 and 16 have left the table.
        let fires = number >= 8 && number != 15 && number != 16;
        assert_eq!(firing(number), fires, "{number} in a firing");
    }
    // Without a table every constant of FETCH and STORE is refused.
    assert!(at_once(22) && !firing(22));
}

/// The engine through its C function; the program is another build of it.
#[test]
fn the_committed_output_is_that_of_the_library() {
    for case in cases::all() {
        let lent = &case.lent;
        let (mut ledger, mut cells) = (lent.ledger.bytes(), lent.cells.bytes());
        let (graph, inputs, picks) = (lent.graph.bytes(), lent.inputs.bytes(), lent.picks.bytes());
        let answer = engine::run(
            Program::plain(&graph),
            &inputs,
            Schedule::new(&picks, lent.budget),
            &mut ledger,
            &mut cells,
        );
        let due = cases::run(lent);
        assert_eq!(answer, engine::packed_answer(&due.answer), "{}", case.name);
        assert!(ledger == due.ledger && cells == due.cells, "{}", case.name);
    }
}
