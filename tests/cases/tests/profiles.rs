//! The cases of profiles, by the second emulator and by the engine.

use cases::lent::{garbage, step, Part, STEP};
use cases::line_of;
use cases::profiles::{cases, ProfileCase};
use layout::unsigned;
use second::{Profiled, Program};

/// The buffers that a profile is lent: ledger, cells and profile.
fn buffers(case: &ProfileCase) -> [Vec<u8>; 3] {
    let profile = Part::of(garbage(case.bytes));
    [&case.lent.ledger, &case.lent.cells, &profile].map(Part::bytes)
}

fn second_profile(case: &ProfileCase) -> (Profiled, [Vec<u8>; 3]) {
    let mut left = buffers(case);
    let [ledger, cells, profile] = &mut left;
    let (graph, inputs) = (case.lent.graph.bytes(), case.lent.inputs.bytes());
    let profiled = second::profile(Program::plain(&graph), &inputs, ledger, cells, profile);
    (profiled, left)
}

#[test]
fn answers_and_steps_are_those_of_the_description() {
    for case in cases() {
        let (profiled, [_, _, profile]) = second_profile(&case);
        assert_eq!(line_of(&profiled.answer), case.says, "{}", case.name);
        let used = STEP * profiled.records;
        let steps: Vec<String> = profile[..used]
            .chunks_exact(STEP)
            .map(|record| {
                format!(
                    "{}/{}",
                    unsigned(record, step::FIRINGS),
                    unsigned(record, step::TOKENS)
                )
            })
            .collect();
        assert_eq!(steps.join(" "), case.steps, "{}", case.name);
        assert_eq!(
            profile[used..],
            garbage(case.bytes)[used..],
            "{}",
            case.name
        );
    }
}

#[test]
fn the_engine_leaves_what_the_second_emulator_leaves() {
    for case in cases() {
        let (profiled, due) = second_profile(&case);
        let mut left = buffers(&case);
        let [ledger, cells, profile] = &mut left;
        let (graph, inputs) = (case.lent.graph.bytes(), case.lent.inputs.bytes());
        let program = Program::plain(&graph);
        let (answer, records) = engine::profile(program, &inputs, ledger, cells, profile);
        let due_answer = engine::packed_answer(&profiled.answer);
        assert_eq!(answer, due_answer, "{}", case.name);
        assert_eq!(records, profiled.records as u64, "{}", case.name);
        assert!(left == due, "{}", case.name);
    }
}

/// 18 leaves the inputs in the ledger and all cells absent; a refusal before that
/// leaves the buffers as lent.
#[test]
fn what_a_refused_profile_leaves() {
    for case in cases() {
        let (profiled, [ledger, cells, _]) = second_profile(&case);
        let lent = buffers(&case);
        match profiled.answer.refusal() {
            Some(18) if profiled.answer.firings == 0 => {
                let inputs = case.lent.inputs.bytes();
                assert_eq!(ledger[..inputs.len()], inputs[..], "{}", case.name);
                assert!(cells.iter().all(|&byte| byte == 0), "{}", case.name);
            }
            Some(1..=7) => assert!(ledger == lent[0] && cells == lent[1], "{}", case.name),
            _ => {}
        }
    }
}
