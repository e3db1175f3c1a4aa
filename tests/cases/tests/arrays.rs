//! The cases of named arrays, by the second emulator and by the engine.

mod calls;

use calls::{alike, called, counts, second_logged, second_run};
use cases::arrays::cases;
use cases::lent::{LOG_RECORD, PICK_RECORD, WHOLE_BUDGET};
use second::{Outcome, Schedule};

#[test]
fn answers_are_those_of_the_description() {
    calls::answers_are_described(&cases());
}

#[test]
fn the_engine_runs_as_the_second_emulator() {
    calls::the_engine_runs_alike(&cases());
}

#[test]
fn replays() {
    for case in cases() {
        let (answer, left) = second_logged(&case);
        let log = &left[2][..LOG_RECORD * answer.firings];
        let due = called(&case, |program, inputs, _, [ledger, cells, _]| {
            second::replay(program, inputs, log, ledger, cells)
        });
        let found = called(&case, |program, inputs, _, [ledger, cells, _]| {
            engine::replay(program, inputs, log, ledger, cells)
        });
        alike(&case, found, due);
    }
}

#[test]
fn profiles() {
    for case in cases() {
        let (due, due_left) = called(&case, |program, inputs, _, [ledger, cells, profile]| {
            second::profile(program, inputs, ledger, cells, profile)
        });
        let (found, left) = called(&case, |program, inputs, _, [ledger, cells, profile]| {
            engine::profile(program, inputs, ledger, cells, profile)
        });
        let answer = engine::packed_answer(&due.answer);
        assert_eq!(found, (answer, due.records as u64), "{}", case.name);
        assert!(left == due_left, "{}", case.name);
    }
}

/// Each run cut behind its first firing, and carried on under the same table.
#[test]
fn saved_states_are_carried_on() {
    for case in cases() {
        let mut cut = case.clone();
        cut.lent.budget = 1;
        let (part, state) = second_run(&cut);
        if part.outcome != Outcome::Spent {
            continue;
        }
        let picks = case.lent.picks.bytes();
        let rest = &picks[PICK_RECORD.min(picks.len())..];
        let found = called(&case, |program, _, _, buffers| {
            *buffers = state.clone();
            let [ledger, cells, _] = buffers;
            let schedule = Schedule::new(rest, WHOLE_BUDGET - 1);
            engine::carry_on(program, schedule, counts(&part), ledger, cells)
        });
        alike(&case, found, second_run(&case));
    }
}
