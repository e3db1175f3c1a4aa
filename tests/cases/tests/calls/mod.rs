//! The calls of a case with a table or a bound, by the second emulator and by the engine.

// Each test program uses a part of this.
#![allow(dead_code)]

use cases::lent::{garbage, LOG_RECORD, MOST_RECORDS};
use cases::{line_of, RunCase};
use second::{Answer, Counts, Program, Schedule};

/// The buffers that a call is lent: ledger, cells, and a log or a profile.
pub type Buffers = [Vec<u8>; 3];

/// Makes a call with what a case lends, and answers with what it leaves.
pub fn called<A>(
    case: &RunCase,
    call: impl FnOnce(Program, &[u8], Schedule, &mut Buffers) -> A,
) -> (A, Buffers) {
    let lent = &case.lent;
    let (graph, inputs, picks) = (lent.graph.bytes(), lent.inputs.bytes(), lent.picks.bytes());
    let program = Program {
        graph: &graph,
        arrays: &case.table,
    };
    let further = garbage(LOG_RECORD * MOST_RECORDS);
    let mut buffers = [lent.ledger.bytes(), lent.cells.bytes(), further];
    let schedule = Schedule::new(&picks, lent.budget).bounded(case.bound);
    let answer = call(program, &inputs, schedule, &mut buffers);
    (answer, buffers)
}

pub fn second_run(case: &RunCase) -> (Answer, Buffers) {
    called(case, |program, inputs, schedule, [ledger, cells, _]| {
        second::run(program, inputs, schedule, ledger, cells)
    })
}

pub fn second_logged(case: &RunCase) -> (Answer, Buffers) {
    called(case, |program, inputs, schedule, [ledger, cells, log]| {
        second::run_logged(program, inputs, schedule, ledger, cells, log)
    })
}

/// The counts of an answer, as a state is saved with them.
pub fn counts(answer: &Answer) -> Counts {
    Counts {
        firings: answer.firings as u16,
        tokens: answer.tokens as u16,
    }
}

/// That an answer of the engine and what it left are those of the second emulator.
#[track_caller]
pub fn alike(case: &RunCase, found: (u64, Buffers), due: (Answer, Buffers)) {
    assert_eq!(found.0, engine::packed_answer(&due.0), "{}", case.name);
    assert!(found.1 == due.1, "{}", case.name);
}

/// The answers are those of the description, and what is refused at once is left as lent.
pub fn answers_are_described(cases: &[RunCase]) {
    for case in cases {
        let (answer, left) = second_run(case);
        assert_eq!(line_of(&answer), case.says, "{}", case.name);
        if answer.refused_at_once() {
            let (_, lent) = called(case, |_, _, _, _| ());
            assert!(left == lent, "{}", case.name);
        }
    }
}

/// The engine runs, with a log and without one, as the second emulator does.
pub fn the_engine_runs_alike(cases: &[RunCase]) {
    for case in cases {
        let found = called(case, |program, inputs, schedule, [ledger, cells, _]| {
            engine::run(program, inputs, schedule, ledger, cells)
        });
        alike(case, found, second_run(case));
        let found = called(case, |program, inputs, schedule, [ledger, cells, log]| {
            engine::run_logged(program, inputs, schedule, ledger, cells, log)
        });
        alike(case, found, second_logged(case));
    }
}
