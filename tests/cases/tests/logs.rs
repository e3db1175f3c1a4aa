//! The cases of logs and replays, by the second emulator and by the engine.

use cases::lent::{garbage, Lent, Part};
use cases::line_of;
use cases::logs::{logged_cases, replay_cases, LoggedCase};
use second::{Answer, Outcome, Program, Schedule};

/// The ledger and the cells as they are lent.
fn stores(lent: &Lent) -> [Vec<u8>; 2] {
    [&lent.ledger, &lent.cells].map(Part::bytes)
}

/// A replay by either emulator, and its answer.
type Replay<A> = fn(Program, &[u8], &[u8], &mut [u8], &mut [u8]) -> A;

/// The answer with ledger and cells.
fn replayed<A>(lent: &Lent, log: &[u8], replay: Replay<A>) -> (A, [Vec<u8>; 2]) {
    let mut left = stores(lent);
    let [ledger, cells] = &mut left;
    let (graph, inputs) = (lent.graph.bytes(), lent.inputs.bytes());
    let answer = replay(Program::plain(&graph), &inputs, log, ledger, cells);
    (answer, left)
}

/// A run with a log by either emulator, and its answer.
type RunLogged<A> = fn(Program, &[u8], Schedule, &mut [u8], &mut [u8], &mut [u8]) -> A;

/// The answer with ledger and cells, and the log.
fn logged<A>(case: &LoggedCase, run: RunLogged<A>) -> (A, [Vec<u8>; 2], Vec<u8>) {
    let lent = &case.lent;
    let mut left = stores(lent);
    let mut log = garbage(case.bytes);
    let [ledger, cells] = &mut left;
    let (graph, inputs, picks) = (lent.graph.bytes(), lent.inputs.bytes(), lent.picks.bytes());
    let (program, schedule) = (Program::plain(&graph), Schedule::new(&picks, lent.budget));
    let answer = run(program, &inputs, schedule, ledger, cells, &mut log);
    (answer, left, log)
}

#[test]
fn answers_and_logs_are_those_of_the_description() {
    for case in logged_cases() {
        let (answer, left, log) = logged(&case, second::run_logged);
        assert_eq!(line_of(&answer), case.says, "{}", case.name);
        let (written, rest) = log.split_at(case.log.len());
        assert_eq!(written, case.log, "{}", case.name);
        assert_eq!(rest, &garbage(case.bytes)[written.len()..], "{}", case.name);
        // A log changes nothing else.
        if answer.refusal() != Some(7) {
            let plain = cases::run(&case.lent);
            assert_eq!(plain.answer, answer, "{}", case.name);
            assert!([plain.ledger, plain.cells] == left, "{}", case.name);
        }
    }
}

#[test]
fn the_replay_of_a_run_leaves_what_the_run_left() {
    for case in logged_cases() {
        let (answer, left, _) = logged(&case, second::run_logged);
        if answer.refusal() == Some(7) {
            continue;
        }
        let (again, replay_left) = replayed(&case.lent, &case.log, second::replay);
        assert!(replay_left == left, "{}", case.name);
        let outcome = match answer.outcome {
            Outcome::Refused(_) if !answer.refused_at_once() => Outcome::Spent,
            outcome => outcome,
        };
        assert_eq!(again, Answer { outcome, ..answer }, "{}", case.name);
    }
}

#[test]
fn the_engine_logs_what_the_second_emulator_logs() {
    for case in logged_cases() {
        let (answer, left, log) = logged(&case, engine::run_logged);
        let (due_answer, due, due_log) = logged(&case, second::run_logged);
        assert_eq!(answer, engine::packed_answer(&due_answer), "{}", case.name);
        assert!(left == due && log == due_log, "{}", case.name);
    }
}

#[test]
fn replays_are_those_of_the_description() {
    for case in replay_cases() {
        let (answer, left) = replayed(&case.lent, &case.log, engine::replay);
        let (due_answer, due) = replayed(&case.lent, &case.log, second::replay);
        assert_eq!(line_of(&due_answer), case.says, "{}", case.name);
        assert_eq!(answer, engine::packed_answer(&due_answer), "{}", case.name);
        assert!(left == due, "{}", case.name);
    }
}

/// 20 with nothing fired leaves the inputs in the ledger and all cells absent, also
/// where there is no input; a refusal before that leaves them as lent.
#[test]
fn what_a_refused_replay_leaves() {
    for case in replay_cases() {
        let (answer, left) = replayed(&case.lent, &case.log, second::replay);
        if answer.refused_at_once() {
            assert!(left == stores(&case.lent), "{}", case.name);
        } else if answer.refusal() == Some(20) && answer.firings == 0 {
            let inputs = case.lent.inputs.bytes();
            assert_eq!(left[0][..inputs.len()], inputs[..], "{}", case.name);
            assert!(left[1].iter().all(|&byte| byte == 0), "{}", case.name);
        }
    }
}
