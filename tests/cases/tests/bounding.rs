//! The cases of loop bounding, by the second emulator and by the engine.

mod calls;

use calls::{counts, second_run, Buffers};
use cases::bounding::cases;
use cases::lent::TOKEN_RECORD;
use cases::RunCase;
use second::{Answer, Outcome};

/// The used records, sorted: what two orders are compared by.
fn listed(answer: &Answer, left: &Buffers) -> Vec<Vec<u8>> {
    let used = &left[0][..TOKEN_RECORD * answer.tokens];
    let mut records: Vec<_> = used.chunks(TOKEN_RECORD).map(<[u8]>::to_vec).collect();
    records.sort();
    records
}

#[test]
fn answers_are_those_of_the_description() {
    calls::answers_are_described(&cases());
}

#[test]
fn the_engine_runs_as_the_second_emulator() {
    calls::the_engine_runs_alike(&cases());
}

/// Which hang it was: what is held is counted, and at rest nothing else is enabled.
#[test]
fn what_is_held_is_counted() {
    for case in cases() {
        let (answer, [ledger, cells, _]) = second_run(&case);
        if answer.refused_at_once() {
            continue;
        }
        let graph = case.lent.graph.bytes();
        let used = &ledger[..TOKEN_RECORD * answer.tokens];
        let due = second::held(&graph, case.bound, used).expect("a run leaves its tokens");
        assert_eq!(due.len(), case.held, "{}", case.name);
        let found = engine::held(&graph, case.bound, counts(&answer), &ledger, &cells);
        let (held, enabled) = found.expect("what a run leaves is taken");
        assert_eq!(held, case.held, "{}", case.name);
        let rests = matches!(answer.outcome, Outcome::Completed | Outcome::Hung);
        assert_eq!(enabled == held, rests, "{}", case.name);
    }
}

/// A run with a bound that completes, or hangs with nothing held, ends as the one
/// without a bound; another hang need not.
#[test]
fn ends_are_those_of_runs_without_a_bound() {
    let mut alike = 0;
    for case in cases() {
        let (answer, left) = second_run(&case);
        let rests = matches!(answer.outcome, Outcome::Completed | Outcome::Hung);
        if !rests || case.held > 0 {
            continue;
        }
        let plain = RunCase {
            bound: 0,
            ..case.clone()
        };
        let (due, due_left) = second_run(&plain);
        assert_eq!(answer, due, "{}", case.name);
        assert!(left[1] == due_left[1], "{}", case.name);
        assert_eq!(listed(&answer, &left), listed(&due, &due_left));
        alike += 1;
    }
    assert!(alike > 5, "{alike}");
}
