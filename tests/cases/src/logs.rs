//! R-7 of document 02: runs that write a log, and replays of logs, through the C
//! functions.

use crate::lent::*;
use crate::paper::{sum, two_stores};

/// A log record: path, iteration, a zero byte, instruction.
pub fn firing(path: u128, iteration: u8, instruction: u16) -> [u8; LOG_RECORD] {
    layout::logged(path, iteration, instruction)
}

/// A firing at the root tag's path and iteration.
fn root(instruction: u16) -> [u8; LOG_RECORD] {
    firing(0, 0, instruction)
}

/// A run with a log: what is lent, the log's length, the answer's line, and the records
/// that are written.
pub struct LoggedCase {
    pub name: &'static str,
    pub lent: Lent,
    pub bytes: usize,
    pub says: &'static str,
    pub log: Vec<u8>,
}

/// A replay: what is lent, the log, and the answer's line.
pub struct ReplayCase {
    pub name: &'static str,
    pub lent: Lent,
    pub log: Vec<u8>,
    pub says: &'static str,
}

/// A run with a log, by the number of its records, and the records written.
fn logged(
    name: &'static str,
    lent: Lent,
    records: usize,
    says: &'static str,
    log: &[[u8; LOG_RECORD]],
) -> LoggedCase {
    LoggedCase {
        name,
        lent,
        bytes: LOG_RECORD * records,
        says,
        log: log.concat(),
    }
}

/// A run whose log has a length that is refused, or whose other refusal comes first.
fn not_logged(name: &'static str, lent: Lent, bytes: usize, says: &'static str) -> LoggedCase {
    LoggedCase {
        bytes,
        ..logged(name, lent, 0, says, &[])
    }
}

fn replay(
    name: &'static str,
    lent: Lent,
    log: &[[u8; LOG_RECORD]],
    says: &'static str,
) -> ReplayCase {
    ReplayCase {
        name,
        lent,
        log: log.concat(),
        says,
    }
}

/// Two COPYs, each to an OUT of its own.
fn copies() -> Lent {
    let graph = [
        op(COPY, &[(2, 0)]),
        op(COPY, &[(3, 0)]),
        op(OUT, &[]),
        op(OUT, &[]),
    ];
    lend(&graph, &[token(0, 0, 1), token(1, 0, 2)])
}

/// NEXT, NEXT, ENTER site 3 at iteration 2, LEAVE.
fn call() -> Lent {
    let graph = [
        op(NEXT, &[(1, 0)]),
        op(NEXT, &[(2, 0)]),
        with(ENTER, 3, &[(3, 0), (4, 0)]),
        op(LEAVE, &[]),
        op(OUT, &[]),
    ];
    lend(&graph, &[token(0, 0, 11)])
}

/// FETCH of cell 1 to ADD, whose other operand is there.
fn read() -> Lent {
    let graph = [op(FETCH, &[(1, 0)]), op(ADD, &[(2, 0)]), op(OUT, &[])];
    lend(&graph, &[token(0, 0, 1), token(1, 1, 4)])
}

pub fn logged_cases() -> Vec<LoggedCase> {
    let mut cases = logged_lengths();
    cases.extend(logged_records());
    cases
}

fn logged_lengths() -> Vec<LoggedCase> {
    let bad_input = || lend(&[op(OUT, &[])], &[token(5, 0, 1)]).budget(1);
    let seven = "refused 7 0 0 0";
    vec![
        logged(
            "log of the sum",
            sum().budget(1),
            1,
            "completed 1 3 0",
            &[root(0)],
        ),
        logged("budget 0, no log", sum().budget(0), 0, "spent 0 2 0", &[]),
        logged(
            "budget 65535, a log of 2048 records",
            sum().budget(65535),
            MOST_RECORDS,
            "completed 1 3 0",
            &[root(0)],
        ),
        logged(
            "a log of 2050 records",
            sum(),
            2050,
            "completed 1 3 0",
            &[root(0)],
        ),
        not_logged(
            "budget 2, a log of one record",
            sum().budget(2),
            LOG_RECORD,
            seven,
        ),
        not_logged("budget 1, no log", sum().budget(1), 0, seven),
        not_logged("a log of 21 bytes", sum().budget(1), 21, seven),
        not_logged("budget 2048, 2047 records", sum(), LOG_RECORD * 2047, seven),
        not_logged(
            "budget 65535, 2047 records",
            sum().budget(65535),
            LOG_RECORD * 2047,
            seven,
        ),
        not_logged("7 of the log before 6", bad_input(), 1, seven),
        not_logged("6 with a log", bad_input(), LOG_RECORD, "refused 6 0 0 0"),
        not_logged(
            "1 before 7 of the log",
            sum().graph_bytes(0),
            1,
            "refused 1 0 0 0",
        ),
    ]
}

fn logged_records() -> Vec<LoggedCase> {
    let path_770 = [
        firing(0, 0, 0),
        firing(0, 1, 1),
        firing(0, 2, 2),
        firing(770, 0, 3),
    ];
    vec![
        logged(
            "log of a call from iteration 2",
            call().budget(9),
            9,
            "completed 4 5 0",
            &path_770,
        ),
        logged(
            "the second COPY first, budget 1",
            copies().picks(&[1]).budget(1),
            3,
            "spent 1 3 0",
            &[root(1)],
        ),
        logged(
            "both COPYs, the second first",
            copies().picks(&[1]).budget(3),
            3,
            "completed 2 4 0",
            &[root(1), root(0)],
        ),
        logged(
            "a refused firing is not logged",
            two_stores().budget(5),
            5,
            "refused 11 1 4 2",
            &[root(0)],
        ),
        logged(
            "a run that hangs",
            read().budget(5),
            5,
            "hung 1 3 0",
            &[root(0)],
        ),
    ]
}

pub fn replay_cases() -> Vec<ReplayCase> {
    let mut cases = replays_of_the_sum();
    cases.extend(replays());
    cases.extend(not_enabled());
    cases.extend(replay_order());
    cases
}

/// A replay of bytes that are no whole records.
fn replay_bytes(name: &'static str, bytes: usize, says: &'static str) -> ReplayCase {
    ReplayCase {
        log: vec![0; bytes],
        ..replay(name, sum(), &[], says)
    }
}

fn replays_of_the_sum() -> Vec<ReplayCase> {
    let marked = byte(root(0), logged::ZERO, 1);
    vec![
        replay("the sum's log", sum(), &[root(0)], "completed 1 3 0"),
        replay("no record", sum(), &[], "spent 0 2 0"),
        replay("the record twice", sum(), &[root(0); 2], "refused 20 1 3 1"),
        replay("3000 records", sum(), &[root(0); 3000], "refused 20 1 3 1"),
        replay("byte 17 is 1", sum(), &[marked], "refused 20 0 2 0"),
        replay(
            "instruction 1, an OUT",
            sum(),
            &[root(1)],
            "refused 20 0 2 0",
        ),
        replay("instruction 2 of 2", sum(), &[root(2)], "refused 20 0 2 0"),
        replay(
            "instruction 65535",
            sum(),
            &[root(65535)],
            "refused 20 0 2 0",
        ),
        replay(
            "another iteration",
            sum(),
            &[firing(0, 1, 0)],
            "refused 20 0 2 0",
        ),
        replay(
            "another path",
            sum(),
            &[firing(256, 0, 0)],
            "refused 20 0 2 0",
        ),
        replay_bytes("a record and 5 bytes", 25, "refused 20 1 3 1"),
        replay_bytes("5 bytes", 5, "refused 20 0 2 0"),
        replay(
            "picks and budget are not looked at",
            sum().pick_bytes(3).budget(0),
            &[root(0)],
            "completed 1 3 0",
        ),
    ]
}

fn replays() -> Vec<ReplayCase> {
    let call_log = [root(0), firing(0, 1, 1), firing(0, 2, 2), firing(770, 0, 3)];
    vec![
        replay(
            "a call from iteration 2",
            call(),
            &call_log,
            "completed 4 5 0",
        ),
        replay(
            "the call, but its LEAVE",
            call(),
            &call_log[..3],
            "spent 3 4 0",
        ),
        replay("one of two COPYs", copies(), &[root(1)], "spent 1 3 0"),
        replay(
            "a whole buffer: zeros name instruction 0",
            copies(),
            &[root(1), root(0), root(0)],
            "refused 20 2 4 2",
        ),
        replay("a read that waits", read(), &[root(0)], "hung 1 3 0"),
        replay("one STORE of two", two_stores(), &[root(1)], "spent 1 4 0"),
        replay(
            "both STOREs, the second first",
            two_stores(),
            &[root(1), root(0)],
            "refused 11 1 4 0",
        ),
        replay(
            "nothing at all",
            sum().input_bytes(0),
            &[],
            "completed 0 0 0",
        ),
    ]
}

/// Activities that are not enabled.
fn not_enabled() -> Vec<ReplayCase> {
    let leave = lend(
        &[op(LEAVE, &[]), op(SINK, &[])],
        &[token(0, 0, 1), token(1, 0, 1)],
    );
    let waiting = sum().input_bytes(TOKEN_RECORD);
    vec![
        replay(
            "no inputs",
            sum().input_bytes(0),
            &[root(0)],
            "refused 20 0 0 0",
        ),
        replay(
            "one operand of two",
            waiting,
            &[root(0)],
            "refused 20 0 1 0",
        ),
        replay(
            "one operand deferred",
            read(),
            &[root(0), root(1)],
            "refused 20 1 3 1",
        ),
        replay(
            "a LEAVE at the root",
            leave,
            &[root(1), root(0)],
            "refused 20 1 2 1",
        ),
        replay(
            "done before, another enabled",
            copies(),
            &[root(0), root(0)],
            "refused 20 1 3 1",
        ),
        replay(
            "behind a hang",
            read(),
            &[root(0), root(0)],
            "refused 20 1 3 1",
        ),
    ]
}

/// 20 in turn, ahead of the firing's own refusals, and behind what comes before any
/// firing.
fn replay_order() -> Vec<ReplayCase> {
    let divide = || {
        lend(
            &[with(DIV + WITH_CONSTANT, 0, &[(0, 0)])],
            &[token(0, 0, 1)],
        )
    };
    let marked = byte(root(0), logged::ZERO, 255);
    let log = [root(0), marked];
    vec![
        replay("20 before 12", divide(), &[marked], "refused 20 0 1 0"),
        replay(
            "12 at an earlier record",
            divide(),
            &log,
            "refused 12 0 1 0",
        ),
        replay(
            "20 before 8",
            sum().capacity(2),
            &[marked],
            "refused 20 0 2 0",
        ),
        replay("8 in a firing", sum().capacity(2), &log, "refused 8 0 2 0"),
        replay(
            "8 of the inputs",
            sum().capacity(1),
            &[marked],
            "refused 8 0 0 1",
        ),
        replay(
            "7 of the cells",
            sum().cell_bytes(3),
            &[marked],
            "refused 7 0 0 0",
        ),
        replay(
            "7 of the ledger",
            sum().ledger_bytes(30),
            &[marked],
            "refused 7 0 0 0",
        ),
        replay(
            "1 of the graph",
            sum().graph_bytes(7),
            &[marked],
            "refused 1 0 0 0",
        ),
    ]
}
