//! Every refusal, each at several places where places differ.

use crate::lent::*;
use crate::paper::{turning, two_stores};
use crate::{case, Case};

pub fn cases() -> Vec<Case> {
    let mut cases = graph_length();
    cases.extend(unknown_operation());
    cases.extend(fan_out());
    cases.extend(unused_fields());
    cases.extend(bad_arc());
    cases.extend(bad_site());
    cases.extend(bad_input());
    cases.extend(bad_store());
    cases.extend(bad_array());
    cases.extend(ledger_full());
    cases.extend(second_token());
    cases.extend(cell_refusals());
    cases.extend(tag_refusals());
    cases
}

/// COPY to ADD and OUT; ADD to OUT; OUT; CONST to ADD.
pub fn plain() -> Vec<Instruction> {
    vec![
        op(COPY, &[(1, 0), (2, 0)]),
        op(ADD, &[(2, 0)]),
        op(OUT, &[]),
        with(CONST, -4, &[(1, 1)]),
    ]
}

/// The plain graph with a record put in its place.
pub fn plain_with(place: usize, record: Instruction) -> Vec<Instruction> {
    let mut graph = plain();
    graph[place] = record;
    graph
}

/// What is lent for a refusal of the graph: its check comes before any input's.
fn of(graph: &[Instruction]) -> Lent {
    lend(graph, &[token(2, 0, 1)]).capacity(2).cells(1)
}

fn at_once(number: u8, place: usize) -> String {
    format!("refused {number} 0 0 {place}")
}

fn graph_length() -> Vec<Case> {
    let rows = {
        let most = MOST_INSTRUCTIONS * GRAPH_RECORD;
        [0, 1, 15, 17, 63, 65, most + 1, most + GRAPH_RECORD]
    };
    let graph_of = |bytes| of(&plain()).graph_bytes(bytes);
    rows.map(|bytes| {
        case(
            format!("1 graph of {bytes} bytes"),
            graph_of(bytes),
            at_once(1, 0),
        )
    })
    .into()
}

fn unknown_operation() -> Vec<Case> {
    let rows = [
        (0, 2),
        (12, 0),
        (15, 1),
        (24, 3),
        (31, 0),
        (40, 2),
        (255, 3),
    ];
    let mut cases = Vec::new();
    for (code, place) in rows {
        // Arcs to the place would be refused before it: its graph has none.
        let mut graph = vec![op(SINK, &[]); 4];
        graph[place] = op(code, &[]);
        cases.push(case(
            format!("2 code {code} at record {place}"),
            of(&graph),
            at_once(2, place),
        ));
    }
    cases
}

/// Counts of destinations that are not allowed, for each operation.
fn fan_out() -> Vec<Case> {
    let rows: [(u8, &str, &[u8]); 15] = [
        (COPY, "COPY", &[0, 3]),
        (SINK, "SINK", &[1]),
        (OUT, "OUT", &[1]),
        (CONST, "CONST", &[0, 3]),
        (SWITCH, "SWITCH", &[0, 1, 3]),
        (GATE, "GATE", &[0]),
        (NEXT, "NEXT", &[0]),
        (ENTER, "ENTER", &[0, 1]),
        (LEAVE, "LEAVE", &[1]),
        (FETCH, "FETCH", &[0]),
        (STORE, "STORE", &[3, 255]),
        (ADD, "ADD", &[0]),
        (EQ, "EQ", &[0, 3]),
        (ADD + WITH_CONSTANT, "ADD constant", &[0]),
        (EQ + WITH_CONSTANT, "EQ constant", &[0, 3]),
    ];
    let mut cases = Vec::new();
    for (code, word, counts) in rows {
        for &count in counts {
            let arcs = vec![(2, 0); usize::from(count.min(2))];
            let record = byte(
                with(code, i32::from(code == ENTER), &arcs),
                instruction::FAN_OUT,
                count,
            );
            let graph = plain_with(0, record);
            cases.push(case(
                format!("3 {word} with {count} destinations"),
                of(&graph),
                at_once(3, 0),
            ));
        }
    }
    cases
}

/// Bytes of unused fields that are not zero, at several records.
fn unused_fields() -> Vec<Case> {
    let mut cases = Vec::new();
    for at in instruction::ZEROS {
        let graph = plain_with(2, byte(op(OUT, &[]), at, 1));
        cases.push(case(
            format!("3 byte {at} of OUT is not zero"),
            of(&graph),
            at_once(3, 2),
        ));
    }
    let second = instruction::target(1);
    for at in [instruction::port(1), second.start, second.end - 1] {
        let graph = plain_with(1, byte(op(ADD, &[(2, 0)]), at, 1));
        cases.push(case(
            format!("3 byte {at} of ADD to one is not zero"),
            of(&graph),
            at_once(3, 1),
        ));
    }
    for at in instruction::port(0)..instruction::target(1).end {
        let graph = plain_with(3, byte(op(STORE, &[]), at, 1));
        cases.push(case(
            format!("3 byte {at} of STORE to none is not zero"),
            of(&graph),
            at_once(3, 3),
        ));
    }
    let two = [(2, 0), (2, 0)];
    for code in [COPY, SWITCH, GATE, NEXT, ADD, EQ] {
        let graph = plain_with(0, with(code, 256, &two));
        cases.push(case(
            format!("3 a constant at code {code}"),
            of(&graph),
            at_once(3, 0),
        ));
    }
    for code in [SINK, OUT] {
        let graph = plain_with(2, with(code, i32::MIN, &[]));
        cases.push(case(
            format!("3 a constant at code {code}"),
            of(&graph),
            at_once(3, 2),
        ));
    }
    cases
}

/// Without a table of named arrays no constant of FETCH and STORE names one (02, R-10).
fn bad_array() -> Vec<Case> {
    let mut cases = Vec::new();
    for code in [FETCH, STORE] {
        for constant in [1, 256, -1, i32::MIN] {
            let graph = plain_with(3, with(code, constant, &[(1, 1)]));
            cases.push(case(
                format!("22 constant {constant} at code {code}"),
                of(&graph),
                at_once(22, 3),
            ));
        }
    }
    cases
}

fn bad_arc() -> Vec<Case> {
    let rows = [
        ("to instruction 4 of 4", (4, 0)),
        ("to instruction 256", (256, 0)),
        ("to instruction 65535", (65535, 0)),
        ("to port 2 of ADD", (1, 2)),
        ("to port 1 of OUT", (2, 1)),
        ("to port 255 of OUT", (2, 255)),
    ];
    let mut cases = Vec::new();
    for (word, arc) in rows {
        let first = plain_with(1, op(ADD, &[arc]));
        let second = plain_with(0, op(COPY, &[(2, 0), arc]));
        let back = plain_with(3, with(ENTER, 1, &[(2, 0), arc]));
        cases.push(case(
            format!("4 destination 1 {word}"),
            of(&first),
            at_once(4, 1),
        ));
        cases.push(case(
            format!("4 destination 2 {word}"),
            of(&second),
            at_once(4, 0),
        ));
        cases.push(case(format!("4 return {word}"), of(&back), at_once(4, 3)));
    }
    let later = plain_with(3, op(0, &[]));
    cases.push(case(
        "4 to a later record of unknown code",
        of(&[op(COPY, &[(1, 0)]), op(99, &[])]),
        at_once(4, 0),
    ));
    cases.push(case(
        "2 of unknown code, with no arc to it",
        of(&later),
        at_once(2, 3),
    ));
    cases
}

fn bad_site() -> Vec<Case> {
    let mut cases = Vec::new();
    let enter = |site, arcs: [(u16, u8); 2]| with(ENTER, site, &arcs);
    for site in [0, 256, -1, i32::MIN, i32::MAX] {
        let graph = plain_with(0, enter(site, [(2, 0), (2, 0)]));
        cases.push(case(format!("5 site {site}"), of(&graph), at_once(5, 0)));
    }
    for constant in [256, -1, i32::MIN, i32::MAX] {
        let graph = plain_with(3, with(LEAVE, constant, &[]));
        cases.push(case(
            format!("5 LEAVE constant {constant}"),
            of(&graph),
            at_once(5, 3),
        ));
    }
    for constant in [0, 255] {
        let graph = plain_with(3, with(LEAVE, constant, &[]));
        cases.push(case(
            format!("5 not: LEAVE constant {constant}"),
            of(&graph),
            "completed 0 1 0",
        ));
    }
    let port = plain_with(3, enter(1, [(2, 0), (1, 1)]));
    let mut twice = plain_with(0, enter(9, [(2, 0), (1, 0)]));
    twice[3] = enter(9, [(1, 1), (1, 0)]);
    let same = of(&twice);
    twice[3] = enter(9, [(1, 1), (2, 0)]);
    let other = of(&twice);
    twice[3] = enter(255, [(1, 1), (2, 0)]);
    let apart = of(&twice);
    cases.push(case("5 return port 1", of(&port), at_once(5, 3)));
    cases.push(case(
        "5 an earlier ENTER of that site has another return",
        other,
        at_once(5, 3),
    ));
    cases.push(case(
        "5 not: an earlier ENTER of that site has the same return",
        same,
        "completed 0 1 0",
    ));
    cases.push(case(
        "5 not: an earlier ENTER of another site has another return",
        apart,
        "completed 0 1 0",
    ));
    cases
}

fn bad_input() -> Vec<Case> {
    let good = token(0, 0, -1);
    let fields = [
        (0, 1, "path 1"),
        (7, 128, "path of 64 bits"),
        (8, 1, "path of 65 bits"),
        (token::PATH.end - 1, 128, "path of 128 bits"),
        (token::ITERATION, 1, "iteration 1"),
        (token::ITERATION, 255, "iteration 255"),
        (token::STATE, 1, "state 1"),
        (token::STATE, 2, "state 2"),
        (token::STATE, 3, "state 3"),
        (token::ZEROS.start, 1, "byte 25"),
        (token::ZEROS.start + 1, 1, "byte 26"),
        (token::ZEROS.start + 2, 255, "byte 27"),
    ];
    let mut cases = Vec::new();
    for (at, value, word) in fields {
        let inputs = [good, byte(token(1, 0, 5), at, value), good];
        cases.push(case(
            format!("6 {word} at input 1"),
            lend(&plain(), &inputs),
            at_once(6, 1),
        ));
    }
    for (instruction, port) in [(4, 0), (256, 0), (65535, 0), (0, 1), (1, 2), (2, 255)] {
        let inputs = [good, token(1, 1, 2), token(instruction, port, 5)];
        let word = format!("6 instruction {instruction} port {port} at input 2");
        cases.push(case(word, lend(&plain(), &inputs), at_once(6, 2)));
    }
    let first = [token(3, 1, 0), good];
    cases.push(case(
        "6 instruction 3 port 1 at input 0",
        lend(&plain(), &first),
        at_once(6, 0),
    ));
    cases
}

/// Inputs, picks, ledger and cells that are not whole records, or too many.
fn bad_store() -> Vec<Case> {
    let lent = || lend(&plain(), &[token(0, 0, 1)]).capacity(3).cells(1);
    let mut cases = Vec::new();
    let most = MOST_RECORDS * TOKEN_RECORD;
    for bytes in [1, 20, 27, 29, most + 1, most + TOKEN_RECORD] {
        cases.push(case(
            format!("7 inputs of {bytes} bytes"),
            lent().input_bytes(bytes),
            at_once(7, 0),
        ));
    }
    let most_picks = MOST_RECORDS * PICK_RECORD;
    for bytes in [1, 3, most_picks + 1, most_picks + PICK_RECORD] {
        cases.push(case(
            format!("7 picks of {bytes} bytes"),
            lent().pick_bytes(bytes),
            at_once(7, 0),
        ));
    }
    for bytes in [1, 60, 83, 85, most + 1, most + TOKEN_RECORD] {
        cases.push(case(
            format!("7 ledger of {bytes} bytes"),
            lent().ledger_bytes(bytes),
            at_once(7, 0),
        ));
    }
    let most_cells = MOST_CELLS * CELL_RECORD;
    for bytes in [1, 7, 9, most_cells + 1, most_cells + CELL_RECORD] {
        cases.push(case(
            format!("7 cells of {bytes} bytes"),
            lent().cell_bytes(bytes),
            at_once(7, 0),
        ));
    }
    cases.push(case(
        "7 not: 2048 picks",
        lent().pick_bytes(most_picks),
        "hung 1 3 0",
    ));
    cases
}

/// Refusal 8, for the inputs and in a firing.
fn ledger_full() -> Vec<Case> {
    let inputs = [token(0, 0, 1), token(1, 1, 2), token(3, 0, 0)];
    let mut cases = Vec::new();
    for records in 0..3 {
        let lent = lend(&plain(), &inputs).capacity(records);
        cases.push(case(
            format!("8 three inputs, capacity {records}"),
            lent,
            at_once(8, records),
        ));
    }
    let single = [
        op(SWITCH, &[(2, 0), (1, 0)]),
        with(ENTER, 1, &[(3, 0), (2, 0)]),
        op(OUT, &[]),
        op(LEAVE, &[]),
    ];
    let lent = |records| lend(&single, &[token(0, 0, 6), token(0, 1, 0)]).capacity(records);
    cases.push(case(
        "8 two outputs of COPY, one record left",
        lend(&plain(), &inputs).capacity(4),
        "refused 8 0 3 0",
    ));
    cases.push(case(
        "8 at SWITCH, which sends one",
        lent(2),
        "refused 8 0 2 0",
    ));
    cases.push(case(
        "8 at ENTER, which sends one",
        lent(3),
        "refused 8 1 3 2",
    ));
    cases.push(case(
        "8 at LEAVE, which sends one",
        lent(4),
        "refused 8 2 4 3",
    ));
    cases.push(case(
        "8 not: SWITCH, ENTER and LEAVE fit",
        lent(5),
        "completed 3 5 0",
    ));
    let deferred = lend(&[op(FETCH, &[(1, 0)]), op(OUT, &[])], &[token(0, 0, 1)]);
    cases.push(case(
        "8 at FETCH: the cell stays absent",
        deferred.capacity(1),
        "refused 8 0 1 0",
    ));
    let signal = lend(
        &[op(STORE, &[(1, 0)]), op(OUT, &[])],
        &[token(0, 0, 1), token(0, 1, 3)],
    );
    cases.push(case(
        "8 at STORE: the cell stays absent",
        signal.capacity(2),
        "refused 8 0 2 0",
    ));
    cases
}

/// Refusal 9, for the inputs and in a firing.
fn second_token() -> Vec<Case> {
    let inputs = |rows: &[(u16, u8)]| {
        rows.iter()
            .map(|&(i, p)| token(i, p, 1))
            .collect::<Vec<_>>()
    };
    let at = |rows: &[(u16, u8)]| lend(&plain(), &inputs(rows));
    let twice = [
        with(CONST, 5, &[(2, 0)]),
        with(CONST, 6, &[(2, 0)]),
        op(SINK, &[]),
    ];
    let constants = || lend(&twice, &[token(0, 0, 0), token(1, 0, 0)]);
    let reads = [op(FETCH, &[(2, 0)]), op(FETCH, &[(2, 0)]), op(SINK, &[])];
    let read = || lend(&reads, &[token(0, 0, 0), token(1, 0, 1)]);
    let itself = [op(COPY, &[(0, 0)])];
    let second = [op(COPY, &[(1, 0), (2, 0)]), op(SINK, &[]), op(SINK, &[])];
    let stored = [op(STORE, &[(0, 1)])];
    vec![
        case(
            "9 inputs 0 and 1 alike",
            at(&[(0, 0), (0, 0)]),
            at_once(9, 1),
        ),
        case(
            "9 inputs 0 and 3 alike",
            at(&[(0, 0), (1, 0), (1, 1), (0, 0)]),
            at_once(9, 3),
        ),
        case(
            "9 not: two ports of one instruction",
            at(&[(1, 0), (1, 1)]),
            "completed 1 3 0",
        ),
        case(
            "9 an output meets a live token",
            constants(),
            "refused 9 1 3 1",
        ),
        case(
            "9 an output meets a spent token",
            constants().picks(&[0, 1]),
            "refused 9 2 3 1",
        ),
        case(
            "9 an output meets a deferred token, before any write",
            read(),
            "refused 9 1 3 1",
        ),
        case(
            "9 an output meets its own operand",
            lend(&itself, &[token(0, 0, 1)]),
            "refused 9 0 1 0",
        ),
        case(
            "9 output 2 meets an input, and output 1 is not sent",
            lend(&second, &[token(2, 0, 8), token(0, 0, 1)]).picks(&[1]),
            "refused 9 0 2 1",
        ),
        case(
            "9 at STORE: the cell stays absent",
            lend(&stored, &[token(0, 0, 0), token(0, 1, 3)]),
            "refused 9 0 2 0",
        ),
        case(
            "9 not: the same instruction and port in another iteration",
            turning().budget(2),
            "spent 2 3 0",
        ),
    ]
}

/// Refusals 10 and 11.
fn cell_refusals() -> Vec<Case> {
    let graph = [
        op(FETCH, &[(2, 0)]),
        op(STORE, &[]),
        op(OUT, &[]),
        op(SINK, &[]),
    ];
    let mut cases = Vec::new();
    for (value, count) in [
        (2, 2),
        (-1, 2),
        (0, 0),
        (1, 1),
        (1024, 1024),
        (i32::MIN, 3),
        (i32::MAX, 3),
    ] {
        let fetch = lend(&graph, &[token(3, 0, 9), token(0, 0, value)]).cells(count);
        let store = lend(
            &graph,
            &[token(3, 0, 9), token(1, 1, 5), token(1, 0, value)],
        )
        .cells(count);
        cases.push(case(
            format!("10 FETCH of {value}, {count} cells"),
            fetch,
            "refused 10 1 2 1",
        ));
        cases.push(case(
            format!("10 STORE to {value}, {count} cells"),
            store.picks(&[1]),
            "refused 10 0 3 1",
        ));
    }
    let waiting = [
        op(FETCH, &[(3, 0)]),
        op(STORE, &[]),
        op(STORE, &[]),
        op(OUT, &[]),
    ];
    let inputs = [
        token(0, 0, 1),
        token(1, 0, 1),
        token(1, 1, 4),
        token(2, 0, 1),
        token(2, 1, 5),
    ];
    cases.push(case(
        "11 after a STORE that woke a read",
        lend(&waiting, &inputs),
        "refused 11 2 6 3",
    ));
    cases.push(case(
        "11 the other STORE first",
        lend(&waiting, &inputs).picks(&[0, 1]),
        "refused 11 2 6 1",
    ));
    cases.push(case(
        "11 the same value again",
        {
            let mut lent = two_stores();
            lent.inputs.given[3 * TOKEN_RECORD + 20] = 10;
            lent
        },
        "refused 11 1 4 2",
    ));
    cases
}

/// Refusals 13, 14 and 17.
fn tag_refusals() -> Vec<Case> {
    let deep = [with(ENTER, 255, &[(0, 0), (1, 0)]), op(LEAVE, &[])];
    let past = |constant| {
        let graph = [
            with(ENTER, 1, &[(1, 0), (2, 0)]),
            with(LEAVE, constant, &[]),
            op(OUT, &[]),
            op(OUT, &[]),
        ];
        lend(&graph, &[token(0, 0, 1)])
    };
    vec![
        case(
            "13 NEXT at iteration 255",
            turning().from(254),
            "refused 13 255 256 255",
        ),
        case(
            "14 ENTER at eight levels",
            lend(&deep, &[token(0, 0, 1)]).capacity(9),
            "refused 14 8 9 8",
        ),
        case(
            "14 not: eight levels",
            lend(&deep, &[token(0, 0, 1)]).capacity(9).budget(8),
            "spent 8 9 0",
        ),
        case(
            "17 return 2 plus 2 of 4 instructions",
            past(2),
            "refused 17 1 2 1",
        ),
        case(
            "17 return 2 plus 255 of 4 instructions",
            past(255),
            "refused 17 1 2 1",
        ),
        case(
            "17 not: return 2 plus 1 of 4 instructions",
            past(1),
            "completed 2 3 0",
        ),
    ]
}
