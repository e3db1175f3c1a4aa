//! Saved states: each condition of 02's list broken by itself, states that are taken, and
//! runs cut into parts (02, R-13).

mod common;

use common::*;
use second::{broken_conditions, carry_on, Condition, Counts, Program, Schedule};

/// A state with its graph.
#[derive(Clone)]
struct State {
    graph: Vec<u8>,
    saved: Counts,
    ledger: Vec<u8>,
    cells: Vec<u8>,
}

fn cell(value: i32, state: u8) -> [u8; 8] {
    let mut record = [0; 8];
    record[..4].copy_from_slice(&value.to_le_bytes());
    record[4] = state;
    record
}

/// A call from site 3, a read of cell 0, an ADD and a result: one of each thing that a
/// condition speaks of. Records: 0 ENTER, 1 FETCH, 2 ADD, 3 OUT, 4 LEAVE, 5 GATE.
fn graph_of_all() -> Vec<u8> {
    graph(&[
        instruction(ENTER, &[(4, 0), (3, 0)], 3),
        instruction(FETCH, &[(2, 0)], 0),
        instruction(ADD, &[(3, 0)], 0),
        instruction(OUT, &[], 0),
        instruction(LEAVE, &[], 0),
        instruction(GATE, &[(3, 0)], 0),
    ])
}

/// A state of that graph that is taken: ENTER, FETCH and GATE of iteration 1 have fired.
fn good() -> State {
    let tokens = [
        token(0, 0, 0, 0, 7, 1),
        token(0, 0, 1, 0, 0, 1),
        token(0x300, 0, 4, 0, 7, 0),
        token(0, 0, 2, 0, 0, 2),
        token(0, 0, 2, 1, 5, 0),
        token(0, 1, 5, 0, 4, 1),
        token(0, 1, 5, 1, 0, 1),
        token(0, 1, 3, 0, 4, 0),
        token(0, 0, 4, 0, 9, 0),
    ];
    let mut ledger = tokens.concat();
    ledger.resize(28 * 12, 0xa5);
    State {
        graph: graph_of_all(),
        saved: Counts {
            firings: 3,
            tokens: 9,
        },
        ledger,
        cells: [cell(0, 1), cell(-8, 2), cell(0, 0)].concat(),
    }
}

impl State {
    fn put(mut self, position: usize, record: [u8; 28]) -> State {
        self.ledger[28 * position..28 * position + 28].copy_from_slice(&record);
        self
    }

    fn cell(mut self, number: usize, record: [u8; 8]) -> State {
        self.cells[8 * number..8 * number + 8].copy_from_slice(&record);
        self
    }

    fn firings(mut self, firings: u16) -> State {
        self.saved.firings = firings;
        self
    }

    fn tokens(mut self, tokens: u16) -> State {
        self.saved.tokens = tokens;
        self
    }

    fn byte(mut self, at: usize, value: u8) -> State {
        self.ledger[at] = value;
        self
    }

    fn broken(&self) -> Vec<Condition> {
        let program = Program::plain(&self.graph);
        broken_conditions(program, self.saved, &self.ledger, &self.cells).unwrap()
    }

    /// Carries on, and sees that a refused call writes nothing.
    fn carry_on(&self, picks: &[u16], budget: u16) -> Left {
        let mut left = (self.ledger.clone(), self.cells.clone());
        let (ledger, cells) = (&mut left.0, &mut left.1);
        let answer = carry_on(
            Program::plain(&self.graph),
            Schedule::new(&common::picks(picks), budget),
            self.saved,
            ledger,
            cells,
        );
        if answer.refusal() == Some(24) {
            assert_eq!(answer, refused(24, 0, 0, 0));
            assert!(left.0 == self.ledger && left.1 == self.cells);
        }
        Left {
            answer,
            ledger: left.0,
            cells: left.1,
        }
    }

    fn breaks(&self, condition: Condition) {
        assert_eq!(self.broken(), [condition]);
        assert_eq!(self.carry_on(&[], 9).answer, refused(24, 0, 0, 0));
    }

    fn taken(&self) {
        assert_eq!(self.broken(), []);
        assert_ne!(self.carry_on(&[], 0).answer.refusal(), Some(24));
    }
}

#[test]
fn a_good_state_goes_on() {
    let left = good().carry_on(&[], 9);
    // The LEAVE in the entered path fires; the ADD waits for cell 0.
    assert_eq!(left.answer, hung(4, 10));
    assert_eq!(left.record(9), token(0, 0, 3, 0, 7, 0));
    assert!(left.ledger[280..].iter().all(|&byte| byte == 0xa5));
    assert_eq!(good().carry_on(&[], 0).answer, spent(3, 9));
}

#[test]
fn tokens_within_the_capacity() {
    good().tokens(13).breaks(Condition::TokensWithinCapacity);
    good().tokens(65535).breaks(Condition::TokensWithinCapacity);
}

#[test]
fn fields_and_states_allowed() {
    let fields = Condition::FieldsAllowed;
    good().byte(28 * 4 + 24, 3).breaks(fields);
    good().byte(28 * 4 + 25, 1).breaks(fields);
    good().byte(28 * 4 + 27, 1).breaks(fields);
    good().byte(28 * 4 + 18, 6).breaks(fields);
    good().byte(28 * 4 + 19, 1).breaks(fields);
    good().byte(28 * 4 + 17, 2).breaks(fields);
    good().byte(28 * 7 + 17, 1).breaks(fields);
    good().cell(2, cell(0, 3)).breaks(fields);
    let mut zeros = cell(0, 0);
    zeros[6] = 1;
    good().cell(2, zeros).breaks(fields);
    // Any iteration and any value; bytes behind the tokens are not looked at.
    good().put(7, token(0, 255, 3, 0, i32::MIN, 0)).taken();
    good().byte(28 * 9 + 24, 77).taken();
}

#[test]
fn tag_and_port_never_twice() {
    let once = Condition::TagAndPortOnce;
    good()
        .put(9, token(0, 1, 3, 0, 1, 0))
        .tokens(10)
        .breaks(once);
    good()
        .put(9, token(0, 0, 0, 0, 1, 1))
        .tokens(10)
        .breaks(once);
}

#[test]
fn paths_made_of_sites() {
    let paths = Condition::PathsMadeOfSites;
    let under = |path| good().put(7, token(path, 1, 3, 0, 4, 0));
    // Another site, site 0 with an iteration, a gap, a broken level above good ones.
    for path in [
        0x400,
        1,
        0x300_0000,
        0x9_0300,
        0x1_0300,
        0x400 << 112 | 0x300,
    ] {
        under(path).breaks(paths);
    }
    let eight = (0..8).fold(0u128, |path, level| path << 16 | 0x300 | level);
    for path in [0x3ff, 0x300_0305, eight] {
        under(path).taken();
    }
    // Seven levels below one that is zero.
    under(eight & !0xffff).breaks(paths);
}

#[test]
fn operands_spent_together() {
    let together = Condition::OperandsSpentTogether;
    good().put(6, token(0, 1, 5, 1, 0, 0)).breaks(together);
    good()
        .put(6, token(0, 1, 5, 1, 0, 2))
        .cell(0, cell(0, 1))
        .breaks(together);
    good()
        .put(4, token(0, 0, 2, 1, 5, 1))
        .firings(4)
        .breaks(together);
    // The partner is not there at all.
    good().put(6, token(0, 2, 3, 0, 0, 0)).breaks(together);
}

#[test]
fn results_never_spent() {
    let results = Condition::ResultsNotSpent;
    good()
        .put(7, token(0, 1, 3, 0, 4, 1))
        .firings(4)
        .breaks(results);
    good()
        .put(8, token(0, 0, 4, 0, 9, 1))
        .firings(4)
        .breaks(results);
    // A LEAVE in an entered path is none.
    good()
        .put(2, token(0x300, 0, 4, 0, 7, 1))
        .firings(4)
        .taken();
}

#[test]
fn deferred_tokens_name_a_cell_of_the_store() {
    let names = Condition::DeferredNamesACell;
    for value in [3, -1, i32::MIN, i32::MAX] {
        good().put(4, token(0, 0, 2, 1, value, 2)).breaks(names);
    }
    good().put(4, token(0, 0, 2, 1, 0, 2)).taken();
}

#[test]
fn cells_wait_exactly_where_one_is_deferred() {
    let waiting = Condition::WaitingWhereDeferred;
    good().cell(0, cell(0, 0)).breaks(waiting);
    good().cell(0, cell(5, 2)).breaks(waiting);
    good().cell(2, cell(0, 1)).breaks(waiting);
    good().put(4, token(0, 0, 2, 1, 2, 2)).breaks(waiting);
    good().put(4, token(0, 0, 2, 1, 1, 2)).breaks(waiting);
    good()
        .put(4, token(0, 0, 2, 1, 2, 2))
        .cell(2, cell(0, 1))
        .taken();
}

#[test]
fn cell_values_are_0_until_present() {
    let zero = Condition::ZeroUntilPresent;
    good().cell(0, cell(1, 1)).breaks(zero);
    good().cell(2, cell(-1, 0)).breaks(zero);
    good().cell(1, cell(0, 2)).taken();
}

#[test]
fn firings_are_as_many_as_the_tags_with_spent_operands() {
    for firings in [0, 2, 4, 65535] {
        good().firings(firings).breaks(Condition::FiringsAsSpent);
    }
}

#[test]
fn stores_come_before_the_state() {
    let answer = |state: &State, picks: &[u8]| {
        let mut left = state.clone();
        carry_on(
            Program::plain(&state.graph),
            Schedule::new(picks, 9),
            state.saved,
            &mut left.ledger,
            &mut left.cells,
        )
    };
    let damaged = good().firings(0);
    let mut odd = damaged.clone();
    odd.ledger.push(0);
    assert_eq!(answer(&odd, &[]), refused(7, 0, 0, 0));
    assert_eq!(answer(&damaged, &[0]), refused(7, 0, 0, 0));
    assert_eq!(answer(&damaged, &[0, 0]), refused(24, 0, 0, 0));
    let mut graph = damaged.clone();
    graph.graph[0] = 0;
    assert_eq!(answer(&graph, &[0]), refused(2, 0, 0, 0));
}

/// The order of the ledger is no condition.
#[test]
fn a_sorted_ledger_is_taken() {
    let mut state = good();
    let mut records: Vec<[u8; 28]> = state.ledger[..252]
        .chunks(28)
        .map(|record| record.try_into().unwrap())
        .collect();
    records.sort_unstable();
    state.ledger[..252].copy_from_slice(&records.concat());
    state.taken();
    assert_eq!(state.carry_on(&[], 9).answer, hung(4, 10));
}

/// Two reads of cell 0 and its STORE, in every order and cut at every firing.
#[test]
fn a_cut_run_ends_as_the_uncut_one() {
    let records = [
        instruction(FETCH, &[(3, 0), (3, 1)], 0),
        instruction(FETCH, &[(4, 0)], 0),
        instruction(STORE, &[(5, 0)], 0),
        instruction(SUB, &[(6, 0)], 0),
        instruction(COPY, &[(6, 1)], 0),
        instruction(OUT, &[], 0),
        instruction(ADD, &[(7, 0)], 0),
        instruction(OUT, &[], 0),
    ];
    let tokens = [
        input(0, 0, 0),
        input(1, 0, 0),
        input(2, 0, 0),
        input(2, 1, 6),
    ];
    for order in 0..64u16 {
        let picks = [order % 4, order / 4 % 4, order / 16];
        let lent = lend(&records, &tokens).capacity(12).cells(1).picks(&picks);
        let uncut = lent.run();
        assert_eq!(uncut.answer, completed(6, 11));
        let mut left = lent.clone().budget(0).run();
        for part in 0..8 {
            let state = State {
                graph: lent.graph.clone(),
                saved: Counts {
                    firings: left.answer.firings as u16,
                    tokens: left.answer.tokens as u16,
                },
                ledger: left.ledger,
                cells: left.cells,
            };
            let own: Vec<u16> = picks.iter().skip(part).take(1).copied().collect();
            left = state.carry_on(&own, 1);
        }
        assert_eq!(left.answer, uncut.answer, "order {order}");
        assert!(left.ledger == uncut.ledger && left.cells == uncut.cells);
    }
}
