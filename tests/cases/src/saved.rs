//! R-13 of document 02: runs from a saved state, through the C functions, and runs that
//! are cut into parts.

use second::Counts;

use crate::lent::*;
use crate::paper::{sum, two_stores};

/// A saved state with its graph, and how it is carried on.
#[derive(Clone)]
pub struct Saved {
    pub graph: Vec<u8>,
    pub picks: Vec<u8>,
    pub budget: u16,
    pub counts: Counts,
    pub ledger: Vec<u8>,
    pub cells: Vec<u8>,
}

/// A run from a saved state: what is lent, and the answer's line.
pub struct SavedCase {
    pub name: &'static str,
    pub saved: Saved,
    pub says: &'static str,
}

/// A run to be cut at every firing.
pub struct CutCase {
    pub name: &'static str,
    pub lent: Lent,
    pub says: &'static str,
}

const DAMAGED: &str = "refused 24 0 0 0";
/// What the good state answers: its LEAVE fires, and a read waits.
const TAKEN: &str = "hung 4 10 0";

fn case(name: &'static str, saved: Saved, says: &'static str) -> SavedCase {
    SavedCase { name, saved, says }
}

fn damaged(name: &'static str, saved: Saved) -> SavedCase {
    case(name, saved, DAMAGED)
}

/// A token with its path, iteration and state.
fn at(path: u128, iteration: u8, place: (u16, u8), value: i32, state: u8) -> Token {
    layout::token(path, iteration, place.0, place.1, value, state)
}

/// 0 ENTER site 3, 1 FETCH, 2 ADD, 3 OUT, 4 LEAVE, 5 GATE. ENTER, FETCH of cell 0 and GATE
/// at iteration 1 have fired, so that each condition of the list has something to say.
fn good() -> Saved {
    let graph = [
        with(ENTER, 3, &[(4, 0), (3, 0)]),
        op(FETCH, &[(2, 0)]),
        op(ADD, &[(3, 0)]),
        op(OUT, &[]),
        op(LEAVE, &[]),
        op(GATE, &[(3, 0)]),
    ];
    let tokens = [
        at(0, 0, (0, 0), 7, 1),
        at(0, 0, (1, 0), 0, 1),
        at(0x300, 0, (4, 0), 7, 0),
        at(0, 0, (2, 0), 0, 2),
        at(0, 0, (2, 1), 5, 0),
        at(0, 1, (5, 0), 4, 1),
        at(0, 1, (5, 1), 0, 1),
        at(0, 1, (3, 0), 4, 0),
        at(0, 0, (4, 0), 9, 0),
    ];
    let mut ledger = tokens.concat();
    ledger.extend(garbage(3 * TOKEN_RECORD));
    Saved {
        graph: graph.concat(),
        picks: Vec::new(),
        budget: WHOLE_BUDGET,
        counts: Counts {
            firings: 3,
            tokens: 9,
        },
        ledger,
        cells: [cell(0, 1), cell(-8, 2), cell(0, 0)].concat(),
    }
}

impl Saved {
    /// Another record at a ledger position; one behind the tokens counts as a token.
    fn put(mut self, position: usize, record: Token) -> Saved {
        self.ledger[TOKEN_RECORD * position..][..TOKEN_RECORD].copy_from_slice(&record);
        self.counts.tokens = self.counts.tokens.max(position as u16 + 1);
        self
    }

    /// One byte of a token's record.
    fn byte(mut self, position: usize, at: usize, value: u8) -> Saved {
        self.ledger[TOKEN_RECORD * position + at] = value;
        self
    }

    fn cell(mut self, number: usize, record: [u8; CELL_RECORD]) -> Saved {
        self.cells[CELL_RECORD * number..][..CELL_RECORD].copy_from_slice(&record);
        self
    }

    fn counts(mut self, firings: u16, tokens: u16) -> Saved {
        self.counts = Counts { firings, tokens };
        self
    }

    fn budget(mut self, budget: u16) -> Saved {
        self.budget = budget;
        self
    }

    /// A result in the place of the one at position 7, under another path.
    fn under(self, path: u128) -> Saved {
        self.put(7, at(path, 1, (3, 0), 4, 0))
    }
}

pub fn cases() -> Vec<SavedCase> {
    let mut cases = goods();
    cases.extend(fields());
    cases.extend(tags_and_paths());
    cases.extend(operands_and_results());
    cases.extend(cells());
    cases.extend(counts());
    cases.extend(orders());
    cases
}

fn goods() -> Vec<SavedCase> {
    let sorted = {
        let mut saved = good();
        let used = 9 * TOKEN_RECORD;
        let mut records: Vec<Vec<u8>> = saved.ledger[..used]
            .chunks(TOKEN_RECORD)
            .map(<[u8]>::to_vec)
            .collect();
        records.sort();
        saved.ledger[..used].copy_from_slice(&records.concat());
        saved
    };
    let empty = Saved {
        ledger: Vec::new(),
        cells: Vec::new(),
        ..good().counts(0, 0)
    };
    // The ledger has room for the 9 tokens alone.
    let mut full = good();
    full.ledger.truncate(9 * TOKEN_RECORD);
    vec![
        case("a good state", good(), TAKEN),
        case("budget 0", good().budget(0), "spent 3 9 0"),
        case(
            "the budget counts this part's firings",
            good().budget(1),
            TAKEN,
        ),
        case("nothing at all", empty, "completed 0 0 0"),
        case("no room for the next firing", full, "refused 8 3 9 2"),
        case("the order of the ledger is no condition", sorted, TAKEN),
        case(
            "any iteration, any value",
            good().put(7, at(0, 255, (3, 0), -1, 0)),
            TAKEN,
        ),
        case(
            "bytes behind the tokens",
            good().byte(9, token::STATE, 3),
            TAKEN,
        ),
    ]
}

fn fields() -> Vec<SavedCase> {
    let mut zeros = cell(0, 0);
    zeros[cell::ZEROS.end - 1] = 1;
    vec![
        damaged("state 3", good().byte(4, token::STATE, 3)),
        damaged("byte 25 of a token", good().byte(4, token::ZEROS.start, 1)),
        damaged(
            "byte 27 of a spent token",
            good().byte(0, token::ZEROS.end - 1, 1),
        ),
        damaged(
            "instruction past the graph",
            good().byte(4, token::INSTRUCTION.start, 6),
        ),
        damaged(
            "instruction 256 past",
            good().byte(4, token::INSTRUCTION.start + 1, 1),
        ),
        damaged("port 2 of ADD", good().byte(4, token::PORT, 2)),
        damaged("port 1 of OUT", good().byte(7, token::PORT, 1)),
        damaged("state 3 of a cell", good().cell(2, cell(0, 3))),
        damaged("byte 7 of a cell", good().cell(2, zeros)),
    ]
}

fn tags_and_paths() -> Vec<SavedCase> {
    let eight = (0..8).fold(0, |path: u128, level| path << 16 | 0x300 | level);
    vec![
        damaged(
            "a live tag and port twice",
            good().put(9, at(0, 1, (3, 0), 1, 0)),
        ),
        damaged(
            "a spent tag and port twice",
            good().put(9, at(0, 0, (0, 0), 1, 1)),
        ),
        damaged(
            "a tag and port live and spent",
            good().put(9, at(0, 0, (0, 0), 1, 0)),
        ),
        damaged("a site without ENTER", good().under(0x400)),
        damaged("site 0 with an iteration", good().under(5)),
        damaged("a level left out", good().under(0x300_0000)),
        damaged("a broken level above a good one", good().under(0x7_0300)),
        damaged(
            "the eighth level without ENTER",
            good().under(eight ^ 1 << 120),
        ),
        damaged(
            "the newest of eight levels is zero",
            good().under(eight & !0xffff),
        ),
        case("two levels of one site", good().under(0x305_03ff), TAKEN),
        case("eight levels", good().under(eight), TAKEN),
    ]
}

fn operands_and_results() -> Vec<SavedCase> {
    let again = |saved: Saved| saved.counts(4, 9);
    vec![
        damaged(
            "one of two operands live again",
            good().byte(6, token::STATE, token::LIVE),
        ),
        damaged(
            "one of two operands spent",
            again(good().byte(4, token::STATE, token::SPENT)),
        ),
        damaged(
            "a spent operand without its partner",
            good().put(6, at(0, 2, (3, 0), 1, 0)),
        ),
        damaged(
            "a spent OUT",
            again(good().byte(7, token::STATE, token::SPENT)),
        ),
        damaged(
            "a spent LEAVE at the root",
            again(good().byte(8, token::STATE, token::SPENT)),
        ),
        case(
            "a spent LEAVE in an entered path",
            again(good().byte(2, token::STATE, token::SPENT)),
            "hung 4 9 0",
        ),
    ]
}

fn cells() -> Vec<SavedCase> {
    let deferred = |number| good().put(4, at(0, 0, (2, 1), number, 2));
    vec![
        damaged("deferred on cell 3 of 3", deferred(3)),
        damaged("deferred on cell -1", deferred(-1)),
        damaged("deferred on cell 2147483647", deferred(i32::MAX)),
        damaged("deferred on an absent cell", deferred(2)),
        damaged("deferred on a present cell", deferred(1)),
        damaged("waiting for none", good().cell(2, cell(0, 1))),
        damaged(
            "absent, and a token deferred on it",
            good().cell(0, cell(0, 0)),
        ),
        damaged("a value in a waiting cell", good().cell(0, cell(1, 1))),
        damaged("a value in an absent cell", good().cell(2, cell(-1, 0))),
        case("two deferred on one cell", deferred(0), TAKEN),
        case(
            "deferred on another cell that waits",
            deferred(2).cell(2, cell(0, 1)),
            TAKEN,
        ),
    ]
}

fn counts() -> Vec<SavedCase> {
    vec![
        damaged("one firing too few", good().counts(2, 9)),
        damaged("one firing too many", good().counts(4, 9)),
        damaged("65535 firings", good().counts(65535, 9)),
        damaged("13 tokens in 12 records", good().counts(3, 13)),
        damaged("65535 tokens", good().counts(3, 65535)),
        // The record at position 8, a result, is not looked at then.
        case("a token less", good().counts(3, 8), "hung 4 9 0"),
    ]
}

/// 24 comes behind 1 to 5 and 7.
fn orders() -> Vec<SavedCase> {
    let bad = || good().counts(0, 9);
    let with_graph = |graph: Vec<u8>| Saved { graph, ..bad() };
    let mut odd = bad();
    odd.ledger.push(0);
    let mut cells = bad();
    cells.cells.pop();
    vec![
        case("1 before 24", with_graph(vec![1; 15]), "refused 1 0 0 0"),
        case(
            "2 before 24",
            with_graph(vec![0; GRAPH_RECORD]),
            "refused 2 0 0 0",
        ),
        case("7 of the ledger before 24", odd, "refused 7 0 0 0"),
        case("7 of the cells before 24", cells, "refused 7 0 0 0"),
        case(
            "7 of the picks before 24",
            Saved {
                picks: vec![0],
                ..bad()
            },
            "refused 7 0 0 0",
        ),
    ]
}

/// Two reads of one cell with its STORE, a sum and a call.
pub fn cut_cases() -> Vec<CutCase> {
    let graph = [
        op(FETCH, &[(3, 0), (3, 1)]),
        op(FETCH, &[(4, 0)]),
        op(STORE, &[(5, 0)]),
        op(SUB, &[(6, 0)]),
        with(ENTER, 9, &[(8, 0), (6, 0)]),
        op(OUT, &[]),
        op(OUT, &[]),
        op(OUT, &[]),
        with(LEAVE, 1, &[]),
    ];
    let tokens = [
        token(0, 0, 0),
        token(1, 0, 0),
        token(2, 0, 0),
        token(2, 1, 6),
    ];
    let reads = || lend(&graph, &tokens).capacity(12).cells(1);
    let cut = |name, lent, says| CutCase { name, lent, says };
    vec![
        cut("the sum", sum(), "completed 1 3 0"),
        cut("two reads and a call", reads(), "completed 6 11 0"),
        cut(
            "the same, the STORE first",
            reads().picks(&[2, 1, 1]),
            "completed 6 11 0",
        ),
        cut(
            "the same, a full ledger",
            reads().capacity(10).picks(&[1, 1]),
            "refused 8 5 10 8",
        ),
        cut(
            "two STOREs, the second first",
            two_stores().picks(&[1]),
            "refused 11 1 4 0",
        ),
    ]
}
