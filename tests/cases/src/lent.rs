//! What is lent to a run: records, and the buffers that hold them.

pub use layout::{
    ADD, CONST, COPY, DIV, ENTER, EQ, FETCH, GATE, LE, LEAVE, LT, MUL, NEXT, OUT, REM, SINK, STORE,
    SUB, SWITCH, WITH_CONSTANT,
};

pub use layout::fields::{cell, expression, instruction, logged, step, token};
pub use layout::widths::{
    ARRAY, EXPRESSION, MOST_ARRAYS, MOST_CELLS, MOST_EXPRESSION, MOST_INSTRUCTIONS, MOST_RECORDS,
    STEP, WHOLE_BUDGET,
};
pub use layout::widths::{
    CELL as CELL_RECORD, INSTRUCTION as GRAPH_RECORD, LOGGED as LOG_RECORD, PICK as PICK_RECORD,
    TOKEN as TOKEN_RECORD,
};

pub type Instruction = [u8; GRAPH_RECORD];
pub type Token = [u8; TOKEN_RECORD];

/// A graph record with its arcs, each an instruction and a port.
pub fn op(code: u8, arcs: &[(u16, u8)]) -> Instruction {
    with(code, 0, arcs)
}

/// A graph record with a constant.
pub fn with(code: u8, constant: i32, arcs: &[(u16, u8)]) -> Instruction {
    layout::instruction(code, arcs, constant)
}

/// A record with one byte put in its place.
pub fn byte<const N: usize>(mut record: [u8; N], at: usize, value: u8) -> [u8; N] {
    record[at] = value;
    record
}

/// A live token of the root tag: instruction, port and value.
pub fn token(instruction: u16, port: u8, value: i32) -> Token {
    layout::input(instruction, port, value)
}

/// A cell record.
pub fn cell(value: i32, state: u8) -> [u8; CELL_RECORD] {
    layout::cell(value, state)
}

/// A present cell.
pub fn present(value: i32) -> [u8; CELL_RECORD] {
    cell(value, cell::PRESENT)
}

/// A buffer: its first bytes are given, the rest of its length are zeros.
#[derive(Clone, Debug, PartialEq, Eq)]
pub struct Part {
    pub given: Vec<u8>,
    pub length: usize,
}

impl Part {
    pub fn of(given: Vec<u8>) -> Part {
        let length = given.len();
        Part { given, length }
    }

    pub fn bytes(&self) -> Vec<u8> {
        let mut bytes = self.given.clone();
        bytes.resize(self.length, 0);
        bytes
    }
}

/// Bytes that no run wrote. None is 0, so that a byte that is cleared or moved shows.
pub fn garbage(length: usize) -> Vec<u8> {
    (0..length).map(|i| (i * 37 % 251) as u8 + 3).collect()
}

/// What is lent to a run, and the first record of the ledger to be printed.
#[derive(Clone, Debug)]
pub struct Lent {
    pub graph: Part,
    pub inputs: Part,
    pub picks: Part,
    pub budget: u16,
    pub ledger: Part,
    pub cells: Part,
    pub first: usize,
}

/// A graph and its inputs with no picks, a budget of 2,048, and garbage in a
/// ledger of 6 records and in 2 cells.
pub fn lend(graph: &[Instruction], inputs: &[Token]) -> Lent {
    Lent {
        graph: Part::of(graph.concat()),
        inputs: Part::of(inputs.concat()),
        picks: Part::of(Vec::new()),
        budget: WHOLE_BUDGET,
        ledger: Part::of(garbage(6 * TOKEN_RECORD)),
        cells: Part::of(garbage(2 * CELL_RECORD)),
        first: 0,
    }
}

impl Lent {
    pub fn picks(mut self, picks: &[u16]) -> Lent {
        self.picks = Part::of(picks.iter().flat_map(|pick| pick.to_le_bytes()).collect());
        self
    }

    pub fn budget(mut self, budget: u16) -> Lent {
        self.budget = budget;
        self
    }

    /// A ledger with this capacity, whose records hold garbage.
    pub fn capacity(self, records: usize) -> Lent {
        self.ledger_bytes(records * TOKEN_RECORD)
    }

    /// Cells that hold garbage, by their number.
    pub fn cells(self, count: usize) -> Lent {
        self.cell_bytes(count * CELL_RECORD)
    }

    /// Graph bytes, the last of them zeros.
    pub fn graph_bytes(mut self, length: usize) -> Lent {
        self.graph.given.truncate(length);
        self.graph.length = length;
        self
    }

    /// Input bytes, the last of them zeros.
    pub fn input_bytes(mut self, length: usize) -> Lent {
        self.inputs.given.truncate(length);
        self.inputs.length = length;
        self
    }

    /// Picks of this length in bytes, all zeros.
    pub fn pick_bytes(mut self, length: usize) -> Lent {
        self.picks.length = length;
        self
    }

    /// A ledger of this length in bytes; garbage in its first ten records.
    pub fn ledger_bytes(mut self, length: usize) -> Lent {
        self.ledger = Part {
            given: garbage(length.min(10 * TOKEN_RECORD)),
            length,
        };
        self
    }

    /// Cells of this length in bytes; garbage in the first 25.
    pub fn cell_bytes(mut self, length: usize) -> Lent {
        self.cells = Part {
            given: garbage(length.min(25 * CELL_RECORD)),
            length,
        };
        self
    }

    /// A ledger that holds these records beforehand.
    pub fn ledger_of(mut self, records: &[Token]) -> Lent {
        self.ledger = Part::of(records.concat());
        self
    }

    /// Cells that hold these records beforehand.
    pub fn cells_of(mut self, records: &[[u8; CELL_RECORD]]) -> Lent {
        self.cells = Part::of(records.concat());
        self
    }

    /// Prints the ledger's records from this one on, for a run of many tokens.
    pub fn from(mut self, record: usize) -> Lent {
        self.first = record;
        self
    }
}
