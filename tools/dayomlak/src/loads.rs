//! The cells that are loaded, by lines such as `cell 3 = 7` and `a[3] = 7` or by what comes to the same.

use std::collections::{BTreeMap, BTreeSet};

use crate::graph::STORE;
use crate::program::Program;
use crate::records::{self, State, Token};

/// The STOREs that do nothing but load a cell from two inputs.
pub struct Loads {
    /// Cell and value by instruction.
    pub cells: BTreeMap<u16, (i32, i32)>,
}

impl Loads {
    pub fn of(program: &Program) -> Loads {
        let graph = &program.graph;
        let arcs = graph.instructions.iter().flat_map(|i| &i.destinations);
        let fed: BTreeSet<u16> = arcs.map(|arc| arc.instruction).collect();
        let inputs = records::tokens(&program.files.inputs);
        let mut cells = BTreeMap::new();
        for (number, instruction) in (0..).zip(&graph.instructions) {
            let to = |port: u8| move |t: &&Token| t.tag.instruction == number && t.port == port;
            let mut sent = inputs.iter().filter(to(0)).zip(inputs.iter().filter(to(1)));
            let only = instruction.code == STORE && instruction.destinations.is_empty();
            if let (true, Some((operand, value)), None) =
                (only && !fed.contains(&number), sent.next(), sent.next())
            {
                let cell = instruction.cell(operand.value.low);
                cells.extend(cell.map(|cell| (number, (cell, value.value.low))));
            }
        }
        Loads { cells }
    }

    pub fn contains(&self, instruction: u16) -> bool {
        self.cells.contains_key(&instruction)
    }

    /// The cells that a run has loaded, each with its STORE, which has spent its operands.
    pub fn done(&self, tokens: &[Token]) -> BTreeMap<i32, u16> {
        let spent = tokens
            .iter()
            .filter(|t| t.port == 0 && t.state == State::Spent);
        let stores = spent.map(|t| t.tag.instruction);
        let cell = |store: u16| self.cells.get(&store).map(|(cell, _)| (*cell, store));
        stores.filter_map(cell).collect()
    }
}
