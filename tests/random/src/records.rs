//! Graph records under construction: instructions whose arcs are drawn one by one.

use layout::fields::instruction;
use layout::widths::{INSTRUCTION, MOST_INSTRUCTIONS};

use crate::prng::Prng;

pub use layout::*;

/// Whether a graph has one of these operations.
pub fn has(graph: &[u8], codes: &[u8]) -> bool {
    let mut records = graph.chunks(INSTRUCTION);
    records.any(|record| codes.contains(&record[instruction::CODE]))
}

/// One instruction: its code, its destinations in use and its constant.
#[derive(Clone)]
pub struct Instruction {
    pub code: u8,
    pub arcs: Vec<(u16, u8)>,
    pub constant: i32,
    /// It has to stand right behind the instruction before it, since a LEAVE
    /// reaches it by its constant.
    pub adjacent: bool,
}

impl Instruction {
    fn record(&self) -> [u8; INSTRUCTION] {
        layout::instruction(self.code, &self.arcs, self.constant)
    }
}

/// An input token: instruction, port and value.
pub type Input = (u16, u8, i32);

/// A graph under construction with its inputs.
#[derive(Clone, Default)]
pub struct Draft {
    pub instructions: Vec<Instruction>,
    /// Named arrays, each by its first cell and its length.
    pub arrays: Vec<(u16, u16)>,
    pub inputs: Vec<Input>,
}

impl Draft {
    /// Adds an instruction with the given fan-out; its arcs go to instruction 0
    /// until they are drawn.
    pub fn add(&mut self, code: u8, fan_out: usize, constant: i32) -> u16 {
        self.instructions.push(Instruction {
            code,
            arcs: vec![(0, 0); fan_out],
            constant,
            adjacent: false,
        });
        (self.instructions.len() - 1) as u16
    }

    pub fn arc(&mut self, from: u16, destination: usize, to: u16, port: u8) {
        self.instructions[usize::from(from)].arcs[destination] = (to, port);
    }

    /// Adds SINKs up to the most instructions of a graph.
    pub fn fill(&mut self) {
        while self.instructions.len() < MOST_INSTRUCTIONS {
            self.add(SINK, 0, 0);
        }
    }

    /// Numbers the instructions anew, with adjacent ones kept together, and puts the
    /// inputs in another order.
    pub fn shuffle(&mut self, prng: &mut Prng) {
        let mut groups: Vec<Vec<usize>> = Vec::new();
        for (number, instruction) in self.instructions.iter().enumerate() {
            match groups.last_mut() {
                Some(group) if instruction.adjacent => group.push(number),
                _ => groups.push(vec![number]),
            }
        }
        prng.shuffle(&mut groups);
        let order: Vec<usize> = groups.concat();
        let mut renumbered = vec![0; order.len()];
        for (new, &old) in order.iter().enumerate() {
            renumbered[old] = new as u16;
        }
        self.instructions = order
            .iter()
            .map(|&old| self.instructions[old].clone())
            .collect();
        for arc in self.instructions.iter_mut().flat_map(|i| i.arcs.iter_mut()) {
            arc.0 = renumbered[usize::from(arc.0)];
        }
        for input in &mut self.inputs {
            input.0 = renumbered[usize::from(input.0)];
        }
        prng.shuffle(&mut self.inputs);
    }

    pub fn graph_bytes(&self) -> Vec<u8> {
        self.instructions
            .iter()
            .flat_map(Instruction::record)
            .collect()
    }

    pub fn array_bytes(&self) -> Vec<u8> {
        self.arrays
            .iter()
            .flat_map(|&(first, length)| layout::array(first, length))
            .collect()
    }

    pub fn input_bytes(&self) -> Vec<u8> {
        self.inputs
            .iter()
            .flat_map(|&(instruction, port, value)| layout::input(instruction, port, value))
            .collect()
    }
}
