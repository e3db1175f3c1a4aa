//! The graphs that are measured, each for a number of tokens.

use layout::widths::{EXPRESSION, INSTRUCTION};
use layout::*;
use second::Program;

/// A graph with its inputs.
#[derive(Default)]
pub struct Work {
    pub graph: Vec<u8>,
    pub inputs: Vec<u8>,
}

impl Work {
    /// The graph, which names no array.
    pub fn program(&self) -> Program<'_> {
        Program::plain(&self.graph)
    }

    /// Adds an instruction; its arcs are drawn later.
    fn add(&mut self, code: u8, constant: i32) -> u16 {
        let number = (self.graph.len() / INSTRUCTION) as u16;
        self.graph.extend(layout::instruction(code, &[], constant));
        number
    }

    /// Draws the next arc of an instruction.
    fn arc(&mut self, from: u16, to: u16, port: u8) {
        let record = &mut self.graph[INSTRUCTION * usize::from(from)..][..INSTRUCTION];
        layout::add_arc(record, to, port);
    }

    fn input(&mut self, to: u16, port: u8, value: i32) {
        self.inputs.extend(layout::input(to, port, value));
    }

    /// A loop of an index from 0 while it is below the number of passes; answers
    /// the COPY that gives the index to the body on its second destination, and
    /// the SWITCH, whose second destination is the exit.
    fn index_loop(&mut self, passes: i32) -> (u16, u16) {
        let index = self.add(COPY, 0);
        let test = self.add(LT + WITH_CONSTANT, passes);
        let switch = self.add(SWITCH, 0);
        let body = self.add(COPY, 0);
        let step = self.add(ADD + WITH_CONSTANT, 1);
        let next = self.add(NEXT, 0);
        self.arc(index, test, 0);
        self.arc(index, switch, 0);
        self.arc(test, switch, 1);
        self.arc(switch, body, 0);
        self.arc(body, step, 0);
        self.arc(step, next, 0);
        self.arc(next, index, 0);
        self.input(index, 0, 0);
        (body, switch)
    }
}

/// C[j] = A[j] + B[j]: cells j, 100 + j and 200 + j. The ledger is filled to the
/// last record by inputs at OUT.
pub fn vector_sum(tokens: usize) -> Work {
    let mut work = Work::default();
    let elements = (tokens - 5) / 21;
    let (body, switch) = work.index_loop(elements as i32);
    let end = work.add(OUT, 0);
    work.arc(switch, end, 0);
    let [fork, both] = [work.add(COPY, 0), work.add(COPY, 0)];
    let [a, b, c] = [work.add(FETCH, 0), work.add(FETCH, 0), work.add(STORE, 0)];
    let b_cell = work.add(ADD + WITH_CONSTANT, 100);
    let c_cell = work.add(ADD + WITH_CONSTANT, 200);
    let sum = work.add(ADD, 0);
    work.arc(body, fork, 0);
    work.arc(fork, a, 0);
    work.arc(fork, both, 0);
    work.arc(both, b_cell, 0);
    work.arc(both, c_cell, 0);
    work.arc(a, sum, 0);
    work.arc(b_cell, b, 0);
    work.arc(b, sum, 1);
    work.arc(sum, c, 1);
    work.arc(c_cell, c, 0);
    for first in [0, 100] {
        for element in 0..elements as i32 {
            let store = work.add(STORE, 0);
            work.input(store, 0, first + element);
            work.input(store, 1, 3 * element - first);
        }
    }
    for _ in 21 * elements + 5..tokens {
        let out = work.add(OUT, 0);
        work.input(out, 0, 0);
    }
    work
}

/// A loop of eight tokens a pass: 255 passes for 2,048 tokens.
pub fn long_loop(tokens: usize) -> Work {
    let mut work = Work::default();
    let index = work.add(COPY, 0);
    let test = work.add(LT + WITH_CONSTANT, ((tokens - 5) / 8) as i32);
    let switch = work.add(SWITCH, 0);
    let step = work.add(ADD + WITH_CONSTANT, 2);
    let back = work.add(SUB + WITH_CONSTANT, 1);
    let copy = work.add(COPY, 0);
    let next = work.add(NEXT, 0);
    let end = work.add(OUT, 0);
    work.arc(index, test, 0);
    work.arc(index, switch, 0);
    work.arc(test, switch, 1);
    work.arc(switch, step, 0);
    work.arc(switch, end, 0);
    work.arc(step, back, 0);
    work.arc(back, copy, 0);
    work.arc(copy, next, 0);
    work.arc(next, index, 0);
    work.input(index, 0, 0);
    work
}

/// How many reads a pass of `waiting` has.
const READS: usize = 20;

/// Of 2,048 tokens 1,000 wait: reads of cell 0 are deferred until one
/// STORE wakes them all, then they wait for partners, as some inputs do from the
/// start. A pass is the same at every size, so that what a firing has to do is too.
pub fn waiting(tokens: usize) -> Work {
    let mut work = Work::default();
    let alone = 5 * tokens / 64;
    let passes = (tokens - alone - 12) / (4 * READS + 7);
    let (body, switch) = work.index_loop(passes as i32);
    // The STORE gets its operands from the loop's exit by way of some COPYs, so
    // that it comes after all reads when the oldest activity is taken first.
    let mut exit = work.add(CONST, 0);
    work.arc(switch, exit, 0);
    for _ in 0..5 {
        let copy = work.add(COPY, 0);
        work.arc(exit, copy, 0);
        exit = copy;
    }
    let store = work.add(STORE, 0);
    work.arc(exit, store, 0);
    work.arc(exit, store, 1);
    let cell = work.add(CONST, 0);
    work.arc(body, cell, 0);
    read_tree(&mut work, cell, READS);
    for _ in 0..alone {
        let add = work.add(ADD, 0);
        let out = add - 1;
        work.arc(
            add,
            if layout::record(&work.graph, out.into())[fields::instruction::CODE] == ADD {
                out
            } else {
                add
            },
            1,
        );
        work.input(add, 0, 1);
    }
    work
}

/// A tree of COPYs from one instruction to the given number of FETCHes, each of
/// which sends to two GATEs whose other operand never comes.
fn read_tree(work: &mut Work, from: u16, reads: usize) {
    let mut leaves = vec![from];
    while leaves.len() < reads {
        let leaf = leaves.remove(0);
        let copy = work.add(COPY, 0);
        work.arc(leaf, copy, 0);
        leaves.extend([copy, copy]);
    }
    for leaf in leaves {
        let fetch = work.add(FETCH, 0);
        work.arc(leaf, fetch, 0);
        for _ in 0..2 {
            let gate = work.add(GATE, 0);
            work.arc(gate, gate, 1);
            work.arc(fetch, gate, 0);
        }
    }
}

/// A loop that calls the factorial of 3, which recurs down to the fourth level.
pub fn recursion(tokens: usize) -> Work {
    let mut work = Work::default();
    let (body, switch) = work.index_loop(((tokens - 5) / 46) as i32);
    let [end, result] = [work.add(OUT, 0), work.add(OUT, 0)];
    let three = work.add(CONST, 3);
    let main = work.add(ENTER, 1);
    let [n, deeper] = [work.add(COPY, 0), work.add(COPY, 0)];
    let flat = work.add(LE + WITH_CONSTANT, 0);
    let which = work.add(SWITCH, 0);
    let one = work.add(CONST, 1);
    let minus = work.add(SUB + WITH_CONSTANT, 1);
    let again = work.add(ENTER, 2);
    let times = work.add(MUL, 0);
    let leave = work.add(LEAVE, 0);
    work.arc(switch, end, 0);
    work.arc(body, three, 0);
    work.arc(three, main, 0);
    for (from, to, port) in [
        (main, n, 0),
        (main, result, 0),
        (n, flat, 0),
        (n, which, 0),
        (flat, which, 1),
        (which, one, 0),
        (which, deeper, 0),
        (one, leave, 0),
        (deeper, minus, 0),
        (deeper, times, 1),
        (minus, again, 0),
        (again, n, 0),
        (again, times, 0),
        (times, leave, 0),
    ] {
        work.arc(from, to, port);
    }
    work
}

/// A chain of 255 COPYs to an OUT; backward, each record sends to the one before it.
pub fn chain(backward: bool) -> Work {
    let mut work = Work::default();
    let record = |step: u16| if backward { 255 - step } else { step };
    for number in 0..=255 {
        work.add(if number == record(255) { OUT } else { COPY }, 0);
    }
    for step in 0..255 {
        work.arc(record(step), record(step + 1), 0);
    }
    work.input(record(0), 0, 1);
    work
}

/// The sum of variables, as the records of an expression in the place of a graph.
pub fn sum(variables: u8) -> Work {
    let operation = |number: u8| {
        let left = if number == 0 {
            0
        } else {
            variables + number - 1
        };
        layout::term(ADD, left, number + 1)
    };
    let operations = (0..variables - 1).flat_map(operation);
    Work {
        graph: vec![0; EXPRESSION * usize::from(variables)]
            .into_iter()
            .chain(operations)
            .collect(),
        inputs: Vec::new(),
    }
}

#[cfg(test)]
mod tests {
    use super::*;
    use layout::widths::{CELL, MOST_CELLS, MOST_RECORDS, TOKEN, WHOLE_BUDGET};
    use second::{run, Answer, Outcome, Schedule};

    const SIZES: [usize; 5] = [128, 256, 512, 1024, MOST_RECORDS];

    /// The answer, and the number of records in a state.
    fn counted(work: &Work, size: usize, budget: u16, state: u8) -> (Answer, usize) {
        let mut ledger = vec![0; TOKEN * size];
        let mut cells = vec![0; CELL * MOST_CELLS];
        let answer = run(
            work.program(),
            &work.inputs,
            Schedule::new(&[], budget),
            &mut ledger,
            &mut cells,
        );
        let used = &ledger[..TOKEN * answer.tokens];
        (
            answer,
            used.chunks(TOKEN)
                .filter(|record| record[fields::token::STATE] == state)
                .count(),
        )
    }

    /// The operands that wait for ever let their work hang.
    #[test]
    fn every_work_comes_to_rest_and_nearly_fills_its_ledger() {
        for size in SIZES {
            for (work, outcome) in [
                (vector_sum(size), Outcome::Completed),
                (long_loop(size), Outcome::Completed),
                (waiting(size), Outcome::Hung),
                (recursion(size), Outcome::Completed),
            ] {
                let (answer, _) = counted(&work, size, WHOLE_BUDGET, 0);
                assert_eq!(answer.outcome, outcome);
                assert!(answer.tokens > 3 * size / 4, "{} of {size}", answer.tokens);
            }
            assert_eq!(
                counted(&vector_sum(size), size, WHOLE_BUDGET, 0).0.tokens,
                size
            );
        }
    }

    #[test]
    fn all_of_a_chain_is_reached() {
        for backward in [false, true] {
            let work = chain(backward);
            let bounds = second::bounds(&work.graph, &work.inputs).expect("it is loop-free");
            assert_eq!((bounds.firings, bounds.tokens), (255, 256));
        }
    }

    #[test]
    fn one_store_wakes_all_reads() {
        let work = waiting(MOST_RECORDS);
        let (answer, live) = counted(&work, MOST_RECORDS, WHOLE_BUDGET, 0);
        assert_eq!(live, 1000);
        // The last firing is the STORE.
        let before = counted(&work, MOST_RECORDS, answer.firings as u16 - 1, 2).1;
        let after = counted(&work, MOST_RECORDS, answer.firings as u16, 2).1;
        assert_eq!((before, after), (840, 0));
    }
}
