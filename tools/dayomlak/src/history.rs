//! The firings of a run one by one, as its log and its ledger tell them. Nothing is worked out again: activities come from
//! the log, values, tags and states from the ledger. The ledger holds every token in order of arrival, so that the
//! outputs of a firing are the next records, and as many as its instruction sends.

use std::collections::{HashMap, HashSet};
use std::ops::Range;

use crate::failure::Failure;
use crate::graph::{Graph, Instruction, FETCH, STORE};
use crate::machine::{End, Machine};
use crate::records::{self, Cell, State, Tag, Token};
use crate::saved;

/// What a firing does to a cell.
#[derive(Clone, Debug, PartialEq, Eq)]
pub enum Touch {
    /// The cell has a value.
    Read(i32),
    /// The cell has none yet, and the outputs wait for it.
    Deferred(i32),
    /// The cell gets a value, and the tokens that waited for it go on.
    Written(i32, Vec<usize>),
}

/// One firing. Tokens are named by their places in the ledger.
#[derive(Clone, Debug)]
pub struct Firing {
    pub tag: Tag,
    /// By port.
    pub operands: Vec<usize>,
    pub outputs: Range<usize>,
    pub touch: Option<Touch>,
}

#[derive(Default)]
pub struct History {
    pub firings: Vec<Firing>,
    pub tokens: Vec<Token>,
    /// How many tokens there are before the first firing: inputs, or those of a saved state.
    pub given: usize,
    /// How many firings were made before the first one here.
    pub before: usize,
}

impl History {
    /// The history of a run that was not refused before its first firing.
    pub fn of(machine: &Machine, end: &End, log: &[Tag]) -> Result<History, Failure> {
        let tokens = end.tokens();
        let (before, given) = machine.given();
        let cells = machine.start.map_or(Cells::default(), Cells::of);
        let firings = firings(&machine.program.graph, given, cells, log, &tokens);
        let firings = firings.ok_or_else(|| {
            Failure::Inconsistent("log and ledger of one run do not fit together".to_string())
        })?;
        Ok(History {
            firings,
            tokens,
            given,
            before,
        })
    }
}

/// The cells as far as firings have touched them.
#[derive(Default)]
struct Cells {
    written: HashSet<i32>,
    waiting: HashMap<i32, Vec<usize>>,
}

impl Cells {
    /// Those of a saved state.
    fn of(state: &saved::State) -> Cells {
        let mut cells = Cells::default();
        for (number, cell) in (0..).zip(records::cells(&state.cells)) {
            if let Cell::Present(_) = cell {
                cells.written.insert(number);
            }
        }
        let tokens = records::tokens(&state.ledger).into_iter().enumerate();
        for (place, token) in tokens.filter(|(_, t)| t.state == State::Deferred) {
            cells
                .waiting
                .entry(token.value.low)
                .or_default()
                .push(place);
        }
        cells
    }

    /// What an instruction does to the cell that its first operand is the number or the index of.
    fn touch(
        &mut self,
        instruction: &Instruction,
        operand: i32,
        outputs: &Range<usize>,
    ) -> Option<Touch> {
        let cell = instruction.cell(operand)?;
        match instruction.code {
            STORE => {
                self.written.insert(cell);
                Some(Touch::Written(
                    cell,
                    self.waiting.remove(&cell).unwrap_or_default(),
                ))
            }
            FETCH if self.written.contains(&cell) => Some(Touch::Read(cell)),
            FETCH => {
                self.waiting
                    .entry(cell)
                    .or_default()
                    .extend(outputs.clone());
                Some(Touch::Deferred(cell))
            }
            _ => None,
        }
    }
}

/// `None` where log, ledger and graph do not fit together.
fn firings(
    graph: &Graph,
    given: usize,
    mut cells: Cells,
    log: &[Tag],
    tokens: &[Token],
) -> Option<Vec<Firing>> {
    let places: HashMap<(Tag, u8), usize> = (0..)
        .zip(tokens)
        .map(|(place, t)| ((t.tag, t.port), place))
        .collect();
    let mut firings = Vec::with_capacity(log.len());
    let mut used = given;
    for tag in log {
        let instruction = graph.get(tag.instruction)?;
        let operand = |port| {
            places
                .get(&(*tag, port))
                .copied()
                .filter(|place| *place < used)
        };
        let operands: Vec<usize> = (0..instruction.operands())
            .map(operand)
            .collect::<Option<_>>()?;
        let outputs = used..used + instruction.outputs();
        used = outputs.end;
        let operand = tokens[*operands.first()?].value.low;
        let touch = cells.touch(instruction, operand, &outputs);
        firings.push(Firing {
            tag: *tag,
            operands,
            outputs,
            touch,
        });
    }
    let waiting: usize = cells.waiting.values().map(Vec::len).sum();
    let deferred = tokens.iter().filter(|token| token.state == State::Deferred);
    (used == tokens.len() && waiting == deferred.count()).then_some(firings)
}

#[cfg(test)]
mod tests {
    use super::*;
    use crate::machine::{Sizes, WHOLE};
    use crate::program::Program;

    const TEXT: &str = "read: FETCH -> plus\nplus: ADD 1 -> out\nout: OUT\nwrite: STORE\n\
        input read = 3\ninput write.0 = 3\ninput write.1 = 7\n";

    /// The run of the text, with its log changed.
    fn history(change: impl FnOnce(&mut Vec<Tag>)) -> Result<History, Failure> {
        let program = Program::typed("test", TEXT.as_bytes().to_vec())?;
        let machine = Machine::new(&program, Sizes::default());
        let (end, mut log) = machine.run_logged(&[], WHOLE);
        change(&mut log);
        History::of(&machine, &end, &log)
    }

    #[test]
    fn a_deferred_read_and_its_write() {
        let history = history(|_| {}).unwrap();
        let touches: Vec<_> = history.firings.iter().map(|f| f.touch.clone()).collect();
        let woken = Some(Touch::Written(3, vec![3]));
        assert_eq!(touches, [Some(Touch::Deferred(3)), woken, None]);
        let outputs: Vec<_> = history.firings.iter().map(|f| f.outputs.clone()).collect();
        assert_eq!(outputs, [3..4, 4..4, 4..5]);
    }

    #[test]
    fn a_log_of_another_run_is_noticed() {
        assert!(history(|log| log.truncate(2)).is_err());
        assert!(history(|log| log.swap(0, 2)).is_err());
        assert!(history(|log| log[0].instruction = 2).is_err());
        assert!(history(|log| log[1].instruction = 9).is_err());
        assert!(history(|log| log[2].iteration = 1).is_err());
    }
}
