//! The states of a run, firing by firing. Each is what the engine leaves with a budget of its firings; here they are
//! only compared, and kept as changes.

use std::collections::BTreeMap;

use crate::failure::Failure;
use crate::machine::{End, Machine};
use crate::records::{Cell, Token};

/// What something is from a number of firings on.
pub type Changes<T> = Vec<(usize, T)>;

#[derive(Default)]
pub struct States {
    /// By place in the ledger; the first change of a token is its arrival.
    pub tokens: Vec<Changes<Token>>,
    /// Those that are not absent in every state, by number.
    pub cells: BTreeMap<usize, Changes<Cell>>,
}

impl States {
    /// The states of a run under picks that was not refused before its first firing.
    pub fn of(machine: &Machine, picks: &[u8], end: &End) -> Result<States, Failure> {
        let mut states = States::default();
        let mut last = None;
        for firings in 0..=end.answer.firings - machine.given().0 {
            let state = machine.run(picks, firings as u16);
            states.add(firings, &state);
            last = Some(state);
        }
        // A refused firing leaves ledger and cells as it found them.
        match last.is_some_and(|last| last.bytes() == end.bytes()) {
            true => Ok(states),
            false => Err(Failure::Inconsistent(
                "the states of the run do not lead to its end".to_string(),
            )),
        }
    }

    fn add(&mut self, firings: usize, state: &End) {
        let tokens = state.tokens();
        self.tokens.resize(tokens.len(), Vec::new());
        let known = self.tokens.iter_mut().zip(tokens);
        known.for_each(|(changes, token)| note(changes, firings, token));
        for (number, cell) in state.cells().into_iter().enumerate() {
            if cell != Cell::Absent {
                note(self.cells.entry(number).or_default(), firings, cell);
            }
        }
    }
}

/// Notes what something is now, if it was something else before.
fn note<T: PartialEq>(changes: &mut Changes<T>, firings: usize, now: T) {
    if changes.last().is_none_or(|(_, before)| *before != now) {
        changes.push((firings, now));
    }
}

#[cfg(test)]
mod tests {
    use super::*;
    use crate::machine::{Sizes, WHOLE};
    use crate::program::Program;
    use crate::records::State::{Deferred, Live, Spent};
    use crate::value::Value;

    /// Oldest first, the read comes before the write.
    const TEXT: &str = "read: FETCH -> out\nout: OUT\nwrite: STORE\n\
        input read = 3\ninput write.0 = 3\ninput write.1 = 7\n";

    /// The states that picks lead to, up to the end of a run of the text oldest first.
    fn states(budget: u16, picks: &[u8]) -> Result<States, Failure> {
        let program = Program::typed("test", TEXT.as_bytes().to_vec())?;
        let sizes = Sizes {
            capacity: 10,
            cells: 5,
        };
        let machine = Machine::new(&program, sizes);
        States::of(&machine, picks, &machine.run(&[], budget))
    }

    #[test]
    fn a_deferred_read_in_three_states() {
        let states = states(WHOLE, &[]).unwrap();
        let token = |place: usize| {
            let changes = states.tokens[place].iter();
            let change = |(at, token): &(usize, Token)| (*at, token.state, token.value.low);
            changes.map(change).collect::<Vec<_>>()
        };
        assert_eq!(token(0), [(0, Live, 3), (1, Spent, 3)]);
        assert_eq!(token(2), [(0, Live, 7), (2, Spent, 7)]);
        assert_eq!(token(3), [(1, Deferred, 3), (2, Live, 7)]);
        let cell = vec![(1, Cell::Waiting), (2, Cell::Present(Value::of(7)))];
        assert_eq!(states.cells, BTreeMap::from([(3, cell)]));
    }

    #[test]
    fn states_of_another_run_are_noticed() {
        assert!(states(1, &[1, 0]).is_err());
        assert!(states(1, &[0, 0]).is_ok());
    }
}
