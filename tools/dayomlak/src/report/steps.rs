//! In which ideal step each activity fires. The engine is lent room for one step after the other: what is spent after s
//! steps, and was not after s - 1, fired in step s.

use std::collections::HashMap;

use plotter::curves::Steps as Curves;
use plotter::Step;

use crate::answer::Answer;
use crate::curves;
use crate::failure::Failure;
use crate::loads::Loads;
use crate::machine::{End, Machine};
use crate::records::{State, Tag};

pub struct Steps {
    /// The answer of the profile, which takes no picks and no budget, or of a saved state, which has none.
    pub answer: Answer,
    /// The whole steps.
    pub whole: Vec<Step>,
    /// Their curves, with the loads of cells before step 1.
    pub curves: Curves,
    of: HashMap<Tag, usize>,
}

impl Steps {
    pub fn new(machine: &Machine) -> Result<Steps, Failure> {
        let mut of = HashMap::new();
        if machine.start.is_some() {
            return Ok(Steps {
                answer: machine.run(&[], 0).answer,
                whole: Vec::new(),
                curves: Curves::default(),
                of,
            });
        }
        let (end, whole) = machine.profile();
        for step in 1..=whole.len() {
            let (state, _) = machine.profile_within(step);
            add(&mut of, step, &state);
        }
        // What a refused profile fired in the step that is not whole.
        add(&mut of, whole.len() + 1, &end);
        let curves = curves::ideal(machine, &whole)?;
        let loads = Loads::of(machine.program);
        let is_load = |tag: &Tag| curves.first == 0 && loads.contains(tag.instruction);
        of.iter_mut()
            .filter(|(tag, _)| is_load(tag))
            .for_each(|(_, step)| *step = 0);
        Ok(Steps {
            answer: end.answer,
            whole,
            curves,
            of,
        })
    }

    /// The step of an activity, counted from 1, or 0 for the load of a cell. `None` if a refused profile did not come to it.
    pub fn of(&self, activity: &Tag) -> Option<usize> {
        self.of.get(activity).copied()
    }
}

fn add(of: &mut HashMap<Tag, usize>, step: usize, state: &End) {
    let tokens = state.tokens().into_iter();
    for token in tokens.filter(|token| token.state == State::Spent) {
        of.entry(token.tag).or_insert(step);
    }
}

#[cfg(test)]
mod tests {
    use super::*;
    use crate::machine::Sizes;
    use crate::program::Program;

    /// The steps of the activities of instructions at the root, and of the profile.
    fn steps(text: &str, instructions: u16) -> (Vec<Option<usize>>, usize) {
        let program = Program::typed("test", text.as_bytes().to_vec()).unwrap();
        let sizes = Sizes {
            capacity: 100,
            cells: 5,
        };
        let steps = Steps::new(&Machine::new(&program, sizes)).unwrap();
        let tag = |instruction| Tag {
            path: 0,
            iteration: 0,
            instruction,
        };
        let of = (0..instructions).map(|number| steps.of(&tag(number)));
        (of.collect(), steps.whole.len())
    }

    #[test]
    fn two_operands_wait_for_the_later() {
        let text = "a: COPY -> c.0 b\nb: ADD 1 -> c.1\nc: ADD -> d\nd: OUT\ninput a = 1\n";
        let expected = vec![Some(1), Some(2), Some(3), None];
        assert_eq!(steps(text, 4), (expected, 3));
    }

    /// The firings before the refused one, in ledger order, are in the step that is not whole.
    #[test]
    fn a_refused_profile() {
        let text = "a: COPY -> b\nb: COPY -> c\nc: SINK\nx: COPY -> y\ny: DIV 0 -> z\nz: SINK\n\
            input a = 1\ninput x = 1\n";
        let expected = vec![Some(1), Some(2), None, Some(1), None, None];
        assert_eq!(steps(text, 6), (expected, 1));
    }
}
