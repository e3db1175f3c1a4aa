//! A timeline: which instruction fires when, by firings or by steps, and the cells meanwhile. Every firing is the engine's.

pub mod svg;
pub mod vcd;

use std::collections::BTreeMap;

use crate::curves::{self, Pace};
use crate::failure::Failure;
use crate::held;
use crate::history::{History, Touch};
use crate::machine::{End, Machine};
use crate::records::{Cell, Tag};

/// The firings of a run by their times.
pub struct Timeline<'p> {
    pub machine: Machine<'p>,
    /// What a unit of time is, such as `firing`.
    pub what: String,
    /// In which order the run fired, in words.
    pub order: String,
    /// Firings by instruction, each with its time.
    pub rows: Vec<Vec<(usize, Tag)>>,
    /// What cells become, and when.
    pub cells: BTreeMap<i32, Vec<(usize, Cell)>>,
    pub end: End,
    /// The time of the last firing.
    pub last: usize,
}

impl<'p> Timeline<'p> {
    /// Firing i of a run has the time i.
    pub fn by_firing(
        machine: &Machine<'p>,
        order: String,
        picks: &[u8],
        budget: u16,
    ) -> Result<Timeline<'p>, Failure> {
        let (end, log) = machine.run_logged(picks, budget);
        held::check(machine, &end)?;
        let times = (1..).zip(log).collect();
        Timeline::new(machine, ("firing".to_string(), order), end, times)
    }

    /// All firings of a step have its time; cells are loaded at 0.
    pub fn by_step(machine: &Machine<'p>, pace: Pace) -> Result<Timeline<'p>, Failure> {
        let (end, times) = curves::in_steps(machine, pace)?;
        Timeline::new(machine, (pace.step(), pace.words()), end, times)
    }

    fn new(
        machine: &Machine<'p>,
        (what, order): (String, String),
        end: End,
        times: Vec<(usize, Tag)>,
    ) -> Result<Timeline<'p>, Failure> {
        let rows = machine.program.graph.instructions.len();
        let mut timeline = Timeline {
            machine: *machine,
            what,
            order,
            rows: vec![Vec::new(); rows],
            cells: BTreeMap::new(),
            last: times.last().map_or(0, |(time, _)| *time),
            end,
        };
        if timeline.end.answer.refused_at_once() {
            return Ok(timeline);
        }
        let log: Vec<Tag> = times.iter().map(|(_, tag)| *tag).collect();
        let history = History::of(machine, &timeline.end, &log)?;
        for ((time, tag), firing) in times.iter().zip(&history.firings) {
            timeline.rows[usize::from(tag.instruction)].push((*time, *tag));
            let value = |port: usize| history.tokens[firing.operands[port]].value;
            match firing.touch {
                Some(Touch::Written(cell, _)) => {
                    timeline.touch(cell, *time, Cell::Present(value(1)))
                }
                Some(Touch::Deferred(cell)) => timeline.touch(cell, *time, Cell::Waiting),
                _ => {}
            }
        }
        Ok(timeline)
    }

    /// Notes what a cell is from a time on; of one time the last counts.
    fn touch(&mut self, cell: i32, time: usize, now: Cell) {
        let changes = self.cells.entry(cell).or_default();
        if changes.last().is_some_and(|(at, _)| *at == time) {
            changes.pop();
        }
        if changes.last().is_none_or(|(_, before)| *before != now) {
            changes.push((time, now));
        }
    }
}

#[cfg(test)]
pub mod tests {
    use super::*;
    use crate::machine::{Sizes, WHOLE};
    use crate::program::Program;
    use crate::value::Value;

    pub const TEXT: &str = "read: FETCH -> plus.0\nplus: ADD -> out\nout: OUT\na: COPY -> plus.1\nwrite: STORE\n\
        cell 2 = -3\nb: COPY -> write.1\ninput read = 0\ninput a = 1\ninput write.0 = 0\ninput b = 5\n";

    pub fn timeline(text: &str, pace: Option<Pace>, test: impl FnOnce(&Timeline)) {
        let program = Program::typed("test", text.as_bytes().to_vec()).unwrap();
        let machine = Machine::new(&program, Sizes::default());
        let timeline = match pace {
            Some(pace) => Timeline::by_step(&machine, pace),
            None => Timeline::by_firing(&machine, "oldest first".to_string(), &[], WHOLE),
        };
        test(&timeline.unwrap());
    }

    fn times(timeline: &Timeline) -> Vec<Vec<usize>> {
        let times = |row: &Vec<(usize, Tag)>| row.iter().map(|(time, _)| *time).collect();
        timeline.rows.iter().map(times).collect()
    }

    #[test]
    fn firings_and_cells_by_turns() {
        timeline(TEXT, None, |timeline| {
            let expected: [&[usize]; 7] = [&[2], &[6], &[], &[3], &[5], &[1], &[4]];
            assert_eq!(times(timeline), expected);
            let read = vec![(2, Cell::Waiting), (5, Cell::Present(Value::of(5)))];
            let loaded = vec![(1, Cell::Present(Value::of(-3)))];
            assert_eq!(timeline.cells, BTreeMap::from([(0, read), (2, loaded)]));
            assert_eq!((timeline.last, timeline.end.answer.firings), (6, 6));
        });
    }

    /// The cell of a line is loaded before step 1.
    #[test]
    fn firings_and_cells_by_steps() {
        timeline(TEXT, Some(Pace::Ideal), |timeline| {
            let expected: [&[usize]; 7] = [&[1], &[3], &[], &[1], &[2], &[0], &[1]];
            assert_eq!(times(timeline), expected);
            let read = [(1, Cell::Waiting), (2, Cell::Present(Value::of(5)))];
            assert_eq!(timeline.cells[&0], read);
            assert_eq!(timeline.cells[&2], [(0, Cell::Present(Value::of(-3)))]);
        });
        timeline(TEXT, Some(Pace::Processors(1)), |timeline| {
            let expected: [&[usize]; 7] = [&[1], &[5], &[], &[2], &[4], &[0], &[3]];
            assert_eq!(times(timeline), expected);
        });
    }

    #[test]
    fn what_is_refused() {
        timeline("a: SINK\ninput a = 1\ninput a = 2\n", None, |timeline| {
            assert_eq!((times(timeline), timeline.last), (vec![vec![]], 0));
        });
        let text = "a: COPY -> b\nb: DIV 0 -> c\nc: OUT\ninput a = 1\n";
        for pace in [None, Some(Pace::Ideal)] {
            timeline(text, pace, |timeline| {
                assert_eq!(times(timeline), [vec![1], vec![], vec![]]);
            });
        }
    }
}
