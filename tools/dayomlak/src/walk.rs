//! A run taken firing by firing, each by the engine, with what is enabled before it.

use crate::answer::Word;
use crate::failure::Failure;
use crate::held::Held;
use crate::machine::{self, End, Machine};
use crate::orders;
use crate::program::Program;
use crate::records::{self, Tag};
use crate::saved::view::{disagreement, View};
use crate::saved::State;

/// A state of a run, and what can fire in it.
#[derive(Clone)]
pub struct Walk<'m> {
    machine: &'m Machine<'m>,
    /// What the firings so far leave. A refused firing leaves what it found.
    pub end: End,
    /// The enabled activities that no bound holds back, as picks count them from 0: oldest first.
    pub enabled: Vec<Tag>,
    /// Those that the bound holds back.
    pub held: Vec<Held>,
}

impl<'m> Walk<'m> {
    /// The state before the first firing. A run that is refused at once has nothing enabled.
    pub fn new(machine: &'m Machine<'m>) -> Result<Walk<'m>, Failure> {
        Walk::at(machine, machine.run(&[], 0))
    }

    /// The state after firings by picks, the last of which may be refused.
    pub fn after(machine: &'m Machine<'m>, picks: &[u16]) -> Result<Walk<'m>, Failure> {
        let end = machine.run(&orders::bytes(picks.iter().copied()), picks.len() as u16);
        Walk::at(machine, end)
    }

    fn at(machine: &'m Machine<'m>, end: End) -> Result<Walk<'m>, Failure> {
        let view = match end.answer.word {
            Word::Refused(_) => View::default(),
            _ => View::of(machine, &end.tokens()),
        };
        // The engine says whether anything can fire, and must agree.
        match view.agrees(&end) {
            true => Ok(Walk {
                machine,
                end,
                enabled: view.enabled,
                held: view.held,
            }),
            false => Err(disagreement()),
        }
    }

    /// Fires the enabled activity of a number. The engine must have fired that one and no other.
    pub fn fire(&mut self, number: usize) -> Result<(), Failure> {
        let Some(tag) = self.enabled.get(number).copied() else {
            return Err(disagreement());
        };
        let before = State::of(&self.end);
        let end = self
            .machine
            .carry_on(&before, &(number as u16).to_le_bytes(), 1);
        let tokens = end.tokens();
        let took = match end.answer.word {
            Word::Refused(_) => tokens.get(end.answer.place).map(|token| token.tag),
            _ => machine::fired(&records::tokens(&before.ledger), &tokens),
        };
        if took != Some(tag) {
            return Err(disagreement());
        }
        *self = Walk::at(self.machine, end)?;
        Ok(())
    }

    /// Fires an activity by its tag; `false` where it is not enabled.
    pub fn fire_tag(&mut self, tag: &Tag) -> Result<bool, Failure> {
        match self.enabled.iter().position(|enabled| enabled == tag) {
            Some(number) => self.fire(number).map(|()| true),
            None => Ok(false),
        }
    }

    pub fn machine(&self) -> &'m Machine<'m> {
        self.machine
    }

    pub fn program(&self) -> &'m Program {
        self.machine.program
    }

    fn choice(&self) -> Choice {
        Choice {
            enabled: self.enabled.clone(),
            held: self.held.clone(),
        }
    }

    /// Which tokens hold an activity back, by its name, if the bound does.
    pub fn held_by(&self, name: &str) -> Option<String> {
        let program = self.program();
        let mut held = self.held.iter();
        let held = held.find(|held| program.tag(&held.tag) == name)?;
        Some(held.by_words(program))
    }

    /// The enabled activities by names.
    pub fn names(&self) -> Vec<String> {
        let tags = self.enabled.iter();
        tags.map(|tag| self.program().tag(tag)).collect()
    }
}

/// What can fire at a position of a run, as picks count it, and what the bound holds back.
pub struct Choice {
    pub enabled: Vec<Tag>,
    pub held: Vec<Held>,
}

/// What can fire before each firing of a run, and before the one that comes next, if there is one.
pub fn choices(machine: &Machine, log: &[Tag]) -> Result<Vec<Choice>, Failure> {
    let mut walk = Walk::new(machine)?;
    let mut choices = Vec::new();
    for tag in log {
        choices.push(walk.choice());
        if !walk.fire_tag(tag)? {
            return Err(disagreement());
        }
    }
    choices.push(walk.choice());
    Ok(choices)
}

/// Enabled activities by their numbers: `0 j[0]  1 s[0]`.
pub fn numbered(names: &[String]) -> String {
    let words = names.iter().enumerate();
    let words: Vec<String> = words.map(|(n, name)| format!("{n} {name}")).collect();
    words.join("  ")
}

#[cfg(test)]
mod tests {
    use super::*;
    use crate::machine::{Sizes, WHOLE};

    const TEXT: &str =
        "read: FETCH -> plus.0\nplus: ADD -> out\nout: OUT\na: COPY -> plus.1\nwrite: STORE\n\
        input read = 0\ninput a = 1\ninput write.0 = 0\ninput write.1 = 5\n";

    fn program(text: &str) -> Program {
        Program::typed("test", text.as_bytes().to_vec()).unwrap()
    }

    /// A read that wakes has its own place, before what was enabled later.
    #[test]
    fn what_is_enabled_before_each_firing() {
        let program = program(TEXT);
        let machine = Machine::new(&program, Sizes::default());
        let (_, log) = machine.run_logged(&[], WHOLE);
        let choices = choices(&machine, &log).unwrap();
        let names = |choice: &Choice| {
            let tags = choice.enabled.iter();
            tags.map(|t| program.tag(t)).collect::<Vec<_>>()
        };
        let names: Vec<Vec<String>> = choices.iter().map(names).collect();
        assert_eq!(names[0], ["read[0]", "a[0]", "write[0]"]);
        assert_eq!(names[2], ["write[0]"]);
        assert_eq!(names[3], ["plus[0]"]);
        assert_eq!((names.len(), names[4].len()), (5, 0));
    }

    #[test]
    fn a_refused_firing_leaves_what_it_found() {
        let program = program("a: DIV 0 -> b\nb: OUT\ninput a = 1\n");
        let machine = Machine::new(&program, Sizes::default());
        let mut walk = Walk::new(&machine).unwrap();
        let before = walk.end.clone();
        walk.fire(0).unwrap();
        assert_eq!(walk.end.answer.word, Word::Refused(12));
        assert_eq!(walk.end.bytes(), before.bytes());
        assert!(walk.enabled.is_empty() && walk.fire(0).is_err());
    }
}
