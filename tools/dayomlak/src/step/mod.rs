//! Firing by hand: `dayomlak step`. Every firing is the engine's; what is here keeps the picks and shows what can fire.

pub mod lines;
mod screen;
pub mod terminal;

use std::path::Path;

use crate::answer::{count, Word};
use crate::effects;
use crate::failure::Failure;
use crate::history::History;
use crate::machine::{Machine, WHOLE};
use crate::output::Target;
use crate::program::Program;
use crate::records::Tag;
use crate::results;
use crate::saved::view::{self, View};
use crate::walk::Walk;

/// A run that a person fires.
pub struct Session<'m> {
    machine: &'m Machine<'m>,
    pub walk: Walk<'m>,
    picks: Vec<u16>,
    /// What was fired, or tried, by the picks.
    fired: Vec<Tag>,
}

/// What stands beside the enabled activities, by headings.
pub type Parts = Vec<(&'static str, Vec<String>)>;

impl<'m> Session<'m> {
    pub fn new(machine: &'m Machine<'m>) -> Result<Session<'m>, Failure> {
        Ok(Session {
            machine,
            walk: Walk::new(machine)?,
            picks: Vec::new(),
            fired: Vec::new(),
        })
    }

    pub fn program(&self) -> &'m Program {
        self.machine.program
    }

    /// Fires the enabled activity of a number, which must be one of them.
    pub fn fire(&mut self, number: usize) -> Result<(), Failure> {
        let tag = self.walk.enabled[number];
        self.walk.fire(number)?;
        self.picks.push(number as u16);
        self.fired.push(tag);
        Ok(())
    }

    /// Takes the last firing back; `false` where there is none.
    pub fn back(&mut self) -> Result<bool, Failure> {
        self.fired.pop();
        let is_done = self.picks.pop().is_some();
        self.walk = Walk::after(self.machine, &self.picks)?;
        Ok(is_done)
    }

    /// Whether more can fire, as far as a run goes.
    pub fn is_open(&self) -> bool {
        !self.walk.enabled.is_empty() && self.fired.len() < usize::from(WHOLE)
    }

    /// Its order in words.
    pub fn words(&self) -> String {
        self.machine.under_bound("by hand")
    }

    /// How far the run is.
    pub fn headline(&self) -> String {
        let answer = &self.walk.end.answer;
        match answer.word {
            Word::Spent => format!("after {}", answer.counts()),
            _ => results::headline(self.machine, &self.walk.end, &self.words()),
        }
    }

    /// What the last firing took and did.
    pub fn last(&self) -> Result<Option<String>, Failure> {
        let Some(tag) = self.fired.last() else {
            return Ok(None);
        };
        let (number, name) = (self.fired.len(), self.program().tag(tag));
        if let Word::Refused(_) = self.walk.end.answer.word {
            return Ok(Some(format!("firing {number}, {name}, is refused")));
        }
        let history = History::of(self.machine, &self.walk.end, &self.fired)?;
        let words = history.firings.last().map(|firing| {
            let sentence = effects::sentence(self.program(), &history, firing);
            format!("firing {number}, {name}: {sentence}")
        });
        Ok(words)
    }

    /// The enabled activities with their operands, in the order of their numbers.
    pub fn enabled(&self) -> Vec<String> {
        let tokens = self.walk.end.tokens();
        let tags = self.walk.enabled.iter();
        tags.map(|tag| view::activity(self.program(), &tokens, tag))
            .collect()
    }

    /// Tokens that wait, results and cells.
    pub fn beside(&self) -> Parts {
        let view = View::of(self.machine, &self.walk.end.tokens());
        view::parts(self.program(), &self.walk.end, &view)
    }

    /// Writes the order so far into a file, a name for each firing.
    pub fn write(&self, path: &Path) -> Result<String, Failure> {
        let target = Target::new(path, &self.program().sources)?;
        let firings = count(self.fired.len(), "firing");
        let mut text = format!("# The order of {}: {firings}\n", one_line(self.program()));
        for tag in &self.fired {
            text += &format!("{}\n", self.program().tag(tag));
        }
        target.write(text.as_bytes())?;
        Ok(format!("{} has {firings}", path.display()))
    }
}

/// The graph's name, in a comment.
fn one_line(program: &Program) -> String {
    program.label.replace(char::is_control, "?")
}

#[cfg(test)]
pub mod tests {
    use super::*;
    use crate::machine::Sizes;

    pub const TEXT: &str =
        "read: FETCH -> plus.0\nplus: ADD -> out\nout: OUT\na: COPY -> plus.1\nwrite: STORE\n\
        input read = 0\ninput a = 1\ninput write.0 = 0\ninput write.1 = 5\n";

    /// A session over a text.
    pub fn session(text: &str, test: impl FnOnce(Session)) {
        let program = Program::typed("test", text.as_bytes().to_vec()).unwrap();
        let machine = Machine::new(&program, Sizes::default());
        test(Session::new(&machine).unwrap());
    }

    #[test]
    fn forth_and_back() {
        session(TEXT, |mut session| {
            let before = session.walk.end.clone();
            assert!(!session.back().unwrap());
            session.fire(2).unwrap();
            let one = session.walk.end.clone();
            session.fire(1).unwrap();
            assert_eq!(session.headline(), "after 2 firings, 5 tokens");
            let last = session.last().unwrap().unwrap();
            assert_eq!(last, "firing 2, a[0]: COPY with 1 -> plus[0].1 = 1");
            assert!(session.back().unwrap());
            assert_eq!(session.walk.end, one);
            assert!(session.back().unwrap());
            assert_eq!(
                (session.walk.end.bytes(), session.last().unwrap()),
                (before.bytes(), None)
            );
            assert!(!session.back().unwrap());
        });
    }

    #[test]
    fn back_from_a_refused_firing() {
        session("a: DIV 0 -> b\nb: OUT\ninput a = 1\n", |mut session| {
            session.fire(0).unwrap();
            assert!(!session.is_open());
            let last = session.last().unwrap().unwrap();
            assert_eq!(last, "firing 1, a[0], is refused");
            assert!(session.back().unwrap() && session.is_open());
        });
    }
}
