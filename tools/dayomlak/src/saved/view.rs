//! What stands where in a state: enabled activities, those that are held back, tokens that wait, deferred tokens and results.

use std::collections::{HashMap, HashSet};

use crate::activity::Activity;
use crate::answer::Word;
use crate::failure::Failure;
use crate::held::{self, Held};
use crate::machine::{End, Machine};
use crate::program::Program;
use crate::records::{State, Tag, Token};
use crate::results;
use crate::value::Value;

/// The tokens of a state that are not spent, by what they are, each in the order of the ledger.
#[derive(Default)]
pub struct View {
    /// Activities whose operands are all live and which no bound holds back, oldest first, as picks count them.
    pub enabled: Vec<Tag>,
    /// Those that the loop bound holds back.
    pub held: Vec<Held>,
    /// Operands without their partner.
    pub waiting: Vec<Token>,
    /// Tokens that wait for a cell.
    pub deferred: Vec<Token>,
    pub results: Vec<Token>,
}

impl View {
    pub fn of(machine: &Machine, tokens: &[Token]) -> View {
        let program = machine.program;
        let is_operand = |t: &&Token| t.state == State::Live && !results::is_result(program, t);
        let mut operands: HashMap<Tag, u8> = HashMap::new();
        for token in tokens.iter().filter(is_operand) {
            *operands.entry(token.tag).or_default() += 1;
        }
        let needed = |tag: &Tag| program.graph.get(tag.instruction).map(|i| i.operands());
        let is_enabled = |tag: &Tag| operands.get(tag).copied() == needed(tag);
        let mut view = View::default();
        let mut seen = HashSet::new();
        for token in tokens {
            match token.state {
                State::Spent => {}
                State::Deferred => view.deferred.push(*token),
                State::Live if results::is_result(program, token) => view.results.push(*token),
                State::Live if !is_enabled(&token.tag) => view.waiting.push(*token),
                State::Live if seen.insert(token.tag) => view.enabled.push(token.tag),
                State::Live => {}
            }
        }
        let enabled = std::mem::take(&mut view.enabled);
        (view.enabled, view.held) = held::part(machine, tokens, enabled);
        view
    }

    /// Whether the engine, which answered so with these tokens, agrees on what can fire.
    pub fn agrees(&self, end: &End) -> bool {
        match end.answer.word {
            Word::Spent => !self.enabled.is_empty(),
            Word::Completed => self.enabled.is_empty() && self.held.is_empty(),
            Word::Hung => self.enabled.is_empty(),
            Word::Refused(_) => true,
        }
    }
}

/// The engine and a view do not agree.
pub fn disagreement() -> Failure {
    let text = "the engine and what is shown of a state do not agree on what is enabled";
    Failure::Inconsistent(text.to_string())
}

/// What cannot fire, by headings: what is held back, tokens that wait, deferred ones, results and cells.
pub fn parts(program: &Program, end: &End, view: &View) -> Vec<(&'static str, Vec<String>)> {
    let port = |t: &Token| program.port(&t.tag, t.port);
    let waits = |t: &Token| format!("{} = {}, for port {}", port(t), t.value, 1 - t.port);
    let deferred = |t: &Token| format!("{}, for {}", port(t), program.cell(t.value.low));
    let result = |t: &Token| format!("{} = {}", program.tag(&t.tag), t.value);
    let lines =
        |tokens: &[Token], line: &dyn Fn(&Token) -> String| tokens.iter().map(line).collect();
    let held = view.held.iter().map(|held| held.words(program));
    let parts = [
        ("held back", held.collect()),
        ("waiting for a partner", lines(&view.waiting, &waits)),
        ("deferred", lines(&view.deferred, &deferred)),
        ("results", lines(&view.results, &result)),
        ("cells", results::cell_lines(program, end)),
    ];
    let is_there = |(_, lines): &(&str, Vec<String>)| !lines.is_empty();
    parts.into_iter().filter(is_there).collect()
}

/// An activity with its operation and operands.
pub fn activity(program: &Program, tokens: &[Token], tag: &Tag) -> String {
    let name = program.tag(tag);
    match Activity::of(program, tokens, *tag) {
        Some(activity) => {
            let operands: Vec<String> = activity.operands.iter().map(Value::to_string).collect();
            let operation = activity.instruction.words();
            format!("{name}: {operation} with {}", operands.join(" and "))
        }
        None => name,
    }
}
