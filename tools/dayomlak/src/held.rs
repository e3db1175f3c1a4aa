//! Loop bounding (02, R-9): which NEXT activities a bound holds back, and by which tokens. The engine decides what fires; this
//! shows and explains it, and where the two do not agree, the state is not shown.

use codespan_reporting::diagnostic::Severity;

use crate::answer::Word;
use crate::diagnostics::Finding;
use crate::failure::Failure;
use crate::graph::NEXT;
use crate::machine::{End, Machine, WHOLE};
use crate::program::Program;
use crate::records::{State, Tag, Token};
use crate::results;
use crate::saved::view::{self, View};
use crate::value::Value;

/// How many tokens are named.
const SHOWN: usize = 4;

const WHY: &str =
    "a bound looks at every token of the loop's path and of paths entered from it, whatever part of the graph it belongs to";
const ADVICE: &str =
    "put the loop into a path of its own by an ENTER, without what waits for its end, or give a larger bound";

/// An enabled activity that is held back, and the tokens that hold it.
#[derive(Clone, Debug, PartialEq, Eq)]
pub struct Held {
    pub tag: Tag,
    pub by: Vec<Token>,
}

impl Held {
    /// The activity with its operand and what holds it, each with its line of the text.
    pub fn line(&self, program: &Program, operand: Value) -> String {
        let name = at_line(program, &program.tag(&self.tag), self.tag.instruction);
        let by = listed(self.by.iter().map(|token| {
            let name = program.port(&token.tag, token.port);
            at_line(program, &name, token.tag.instruction)
        }));
        format!("{name} = {operand} is held by {by}")
    }

    /// What holds it, by names.
    pub fn by_words(&self, program: &Program) -> String {
        format!("by {}", names(program, &self.by))
    }

    /// The activity with what holds it, by names.
    pub fn words(&self, program: &Program) -> String {
        format!("{} ({})", program.tag(&self.tag), self.by_words(program))
    }
}

/// Parts enabled activities into those that are free and those that a bound holds back.
pub fn part(machine: &Machine, tokens: &[Token], enabled: Vec<Tag>) -> (Vec<Tag>, Vec<Held>) {
    if machine.bound == 0 {
        return (enabled, Vec::new());
    }
    let program = machine.program;
    let pending = |t: &&Token| t.state != State::Spent && !results::is_result(program, t);
    let pending: Vec<Token> = tokens.iter().filter(pending).copied().collect();
    let (mut free, mut held) = (Vec::new(), Vec::new());
    for tag in enabled {
        let by = holders(machine, &pending, &tag);
        match by.is_empty() {
            true => free.push(tag),
            false => held.push(Held { tag, by }),
        }
    }
    (free, held)
}

/// The tokens that hold an activity back: of a NEXT that would make iteration m, those at m - k or less.
fn holders(machine: &Machine, pending: &[Token], tag: &Tag) -> Vec<Token> {
    let code = machine.program.graph.get(tag.instruction).map(|i| i.code);
    if code != Some(NEXT) {
        return Vec::new();
    }
    let made = u16::from(tag.iteration) + 1;
    let is_old = |token: &&Token| {
        let at = iteration_in(tag.path, token.tag);
        at.is_some_and(|at| u16::from(at) + machine.bound <= made)
    };
    pending.iter().filter(is_old).copied().collect()
}

/// The iteration of a path that a tag stands at: its own there, and in a path entered from there, at any depth, the one that it
/// was entered from.
fn iteration_in(path: u128, mut tag: Tag) -> Option<u8> {
    while tag.path != path {
        if tag.path == 0 {
            return None;
        }
        tag = tag.left().0;
    }
    Some(tag.iteration)
}

/// What is held back where a run ended or stopped. A refused run has no such place.
pub fn of(machine: &Machine, end: &End) -> Vec<Held> {
    match end.answer.word {
        Word::Refused(_) => Vec::new(),
        _ if machine.bound == 0 => Vec::new(),
        _ => View::of(machine, &end.tokens()).held,
    }
}

/// Whether the engine agrees on what is held where a bounded run ended or stopped, and counts as many. Where it does not, nothing is
/// shown.
pub fn check(machine: &Machine, end: &End) -> Result<(), Failure> {
    if machine.bound == 0 || matches!(end.answer.word, Word::Refused(_)) {
        return Ok(());
    }
    let view = View::of(machine, &end.tokens());
    let (held, free) = (view.held.len(), view.enabled.len());
    match view.agrees(end) && machine.held(end) == Some((held, held + free)) {
        true => Ok(()),
        false => Err(view::disagreement()),
    }
}

/// What a run hung on: `None` for one that did not hang because activities are held back.
pub fn left(machine: &Machine, end: &End) -> Option<Vec<Held>> {
    let held = of(machine, end);
    (end.answer.word == Word::Hung && !held.is_empty()).then_some(held)
}

/// The tokens that hold activities back and are not held themselves, each once: those that something else would have to take.
fn roots(held: &[Held]) -> Vec<Token> {
    let is_held = |token: &Token| held.iter().any(|held| held.tag == token.tag);
    let mut roots: Vec<Token> = Vec::new();
    for token in held.iter().flat_map(|held| &held.by) {
        if !is_held(token) && !roots.contains(token) {
            roots.push(*token);
        }
    }
    roots
}

/// The first of some names, and how many more there are.
fn listed(names: impl ExactSizeIterator<Item = String>) -> String {
    let more = names.len().saturating_sub(SHOWN);
    let shown: Vec<String> = names.take(SHOWN).collect();
    match more {
        0 => shown.join(", "),
        more => format!("{} and {more} more", shown.join(", ")),
    }
}

fn names(program: &Program, tokens: &[Token]) -> String {
    listed(tokens.iter().map(|t| program.port(&t.tag, t.port)))
}

/// A name with the line of its instruction in the text, if there is one.
fn at_line(program: &Program, name: &str, instruction: u16) -> String {
    match program.line(instruction) {
        Some(line) => format!("{name} (line {line})"),
        None => name.to_string(),
    }
}

/// `3 NEXT activities are held by read[0], sum[1].0`.
pub fn words(program: &Program, held: &[Held]) -> String {
    let (activities, are) = match held.len() {
        1 => ("1 NEXT activity".to_string(), "is"),
        many => (format!("{many} NEXT activities"), "are"),
    };
    format!(
        "{activities} {are} held by {}",
        names(program, &roots(held))
    )
}

/// Why a run hung on held activities, where in the text, and what to change; `None` for another one.
pub fn explain(machine: &Machine, end: &End) -> Option<Finding> {
    let held = left(machine, end)?;
    let program = machine.program;
    let first = held.first()?;
    let (bound, made) = (machine.bound, u16::from(first.tag.iteration) + 1);
    let title = format!(
        "bound {bound} holds {} back, and nothing else can fire",
        listed(
            held.iter()
                .map(|held| format!("`{}`", program.tag(&held.tag)))
        )
    );
    let old = match made - bound {
        0 => "iteration 0".to_string(),
        last => format!("iterations 0 to {last}"),
    };
    let waits = format!("it would make iteration {made}, and waits for what is left at {old}");
    let here = program.span(first.tag.instruction.into());
    let mut finding = Finding::new(Severity::Note, title).at(here, waits);
    if let Some(root) = roots(&held).first() {
        let there = program.span(root.tag.instruction.into());
        finding = finding.also(there, holds(program, root));
    }
    Some(finding.note(WHY).note(ADVICE).note(without(machine)))
}

/// What a token that holds others is waiting for.
fn holds(program: &Program, token: &Token) -> String {
    let name = program.port(&token.tag, token.port);
    match token.state {
        State::Deferred => format!("`{name}` waits for {}", program.cell(token.value.low)),
        _ => format!("`{name}` waits for its partner"),
    }
}

/// How the graph ends without a bound. By demand 3 one order tells it of all.
fn without(machine: &Machine) -> String {
    let from = match machine.start {
        Some(_) => "carried on without a bound",
        None => "without a bound",
    };
    match machine.bounded(0).run(&[], WHOLE).answer.word {
        Word::Completed => format!("{from} every order completes"),
        Word::Hung => format!("{from} every order hangs too, with nothing held"),
        _ => format!("{from} every order is refused"),
    }
}

#[cfg(test)]
mod tests {
    use super::*;
    use crate::machine::Sizes;

    fn tag(path: u128, iteration: u8, instruction: u16) -> Tag {
        Tag {
            path,
            iteration,
            instruction,
        }
    }

    /// Whether a NEXT at a path and an iteration is held back by a token that waits at another place.
    fn is_held(next: (u128, u8), waiting: (u128, u8), bound: u16) -> bool {
        let text = "next: NEXT -> out\nout: OUT\ngate: GATE -> out\ninput next = 1\n";
        let program = Program::typed("test", text.as_bytes().to_vec()).unwrap();
        let machine = Machine::new(&program, Sizes::default()).bounded(bound);
        let token = |tag| Token {
            tag,
            port: 0,
            value: Value::of(1),
            state: State::Live,
        };
        let next = token(tag(next.0, next.1, 0));
        let tokens = [next, token(tag(waiting.0, waiting.1, 2))];
        let View { enabled, held, .. } = View::of(&machine, &tokens);
        assert_eq!(
            (enabled.len(), held.len()),
            if held.is_empty() { (1, 0) } else { (0, 1) }
        );
        !held.is_empty()
    }

    /// In the path itself the own iteration counts, in an entered one that of the level right below.
    #[test]
    fn the_level_right_below_decides() {
        // The NEXT makes iteration 6: with bound 4, iterations up to 2 hold it.
        for (old, held) in [(0, true), (2, true), (3, false), (6, false), (200, false)] {
            let entered = 0x300 + u128::from(old);
            assert_eq!(is_held((0, 5), (0, old), 4), held);
            assert_eq!(is_held((0, 5), (entered, 250), 4), held);
            assert_eq!(is_held((0, 5), (entered << 16 | 0x3ff, 0), 4), held);
            assert_eq!(is_held((0x301, 5), (0x301 << 16 | entered, 9), 4), held);
            assert!(!is_held((0x301, 5), (0x302 << 16 | entered, 0), 4));
        }
        // Tokens of the parent path never hold.
        assert!(!is_held((0x300, 5), (0, 0), 2));
        let eight = (0..8).fold(0, |path: u128, _| path << 16 | 0x300);
        assert!(is_held((0, 5), (eight, 9), 6) && is_held((eight, 5), (eight, 0), 6));
        assert!(!is_held((eight >> 16, 5), (eight, 9), 7) && !is_held((eight, 5), (eight, 0), 0));
        // 256 from 255.
        assert!(is_held((0, 255), (0, 0), 256) && !is_held((0, 255), (0, 1), 256));
    }
}
