//! Refusal 9 explained: two tokens for one port under one tag, the ways that they came, and what keeps them apart.

use std::collections::BTreeSet;

use crate::activity::{Activity, Port};
use crate::diagnostics::Finding;
use crate::graph::{ENTER, LEAVE, NEXT};
use crate::program::Program;
use crate::records::{State, Tag, Token};

const ONE_TOKEN: &str =
    "under one tag a port takes one token: let them end at two ports, or choose one by a SWITCH";

/// Marks the arc of a refused activity whose end has a token already, and says what to do.
pub fn explain(finding: Finding, activity: &Activity, tokens: &[Token]) -> Finding {
    let mut before: Vec<Port> = Vec::new();
    for (number, end) in activity.ends().into_iter().enumerate() {
        let Some(port) = end else { continue };
        let arc = Arc::of(activity.tag, number);
        let is_first = |t: &Token| (t.tag, t.port) == port;
        if let Some(place) = tokens.iter().position(is_first) {
            let meeting = Meeting {
                program: activity.program,
                port,
                first: Way::of(activity.program, tokens, place),
                second: arc,
            };
            return meeting.finding(finding, &tokens[place]);
        }
        if before.contains(&port) {
            return twins(finding, activity.program, &arc, &port);
        }
        before.push(port);
    }
    finding.at(activity.program.span(activity.tag.instruction.into()), "")
}

/// Both arcs of one instruction end at one port.
fn twins(finding: Finding, program: &Program, second: &Arc, (tag, port): &Port) -> Finding {
    let words = format!("both destinations are `{}`", program.port(tag, *port));
    let finding = finding.at(second.span(program), words);
    finding.note("let the two destinations differ")
}

/// An arc that an activity sends along, by its number among those of the instruction.
#[derive(Clone, Copy)]
struct Arc {
    from: Tag,
    number: usize,
}

impl Arc {
    fn of(from: Tag, number: usize) -> Arc {
        Arc { from, number }
    }

    fn span(&self, program: &Program) -> Option<asm::Span> {
        program.arc_span(self.from.instruction.into(), self.number)
    }
}

/// How a token came to its port.
enum Way {
    Input(usize),
    Arc(Arc),
    /// By no arc that is found.
    Unknown,
}

impl Way {
    /// The way of the token at a place of the ledger.
    fn of(program: &Program, tokens: &[Token], place: usize) -> Way {
        if place < program.input_count() {
            return Way::Input(place);
        }
        // What fired has spent its operands. A port has one token, so that one arc at most has sent there.
        let spent = tokens.iter().filter(|t| t.state == State::Spent);
        let fired: BTreeSet<Tag> = spent.map(|t| t.tag).collect();
        let port = (tokens[place].tag, tokens[place].port);
        let arc = |tag: Tag| {
            let ends = Activity::of(program, tokens, tag)?.ends();
            let number = ends.iter().position(|end| *end == Some(port))?;
            Some(Arc::of(tag, number))
        };
        fired
            .into_iter()
            .find_map(arc)
            .map_or(Way::Unknown, Way::Arc)
    }
}

/// Two tokens for one port under one tag; the second was refused.
struct Meeting<'p> {
    program: &'p Program,
    port: Port,
    first: Way,
    second: Arc,
}

impl Meeting<'_> {
    fn finding(&self, finding: Finding, first: &Token) -> Finding {
        let (tag, port) = &self.port;
        let name = self.program.port(tag, *port);
        let state = match first.state {
            State::Deferred => format!("deferred on {}", self.program.cell(first.value.low)),
            state => format!("{}, {}", first.value, state.word()),
        };
        let words = format!("`{name}` had a token already: {state}");
        let finding = finding.at(self.second.span(self.program), words);
        let finding = self.mark_first(finding);
        self.notes().into_iter().fold(finding, Finding::note)
    }

    /// Marks where the first token came from, unless that is marked already.
    fn mark_first(&self, finding: Finding) -> Finding {
        match &self.first {
            Way::Input(number) => {
                let span = self.program.input_span(*number);
                finding.also(span, "the first token came by this input")
            }
            Way::Arc(arc) if arc.from.instruction == self.second.from.instruction => finding,
            Way::Arc(arc) if self.code(arc) == LEAVE => {
                finding.also(arc.span(self.program), "the first token came from here")
            }
            Way::Arc(arc) => {
                finding.also(arc.span(self.program), "the first token came by this arc")
            }
            Way::Unknown => finding,
        }
    }

    /// Why the two tokens met, and what to do.
    fn notes(&self) -> Vec<String> {
        if let Some(arc) = self.closing() {
            return self.loop_without_next(&arc).into();
        }
        match &self.first {
            Way::Arc(first) if self.code(first) == LEAVE && self.code(&self.second) == LEAVE => {
                self.two_leave(first).into()
            }
            Way::Arc(first) if self.code(first) == ENTER && self.code(&self.second) == ENTER => {
                self.two_enter(first).into()
            }
            _ => {
                let notes = [self.two_ways(), ONE_TOKEN.to_string()];
                notes.into_iter().chain(self.call_or_loop()).collect()
            }
        }
    }

    /// The arcs that the two tokens came by, the second's first.
    fn arcs(&self) -> Vec<Arc> {
        match &self.first {
            Way::Arc(first) => vec![self.second, *first],
            _ => vec![self.second],
        }
    }

    fn code(&self, arc: &Arc) -> u8 {
        let instruction = self.program.graph.get(arc.from.instruction);
        instruction.map_or(0, |i| i.code)
    }

    /// The arc, of the two, by which a token goes round and comes to its own tag again.
    fn closing(&self) -> Option<Arc> {
        let graph = &self.program.graph;
        let round = graph.reached_under_one_tag(self.port.0.instruction);
        let stays = |arc: &Arc| !matches!(self.code(arc), NEXT | ENTER | LEAVE);
        let closes = |arc: &Arc| stays(arc) && round.contains(&arc.from.instruction);
        self.arcs().into_iter().find(closes)
    }

    fn loop_without_next(&self, arc: &Arc) -> [String; 2] {
        let (from, end) = (self.name(arc), self.end_words());
        [
            format!("the arc `{from}` -> `{end}` closes a loop without NEXT, so that two passes share a tag"),
            format!("let it go by a NEXT: `{from}: ... -> n` and `n: NEXT -> {end}`"),
        ]
    }

    fn two_leave(&self, first: &Arc) -> [String; 2] {
        let (one, other, end) = (self.name(first), self.name(&self.second), self.end_words());
        if first.from.path != self.second.from.path {
            return [
                format!("two calls return to `{end}`"),
                "give each call a return of its own".to_string(),
            ];
        }
        if one != other {
            return [
                format!("`{one}` and `{other}` leave one call for `{end}`"),
                "give each LEAVE a constant of its own".to_string(),
            ];
        }
        let (pass, later) = (first.from.iteration, self.second.from.iteration);
        [
            format!("`{one}` leaves one call in two iterations, {pass} and {later}"),
            "let only one pass come to it, by a SWITCH".to_string(),
        ]
    }

    fn two_enter(&self, first: &Arc) -> [String; 2] {
        let (one, other, end) = (self.name(first), self.name(&self.second), self.end_words());
        let (_, site) = self.port.0.left();
        [
            format!("`{one}` and `{other}` enter `{end}` by one site, {site}"),
            "give each call a site of its own".to_string(),
        ]
    }

    /// The two ways to the port, in a graph or a call where neither goes round.
    fn two_ways(&self) -> String {
        let second = self.way_words(&self.second);
        match &self.first {
            Way::Input(_) => format!("an input and {second} end at one port"),
            Way::Arc(first) if [self.code(first), self.code(&self.second)].contains(&LEAVE) => {
                format!("{} and {second} end at one port", self.way_words(first))
            }
            Way::Arc(first) => {
                let (one, other, end) =
                    (self.name(first), self.name(&self.second), self.end_words());
                format!("two arcs end at one port: `{one}` -> `{end}` and `{other}` -> `{end}`")
            }
            Way::Unknown => format!("{second} is not the only way to its port"),
        }
    }

    /// What was probably forgotten, if the port may belong to a procedure or an arc to a loop.
    fn call_or_loop(&self) -> Option<String> {
        let graph = &self.program.graph;
        let (to, _) = self.port;
        let leaves = |number: &u16| graph.leave(*number).is_some();
        if to.path == 0 && graph.reached(to.instruction).iter().any(leaves) {
            let end = self.end_words();
            return Some(format!(
                "if `{end}` belongs to a procedure, each call needs an ENTER with a site of its own"
            ));
        }
        let nexts = (0..).zip(&graph.instructions);
        let nexts = nexts.filter(|(_, instruction)| instruction.code == NEXT);
        let passes: BTreeSet<u16> = nexts
            .flat_map(|(number, _)| graph.reached(number))
            .collect();
        let loops = |arc: &Arc| self.code(arc) != NEXT && passes.contains(&arc.from.instruction);
        let words = "what goes round a loop needs a NEXT on its arc";
        self.arcs().iter().any(loops).then(|| words.to_string())
    }

    /// An arc by the names of its ends; what leaves a call goes by none.
    fn way_words(&self, arc: &Arc) -> String {
        let from = self.name(arc);
        match self.code(arc) {
            LEAVE => format!("what `{from}` sends back"),
            _ => format!("the arc `{from}` -> `{}`", self.end_words()),
        }
    }

    /// The name of the instruction that an arc comes from.
    fn name(&self, arc: &Arc) -> String {
        self.program.name(arc.from.instruction)
    }

    /// The port without its tag, as it is typed.
    fn end_words(&self) -> String {
        let (tag, port) = &self.port;
        let name = self.program.name(tag.instruction);
        let operands = self
            .program
            .graph
            .get(tag.instruction)
            .map(|i| i.operands());
        match operands {
            Some(1) => name,
            _ => format!("{name}.{port}"),
        }
    }
}
