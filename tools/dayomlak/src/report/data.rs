//! What the page shows at each position of its slider, as JSON: the firings, and tokens and cells by their changes.

use std::collections::{HashMap, HashSet};

use plotter::curves::Steps as Curves;

use super::states::{Changes, States};
use super::steps::Steps;
use super::Run;
use crate::activity::{Activity, Port};
use crate::answer::Word;
use crate::effects;
use crate::failure::Failure;
use crate::graph::{Destination, LEAVE, SWITCH};
use crate::history::{Firing, History};
use crate::json::{list, maybe, object, string};
use crate::pictures::dot::{self, Drawing};
use crate::program::Program;
use crate::records::{self, Cell, Tag, Token};
use crate::refused;
use crate::script::Fields;
use crate::walk::{self, Choice};

/// The data of a run. One that was refused before its inputs were written has no state.
pub fn of(run: &Run, drawing: &Drawing, steps: &Steps) -> Result<String, Failure> {
    let Curves {
        firings,
        tokens,
        waiting,
        first,
        ..
    } = &steps.curves;
    let columns = firings.iter().zip(tokens).zip(waiting);
    let columns = columns.map(|((f, t), w)| format!("[{f},{t},{w}]"));
    let fault = fault(run, drawing).unwrap_or_default();
    let nothing = ["[]", "null", "[]", "[]", "[]", "[]"].map(str::to_string);
    let [firings, refused, enabled, held, tokens, cells] = match run.end.answer.refused_at_once() {
        true => nothing,
        false => {
            let data = Data::new(run, drawing, steps)?;
            let choices = walk::choices(run.machine, &run.log)?;
            [
                data.firings(),
                data.refused(run),
                data.enabled(&choices),
                data.held(&choices),
                data.tokens(),
                data.cells(),
            ]
        }
    };
    Ok(object(&[
        ("before", run.machine.given().0.to_string()),
        ("carriedOn", run.machine.start.is_some().to_string()),
        ("firings", firings),
        ("refused", refused),
        ("enabled", enabled),
        ("held", held),
        ("tokens", tokens),
        ("cells", cells),
        ("steps", list(columns)),
        ("firstStep", first.to_string()),
        ("fault", string(&fault)),
    ]))
}

/// What is drawn of the instruction or the input that a run was refused for before any firing.
fn fault(run: &Run, drawing: &Drawing) -> Option<String> {
    let answer = &run.end.answer;
    match answer.word {
        Word::Refused(2..=5) => Some(drawing.instruction_id(answer.place as u16)),
        Word::Refused(22)
            if refused::bad_table(run.machine.program, run.machine.sizes).is_none() =>
        {
            Some(drawing.instruction_id(answer.place as u16))
        }
        Word::Refused(6 | 8 | 9) if answer.refused_at_once() => {
            let inputs = records::tokens(&run.machine.program.files.inputs);
            let instruction = inputs.get(answer.place)?.tag.instruction;
            Some(drawing.input_id(answer.place, instruction))
        }
        _ => None,
    }
}

struct Data<'d> {
    program: &'d Program,
    drawing: &'d Drawing<'d>,
    steps: &'d Steps,
    is_carried_on: bool,
    history: History,
    states: States,
}

impl<'d> Data<'d> {
    fn new(run: &Run<'d>, drawing: &'d Drawing, steps: &'d Steps) -> Result<Data<'d>, Failure> {
        Ok(Data {
            program: run.machine.program,
            drawing,
            steps,
            is_carried_on: run.machine.start.is_some(),
            history: History::of(run.machine, &run.end, &run.log)?,
            states: States::of(run.machine, &run.picks, &run.end)?,
        })
    }

    fn firings(&self) -> String {
        list(self.history.firings.iter().map(|firing| {
            let mut fields = self.activity(&firing.tag);
            let words = effects::sentence(self.program, &self.history, firing);
            fields.push(("words", string(&words)));
            fields.push(("step", maybe(self.steps.of(&firing.tag))));
            object(&fields)
        }))
    }

    /// The name of an activity, its tag in numbers and the id of what is drawn of it.
    fn activity(&self, tag: &Tag) -> Vec<(&'static str, String)> {
        let numbers = format!(
            "path {}, iteration {}, instruction {}",
            tag.path, tag.iteration, tag.instruction
        );
        vec![
            ("name", string(&self.program.tag(tag))),
            ("tag", string(&numbers)),
            ("at", string(&self.drawing.instruction_id(tag.instruction))),
        ]
    }

    /// The refused activity, with the places of its operands.
    fn refused(&self, run: &Run) -> String {
        let answer = &run.end.answer;
        let token = self.history.tokens.get(answer.place);
        let (Word::Refused(_), Some(token)) = (answer.word, token) else {
            return "null".to_string();
        };
        let operands = (0..).zip(&self.history.tokens);
        let operands = operands.filter(|(_, operand)| operand.tag == token.tag);
        let operands = operands.map(|(place, _): (usize, _)| place.to_string());
        let mut fields = self.activity(&token.tag);
        fields.push(("words", string(&answer.words())));
        fields.push(("operands", list(operands)));
        fields.push(("arc", string(&self.wrong_arc(answer.word, token.tag))));
        fields.push(("step", maybe(self.steps.of(&token.tag))));
        object(&fields)
    }

    /// The arc by which a second token would come to a port.
    fn wrong_arc(&self, word: Word, tag: Tag) -> String {
        let tokens = &self.history.tokens;
        let Some(activity) =
            Activity::of(self.program, tokens, tag).filter(|_| word == Word::Refused(9))
        else {
            return String::new();
        };
        let mut taken: HashSet<Port> = tokens.iter().map(|t| (t.tag, t.port)).collect();
        let ends = activity.ends().into_iter();
        let wrong = ends.enumerate().find_map(|(arc, end)| {
            let end = end?;
            (!taken.insert(end)).then_some((arc, end))
        });
        let number = usize::from(tag.instruction);
        match (wrong, activity.instruction.code) {
            (Some((_, (to, _))), LEAVE) => {
                let enter = self.program.graph.enter(tag.left().1);
                enter.map_or(String::new(), |enter| {
                    dot::return_id(enter.into(), to.instruction)
                })
            }
            (Some((arc, _)), _) => dot::arc_id(number, arc),
            (None, _) => String::new(),
        }
    }

    /// The activities that are ever enabled, by place: at which position each is so first, and at which no more. One that the
    /// bound holds back for a time stands there several times.
    fn enabled(&self, choices: &[Choice]) -> String {
        let enabled = choices.iter().map(|choice| {
            let tags = choice.enabled.iter();
            tags.map(|tag| (*tag, String::new())).collect()
        });
        list(self.times(enabled).iter().map(|fields| object(fields)))
    }

    /// The activities that the bound ever holds back, likewise, and by what.
    fn held(&self, choices: &[Choice]) -> String {
        let held = choices.iter().map(|choice| {
            let held = choice.held.iter();
            held.map(|held| (held.tag, held.by_words(self.program)))
                .collect()
        });
        list(self.times(held).iter().map(|fields| object(fields)))
    }

    /// The activities that stand at positions, by place, each with the positions at which it does so with the same words.
    fn times(&self, positions: impl Iterator<Item = Vec<(Tag, String)>>) -> Vec<Fields> {
        let mut known: HashMap<Tag, Vec<(usize, usize, String)>> = HashMap::new();
        for (position, tags) in positions.enumerate() {
            for (tag, words) in tags {
                let times = known.entry(tag).or_default();
                match times.last_mut() {
                    Some((_, until, said)) if *until == position && *said == words => *until += 1,
                    _ => times.push((position, position + 1, words)),
                }
            }
        }
        let by_place = self.history.tokens.iter().map(|token| token.tag);
        let times = by_place.flat_map(|tag| {
            let times = known.remove(&tag).unwrap_or_default().into_iter();
            times.map(move |(since, until, words)| (tag, since, until, words))
        });
        let fields = times.map(|(tag, since, until, words)| {
            let mut fields = vec![
                ("name", string(&self.program.tag(&tag))),
                ("at", string(&self.drawing.instruction_id(tag.instruction))),
                ("since", since.to_string()),
                ("until", until.to_string()),
            ];
            fields.extend((!words.is_empty()).then(|| ("by", string(&words))));
            fields
        });
        fields.collect()
    }

    fn tokens(&self) -> String {
        let arcs = self.arcs();
        let states = self.states.tokens.iter();
        list(states.zip(arcs).map(|(changes, arc)| {
            let token = &changes[0].1;
            let tag = &token.tag;
            let name = self.program.port(tag, token.port);
            let key = format!(
                "{} {} {} {}",
                tag.path, tag.iteration, tag.instruction, token.port
            );
            object(&[
                ("name", string(&name)),
                ("key", string(&key)),
                ("at", string(&self.drawing.instruction_id(tag.instruction))),
                ("arc", string(&arc)),
                ("changes", token_changes(changes)),
            ])
        }))
    }

    /// The arc that each token came by, by place; inputs come first.
    fn arcs(&self) -> Vec<String> {
        let tokens = &self.history.tokens;
        let given = tokens[..self.history.given].iter().enumerate();
        // How a token of a saved state came there is not known.
        let inputs = given.map(|(number, t)| match self.is_carried_on {
            false => self.drawing.input_id(number, t.tag.instruction),
            true => String::new(),
        });
        let sent = self.history.firings.iter().flat_map(|firing| {
            let outputs = firing.outputs.clone();
            outputs.map(move |place| self.arc(firing, &tokens[place]))
        });
        inputs.chain(sent).collect()
    }

    /// The arc that an output of a firing went along. What leaves a call comes by the line of its ENTER.
    fn arc(&self, firing: &Firing, output: &Token) -> String {
        let graph = &self.program.graph;
        let number = firing.tag.instruction;
        let Some(instruction) = graph.get(number) else {
            return String::new();
        };
        let to = output.tag.instruction;
        if instruction.code == LEAVE {
            let enter = graph.enter(firing.tag.left().1);
            return enter.map_or(String::new(), |enter| dot::return_id(enter.into(), to));
        }
        let ends = |arc: &Destination| arc.instruction == to && arc.port == output.port;
        let side = match instruction.code {
            SWITCH => Some(self.side(firing)),
            _ => instruction.arcs().iter().position(ends),
        };
        side.map_or(String::new(), |side| dot::arc_id(number.into(), side))
    }

    /// The destination that a SWITCH sent to: its control says so, also where both are one port.
    fn side(&self, firing: &Firing) -> usize {
        let control = firing.operands.get(1);
        usize::from(control.is_some_and(|place| self.history.tokens[*place].value.low == 0))
    }

    fn cells(&self) -> String {
        list(self.states.cells.iter().map(|(number, changes)| {
            object(&[
                ("cell", number.to_string()),
                ("name", string(&self.program.cell(*number as i32))),
                ("changes", cell_changes(changes)),
            ])
        }))
    }
}

fn token_changes(changes: &Changes<Token>) -> String {
    let change = |(from, token): &(usize, Token)| {
        format!("[{from},\"{}\",{}]", token.state.word(), token.value)
    };
    list(changes.iter().map(change))
}

/// A cell that waits has the value 0, as in its record.
fn cell_changes(changes: &Changes<Cell>) -> String {
    let change = |(from, cell): &(usize, Cell)| match cell {
        Cell::Absent => format!("[{from},\"absent\",0]"),
        Cell::Waiting => format!("[{from},\"waiting\",0]"),
        Cell::Present(value) => format!("[{from},\"present\",{value}]"),
    };
    list(changes.iter().map(change))
}
