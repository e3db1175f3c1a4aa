//! A refused run explained: what was refused, by name, and what stood in the way.

use ttda::widths::{ARRAY, MOST_ARRAYS, MOST_INSTRUCTIONS, PICK};

use crate::activity::{Activity, Port};
use crate::answer::{count, Answer, Word};
use crate::arrays::Array;
use crate::diagnostics::Finding;
use crate::graph::STORE;
use crate::machine::{End, Sizes};
use crate::program::Program;
use crate::ranges::origins;
use crate::ranges::undecided::Undecided;
use crate::records::{self, State, Tag, Token, MOST_CELLS, MOST_RECORDS, TOKEN};
use crate::value::Value;
use crate::{forms, refusals, second_token};

/// The finding of a refused run; `None` for another one.
pub fn explain(program: &Program, end: &End, sizes: Sizes, order: &str) -> Option<Finding> {
    let Word::Refused(number) = end.answer.word else {
        return None;
    };
    let finding = if number == 18 || number == 20 {
        not_a_firing(number, &end.answer)
    } else if end.answer.refused_at_once() {
        at_once(program, number, &end.answer, sizes)
    } else {
        Refused::of(program, end, number, sizes)?.finding(order)
    };
    Some(finding.note(format!("`dayomlak explain {number}` says more")))
}

/// Which firing was refused, in a few words; `None` where none was.
pub fn which(program: &Program, end: &End) -> Option<String> {
    if !matches!(end.answer.word, Word::Refused(_)) || end.answer.refused_at_once() {
        return None;
    }
    let tokens = end.tokens();
    let tag = program.tag(&tokens.get(end.answer.place)?.tag);
    Some(format!("firing {}, of `{tag}`", end.answer.firings + 1))
}

fn not_a_firing(number: u16, answer: &Answer) -> Finding {
    let finding = Finding::error(format!("{}: {}", answer.words(), answer.counts()));
    let meaning = refusals::by_number(number).map_or("", |refusal| refusal.given_when);
    finding.note(meaning)
}

/// Refused before its inputs were written: the place is that of a graph record or of an input.
fn at_once(program: &Program, number: u16, answer: &Answer, sizes: Sizes) -> Finding {
    let place = answer.place;
    let finding = Finding::error(format!("{}, before the first firing", answer.words()));
    let meaning = refusals::by_number(number).map_or("", |refusal| refusal.given_when);
    if let (6 | 7, Some(advice)) = (number, forms::advice(&program.files.inputs, &forms::TOKENS)) {
        return finding.note(format!("look at the inputs: {advice}"));
    }
    match number {
        2..=5 => finding
            .at(program.span(place), format!("instruction {place}"))
            .note(meaning),
        6 => finding
            .at(program.input_span(place), format!("input {place}"))
            .note(meaning),
        8 => finding
            .at(
                program.input_span(place),
                "the first input that does not fit",
            )
            .note(format!(
                "the ledger has {}",
                count(sizes.capacity, "record")
            )),
        9 => second_input(program, place, finding),
        23 => finding
            .at(
                program.input_span(place),
                "its low end is above its high end",
            )
            .note(meaning),
        22 => bad_array(program, place, sizes, finding),
        // Which condition is broken, only the saved state says.
        24 => finding,
        1 if program.files.graph.is_empty() => finding.note(program.emptiness()),
        1 if program.graph.instructions.len() > MOST_INSTRUCTIONS => {
            too_many(program, finding).note(meaning)
        }
        7 => finding.note(bad_store(program).unwrap_or(meaning.to_string())),
        _ => finding.note(meaning),
    }
}

/// More instructions than a graph may have: how many, and the first that is too many.
fn too_many(program: &Program, finding: Finding) -> Finding {
    let number = program.graph.instructions.len();
    finding
        .at(
            program.span(MOST_INSTRUCTIONS),
            format!(
                "instruction number {}, counted from 1",
                MOST_INSTRUCTIONS + 1
            ),
        )
        .note(format!(
            "there are {number} instructions, and {MOST_INSTRUCTIONS} is the most"
        ))
}

/// The table of arrays, or an instruction that names none of it; the place is that of the instruction.
fn bad_array(program: &Program, place: usize, sizes: Sizes, finding: Finding) -> Finding {
    if let Some((array, why)) = bad_table(program, sizes) {
        let ends = program.arrays.all().iter().map(Array::end);
        let needed = ends
            .max()
            .filter(|end| array.is_some() && *end <= MOST_CELLS);
        let finding = match array.and_then(|array| array.span.clone()) {
            Some(span) => finding.at(Some(span), why),
            None => finding.note(why),
        };
        return match needed {
            Some(cells) => finding.note(format!("--cells {cells} is enough for all arrays")),
            None => finding,
        };
    }
    let instruction = &program.graph.instructions[place];
    let (number, arrays) = (instruction.constant, program.arrays.all().len());
    let words = match arrays {
        0 => format!("it names array {number}, and there is no array"),
        1 => format!("it names array {number}, and 1 is the only one"),
        _ => format!("it names array {number}, and the arrays are 1 to {arrays}"),
    };
    finding.at(program.span(place), words).note(
        "an array is named by a line such as `array a = 8`, and then by `FETCH a` and `STORE a`",
    )
}

/// What is wrong with the table of arrays, and which of them it is about; `None` for a table that is taken.
pub fn bad_table(program: &Program, sizes: Sizes) -> Option<(Option<&Array>, String)> {
    let bytes = program.files.arrays.len();
    if let Some(why) = bad_records("arrays", bytes, ARRAY, MOST_ARRAYS) {
        return Some((None, why));
    }
    let mut arrays = program.arrays.all().iter();
    let past = arrays.find(|array| array.end() > sizes.cells)?;
    let cells = match sizes.cells {
        0 => "there are no cells".to_string(),
        1 => "there is one cell, 0".to_string(),
        cells => format!("the cells are 0 to {}", cells - 1),
    };
    Some((Some(past), format!("{}, and {cells}", past.cells())))
}

/// Which of a program's files is refused by 7, and why.
pub fn bad_store(program: &Program) -> Option<String> {
    let bytes = program.files.inputs.len();
    bad_records("inputs", bytes, TOKEN, MOST_RECORDS).or_else(|| bad_picks(program))
}

/// Why no run takes the picks of a program, if none does.
pub fn bad_picks(program: &Program) -> Option<String> {
    bad_records("picks", program.files.picks.len(), PICK, MOST_RECORDS)
}

fn bad_records(name: &str, bytes: usize, width: usize, most: usize) -> Option<String> {
    let (number, rest) = (bytes / width, bytes % width);
    if rest != 0 {
        let bytes = count(bytes, "byte");
        return Some(format!(
            "the {name} have {bytes}, no whole number of {name}, which have {width} each"
        ));
    }
    (number > most).then(|| format!("there are {number} {name}, and {most} is the most"))
}

/// Two inputs to one port; the place is that of the second.
fn second_input(program: &Program, place: usize, finding: Finding) -> Finding {
    let inputs = records::tokens(&program.files.inputs);
    let end = |token: &Token| (token.tag, token.port);
    let same = |token: &Token| inputs.get(place).map(end) == Some(end(token));
    let first = inputs.iter().position(same).unwrap_or(place);
    finding
        .at(program.input_span(place), "a second token for this port")
        .also(program.input_span(first), "the first one")
        .note("two inputs end at one port, and it takes one token; let each have a port of its own")
}

/// A refused firing.
struct Refused<'p> {
    program: &'p Program,
    number: u16,
    answer: Answer,
    sizes: Sizes,
    activity: Activity<'p>,
    tokens: Vec<Token>,
}

impl<'p> Refused<'p> {
    fn of(program: &'p Program, end: &End, number: u16, sizes: Sizes) -> Option<Refused<'p>> {
        let tokens = end.tokens();
        let tag = tokens.get(end.answer.place)?.tag;
        Some(Refused {
            program,
            number,
            answer: end.answer,
            sizes,
            activity: Activity::of(program, &tokens, tag)?,
            tokens,
        })
    }

    fn finding(&self, order: &str) -> Finding {
        let words = self.answer.words();
        let (firing, tag) = (
            self.answer.firings + 1,
            self.program.tag(&self.activity.tag),
        );
        let finding = Finding::error(format!("{words}, in firing {firing}, of `{tag}`"));
        let operands = self.operand_words();
        self.reason(finding)
            .note(format!(
                "{} with {operands}",
                self.activity.instruction.words()
            ))
            .note(format!("before it: {}, {order}", self.answer.counts()))
    }

    /// The array whose element it touches, if it names one.
    fn array(&self) -> Option<&Array> {
        self.activity.instruction.array.as_ref()
    }

    /// What the table says to do, or the part of it that fits.
    fn what_to_do(&self) -> &'static str {
        match self.number {
            10 if self.array().is_some() => {
                "Look where the index comes from; elements are counted from 1."
            }
            10 => {
                "Look where the number comes from; --cells gives up to 1,024 cells, counted from 0."
            }
            12 if self.is_for_a_range() => {
                "Every outcome of the operands' ranges counts: narrow the inputs that they come from."
            }
            12 if self.divides_by_zero() => "Guard the division by a SWITCH.",
            12 => "Values are -2,147,483,648 to 2,147,483,647; look where the operands come from.",
            number => refusals::by_number(number).map_or("", |refusal| refusal.what_to_do),
        }
    }

    fn operand_words(&self) -> String {
        let words: Vec<String> = self
            .activity
            .operands
            .iter()
            .enumerate()
            .map(|(port, value)| format!("{value} on port {port}"))
            .collect();
        words.join(" and ")
    }

    /// The place in the text, what stood in the way there, and what to do.
    fn reason(&self, finding: Finding) -> Finding {
        if self.number == 9 {
            return second_token::explain(finding, &self.activity, &self.tokens);
        }
        if self.number == 23 {
            let undecided = Undecided::of(&self.activity, &self.tokens);
            return undecided.explain(finding).note(self.what_to_do());
        }
        let here = self.program.span(self.activity.tag.instruction.into());
        let finding = finding.at(here, self.obstacle()).note(self.what_to_do());
        match (self.number, self.other_writer(), self.array()) {
            (_, Some(writer), _) => {
                finding.also(self.program.span(writer.into()), "the first write")
            }
            (10, _, Some(array)) => finding.also(array.span.clone(), array.elements()),
            (12, _, _) if self.is_for_a_range() => finding.note(self.origins()),
            _ => finding,
        }
    }

    /// The instruction that made the first of two writes, if it is another one.
    fn other_writer(&self) -> Option<u16> {
        let operand = self.activity.operands.first();
        let operand = operand.filter(|_| self.number == 11)?;
        let cell = self.activity.instruction.cell(operand.low)?;
        let writer = self.writer(cell)?.instruction;
        (writer != self.activity.tag.instruction).then_some(writer)
    }

    /// What stood in the way.
    fn obstacle(&self) -> String {
        // Cells and indices are single values: 23 refuses others.
        let first = self.activity.operands.first().map_or(0, |value| value.low);
        match self.number {
            8 => self.full(),
            10 => self.no_cell(first),
            11 => self.second_write(first),
            12 => self.out_of_range(),
            13 => "the next iteration would be 256, and 255 is the last".to_string(),
            14 => {
                let calls = count(self.activity.tag.calls().len(), "call");
                format!("{calls} deep already, and that is the most")
            }
            17 => self.no_return(),
            _ => String::new(),
        }
    }

    fn full(&self) -> String {
        let needed = count(self.activity.instruction.outputs(), "token");
        let (used, capacity) = (self.answer.tokens, self.sizes.capacity);
        format!("it sends {needed}, and {used} of {capacity} records are used")
    }

    fn no_cell(&self, cell: i32) -> String {
        if let Some(array) = self.array() {
            return array.lacks(cell);
        }
        match self.sizes.cells {
            0 => format!("there is no cell {cell}: there are no cells"),
            cells => format!("there is no cell {cell}: the cells are 0 to {}", cells - 1),
        }
    }

    fn second_write(&self, operand: i32) -> String {
        let cell = self.activity.instruction.cell(operand).unwrap_or(operand);
        let name = self.program.touched(self.activity.tag.instruction, cell);
        match self.writer(cell) {
            Some(writer) => format!("{name} was written by `{}`", self.program.tag(&writer)),
            None => format!("{name} has a value already"),
        }
    }

    /// The STORE that wrote a cell.
    fn writer(&self, cell: i32) -> Option<Tag> {
        let graph = &self.program.graph;
        let wrote = |t: &&Token| {
            let store = graph.get(t.tag.instruction).filter(|i| i.code == STORE);
            let written = store.and_then(|store| store.cell(t.value.low));
            t.state == State::Spent && t.port == 0 && written == Some(cell)
        };
        self.tokens.iter().find(wrote).map(|t| t.tag)
    }

    fn out_of_range(&self) -> String {
        match self.divisor().filter(|divisor| divisor.contains(0)) {
            Some(divisor) if divisor.is_single() => "the divisor is 0".to_string(),
            Some(divisor) => format!("the divisor may be 0: it is {divisor}"),
            None if self.is_for_a_range() => "a result may be past 32 signed bits".to_string(),
            None => "the result does not fit in 32 signed bits".to_string(),
        }
    }

    /// Whether it is refused for what its operands may be, and not for what they are.
    fn is_for_a_range(&self) -> bool {
        let mut operands = self.activity.operands.iter();
        let has_range = operands.any(|operand| !operand.is_single());
        has_range && self.divisor() != Some(Value::of(0))
    }

    /// The inputs that the operands' ranges come from.
    fn origins(&self) -> String {
        let tag = self.activity.tag;
        let ports: Vec<Port> = (0..self.activity.instruction.operands())
            .map(|port| (tag, port))
            .collect();
        let inputs = origins::of(self.program, &self.tokens, &ports);
        format!(
            "the ranges come from {}",
            origins::words(self.program, &inputs)
        )
    }

    fn divisor(&self) -> Option<Value> {
        match self.activity.instruction.code {
            19 | 20 => self.activity.operands.get(1).copied(),
            35 | 36 => Some(Value::of(self.activity.instruction.constant)),
            _ => None,
        }
    }

    fn divides_by_zero(&self) -> bool {
        self.divisor().is_some_and(|divisor| divisor.contains(0))
    }

    fn no_return(&self) -> String {
        let last = self.program.graph.instructions.len() as i64 - 1;
        format!(
            "the return instruction plus {} is past instruction {last}, the last",
            self.activity.instruction.constant
        )
    }
}
