//! The names of a text and what they stand for.

use std::collections::HashMap;

use layout::fields::{array, instruction};
use layout::widths::MOST_INSTRUCTIONS;
use layout::{unsigned, STORE};

use crate::errors::{Error, Fault};
use crate::hints;
use crate::operations::operand_count;
use crate::statement::{Element, Line, Statement, Target};
use crate::words::Word;

/// Instruction numbers have 16 bits. A graph of fewer that is longer than a graph may be can be assembled, for the engine to refuse it.
const MOST_NUMBERS: usize = 65_536;

/// The fault of a text whose instructions have no numbers: how many they are, at the first that a graph cannot have.
pub fn too_many(lines: &[Line]) -> Option<Error> {
    let is_instruction = |line: &&Line| {
        use Statement::{Cell, Element, FaultyInstruction, Raw, Typed};
        matches!(
            line.statement,
            Typed(_) | Raw(_) | Cell(..) | Element(..) | FaultyInstruction(_)
        )
    };
    let count = lines.iter().filter(is_instruction).count();
    let first = lines.iter().filter(is_instruction).nth(MOST_INSTRUCTIONS)?;
    let text = format!("there are {count} instructions, and {MOST_INSTRUCTIONS} is the most");
    let fault = Fault::new(first.span.clone(), text).hint("the first that is too many");
    (count > MOST_NUMBERS).then(|| fault.on_line(first.number))
}

/// What a name stands for.
#[derive(Clone, Copy)]
enum Meaning {
    /// An instruction by its number.
    Instruction(u16),
    /// An array by its number, counted from 1, and its length, `None` for one with a fault.
    Array(i32, Option<u16>),
}

/// Instructions and arrays by name, each with its line, the operand counts by
/// number, and the return of every site so far.
pub struct Names<'t> {
    meanings: HashMap<&'t str, (Meaning, usize)>,
    /// `None` for an instruction with a fault.
    operands: Vec<Option<u8>>,
    arrays: i32,
    returns: HashMap<i32, (u16, usize)>,
}

impl<'t> Names<'t> {
    /// The names of the lines, as far as instructions have numbers.
    pub fn of(lines: &[Line<'t>], errors: &mut Vec<Error>) -> Names<'t> {
        let mut names = Names {
            meanings: HashMap::new(),
            operands: Vec::new(),
            arrays: 0,
            returns: HashMap::new(),
        };
        for line in lines {
            if let Err(fault) = names.add(line) {
                errors.push(fault.on_line(line.number));
            }
        }
        names
    }

    /// The name of a line, if it is an instruction's or an array's.
    fn add(&mut self, line: &Line<'t>) -> Result<(), Fault> {
        let operands = match &line.statement {
            Statement::Typed(typed) => Some(typed.operation.operands),
            Statement::Raw(record) => Some(operand_count(record[instruction::CODE])),
            Statement::Cell(..) | Statement::Element(..) => Some(operand_count(STORE)),
            Statement::FaultyInstruction(_) => None,
            Statement::Array(name, extent) => {
                return self.add_array(*name, Some(extent.length), line)
            }
            Statement::RawArray(name, record) => {
                let length = unsigned(record, array::LENGTH);
                return self.add_array(*name, Some(length), line);
            }
            Statement::FaultyArray(name) => return self.add_array(*name, None, line),
            _ => return Ok(()),
        };
        let number = self.operands.len() as u16;
        self.operands.push(operands);
        match line.name {
            Some(name) => self.define(name, Meaning::Instruction(number), line),
            None => Ok(()),
        }
    }

    fn add_array(
        &mut self,
        name: Word<'t>,
        length: Option<u16>,
        line: &Line<'t>,
    ) -> Result<(), Fault> {
        self.arrays += 1;
        self.define(name, Meaning::Array(self.arrays, length), line)
    }

    /// No array has the name of an instruction: answers have both, as `a[3]`.
    fn define(&mut self, name: Word<'t>, meaning: Meaning, line: &Line) -> Result<(), Fault> {
        match self.meanings.insert(name.text, (meaning, line.number)) {
            None => Ok(()),
            Some((_, first)) => {
                let text = format!("`{}` is defined twice", name.text);
                Err(Fault::new(name.span(), text).hint(format!("the first is in line {first}")))
            }
        }
    }

    fn meaning(&self, name: &str) -> Option<Meaning> {
        self.meanings.get(name).map(|(meaning, _)| *meaning)
    }

    /// The instruction and port of a target.
    pub fn resolve(&self, target: &Target) -> Result<(u16, u8), Fault> {
        let name = target.name.text;
        let number = match self.meaning(name) {
            Some(Meaning::Instruction(number)) => number,
            Some(Meaning::Array(..)) => {
                let text = format!("`{name}` is an array, and no instruction");
                let fault = Fault::new(target.name.span(), text);
                return Err(fault.hint(format!(
                    "`STORE {name}` writes an element, `FETCH {name}` reads one"
                )));
            }
            None => {
                let fault = Fault::new(target.name.span(), format!("`{name}` is not defined"));
                return Err(fault.maybe(self.near(name, |m| matches!(m, Meaning::Instruction(_)))));
            }
        };
        match self.operands[usize::from(number)] {
            Some(operands) if target.port >= operands => {
                let port = target.port;
                let text = format!("`{name}` has no port {port}, its operand count is {operands}");
                let fault = Fault::new(target.word.span(), text);
                Err(fault.maybe((operands > 0).then(|| ports(name, operands))))
            }
            _ => Ok((number, target.port)),
        }
    }

    /// The names of a kind that are near to a word. Among more names than a graph can have, likeness takes long to find and
    /// says little.
    fn near(&self, word: &str, is_kind: impl Fn(&Meaning) -> bool) -> Option<String> {
        let kind = self
            .meanings
            .iter()
            .filter(|(_, (meaning, _))| is_kind(meaning));
        let names: Vec<&str> = kind.map(|(name, _)| *name).collect();
        match names.len() <= MOST_INSTRUCTIONS {
            true => hints::name(word, names.into_iter()),
            false => None,
        }
    }

    /// The number of an array that an operation names.
    pub fn array(&self, name: Word, operation: &str) -> Result<i32, Fault> {
        let text = name.text;
        match self.meaning(text) {
            Some(Meaning::Array(number, _)) => Ok(number),
            Some(Meaning::Instruction(_)) => {
                let fault = Fault::new(
                    name.span(),
                    format!("`{text}` is an instruction, and no array"),
                );
                Err(fault.hint(hints::missing_arrow(operation, &[text])))
            }
            None => Err(self.no_array(name)),
        }
    }

    fn no_array(&self, name: Word) -> Fault {
        let text = name.text;
        let near = self.near(text, |meaning| matches!(meaning, Meaning::Array(..)));
        let hint =
            near.unwrap_or_else(|| format!("a line `array {text} = 8` makes one of 8 elements"));
        Fault::new(name.span(), format!("there is no array `{text}`")).hint(hint)
    }

    /// The array of an element by its number; the index is one of its indices.
    pub fn element(&self, element: &Element) -> Result<i32, Fault> {
        let (name, index) = (element.array.text, element.index);
        let (number, length) = match self.meaning(name) {
            Some(Meaning::Array(number, Some(length))) => (number, i32::from(length)),
            // What is wrong with the array is said where it is defined.
            Some(Meaning::Array(number, None)) => return Ok(number),
            Some(Meaning::Instruction(_)) => {
                let text = format!("`{name}` is an instruction, and no array");
                let fault = Fault::new(element.array.span(), text);
                return Err(fault.hint(format!("an input is `input {name} = value`")));
            }
            None => return Err(self.no_array(element.array)),
        };
        if (1..=length).contains(&index) {
            return Ok(number);
        }
        let s = if length == 1 { "" } else { "s" };
        let text = format!("`{name}` has {length} element{s}; index {index}");
        let hint = match length {
            0 => "an empty array has nothing to load".to_string(),
            1 => format!("its only element is `{name}[1]`"),
            _ => format!("its elements are `{name}[1]` to `{name}[{length}]`"),
        };
        Err(Fault::new(element.word.span(), text).hint(hint))
    }

    /// All ENTERs of one site have the same return instruction.
    pub fn check_return(&mut self, site: i32, back: u16, line: &Line) -> Result<(), Fault> {
        let (before, first) = *self.returns.entry(site).or_insert((back, line.number));
        if before == back {
            return Ok(());
        }
        let text = format!("an earlier ENTER of site {site} has another return");
        let hint =
            format!("it is in line {first}; a site has one return, another call another site");
        Err(Fault::new(line.span.clone(), text).hint(hint))
    }
}

fn ports(name: &str, operands: u8) -> String {
    match operands {
        1 => format!("its only port is `{name}.0`"),
        _ => format!("its ports are `{name}.0` and `{name}.1`"),
    }
}
