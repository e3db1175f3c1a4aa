//! From text to files.

use layout::{widths, STORE};

use crate::arrays;
use crate::errors::{Error, Errors, Fault, Span};
use crate::names::{too_many, Names};
use crate::operations::Constant;
use crate::parse::parse_line;
use crate::ranges::{RangedInput, Value};
use crate::statement::{Line, Statement, Target, Typed};
use crate::words::{order_words, span_of, words, Word};
use crate::Files;

/// Where a statement stands in the text. Line and column are counted from 1, the
/// column in characters.
#[derive(Clone, Debug, PartialEq, Eq)]
pub struct Place {
    pub line: usize,
    pub column: usize,
    pub span: Span,
}

/// Name and place of an instruction.
#[derive(Clone, Debug, PartialEq, Eq)]
pub struct Instruction {
    /// The typed name; `#` and the number where there is none, and `cell 3` or `a[3]`
    /// for the STORE of a line that loads a cell or an element.
    pub name: String,
    pub place: Place,
    /// The targets, in the order of the destinations.
    pub arcs: Vec<Span>,
}

/// A named array: its elements, counted from 1, are the cells from the first on.
#[derive(Clone, Debug, PartialEq, Eq)]
pub struct Array {
    pub name: String,
    pub first: u16,
    pub length: u16,
    pub place: Place,
}

/// The files of a text, and where their records come from.
#[derive(Clone, Debug, Default, PartialEq, Eq)]
pub struct Program {
    pub files: Files,
    /// In the order of their numbers, which count from 1.
    pub arrays: Vec<Array>,
    pub instructions: Vec<Instruction>,
    /// The place of each input.
    pub inputs: Vec<Place>,
    /// The inputs that are typed as ranges, in their order. The files have the low end of each.
    pub ranges: Vec<RangedInput>,
    /// The activities of an order. Which picks they are, only a run shows.
    pub order: Vec<Named>,
}

/// The name of an activity, as answers have it, and where it stands in the text.
#[derive(Clone, Debug, PartialEq, Eq)]
pub struct Named {
    pub name: String,
    pub span: Span,
}

/// Assembles a text. Names may be used before they are defined. A text without
/// `raw` and with 1 to 256 instructions gives a graph and a table of arrays that
/// pass the check, with 1,024 cells. An order by names is refused: files have
/// picks, which only a run shows. So is a range: files have single values.
pub fn assemble(text: &str) -> Result<Files, Errors> {
    let program = read(text)?;
    let mut errors: Vec<Error> = program
        .ranges
        .iter()
        .map(|range| range.fault().on_line(line_of(text, &range.span)))
        .collect();
    if let Some(first) = program.order.first() {
        let fault = Fault::new(first.span.clone(), "the picks of an order are not known");
        let hint = "`dayomlak asm` fires the graph to find them";
        errors.push(fault.hint(hint).on_line(line_of(text, &first.span)));
    }
    if errors.is_empty() {
        return Ok(program.files);
    }
    errors.sort_by_key(|error| error.span.start);
    Err(Errors(errors))
}

/// Reads an order that stands in a file of its own: a name for each firing.
pub fn read_order(text: &str) -> Result<Vec<Named>, Errors> {
    let (mut errors, mut order) = (Vec::new(), Vec::new());
    for (number, offset, line) in numbered(text) {
        let mut faults = Vec::new();
        order.extend(named(&order_words(line, offset, &mut faults)));
        errors.extend(faults.into_iter().map(|fault| fault.on_line(number)));
    }
    match errors.is_empty() {
        true => Ok(order),
        false => Err(Errors(errors)),
    }
}

/// Assembles a text and keeps where everything stands. All faults are found.
pub fn read(text: &str) -> Result<Program, Errors> {
    let mut errors = Vec::new();
    let lines = parse(text, &mut errors);
    if let Some(error) = too_many(&lines) {
        return Err(Errors(vec![error]));
    }
    let mut names = Names::of(&lines, &mut errors);
    let mut program = Program {
        arrays: arrays::of(&lines, &mut errors),
        ..Program::default()
    };
    let records = program
        .arrays
        .iter()
        .flat_map(|array| layout::array(array.first, array.length));
    program.files.arrays = records.collect();
    for line in &lines {
        let faults = program.write(&mut names, line);
        errors.extend(faults.into_iter().map(|fault| fault.on_line(line.number)));
    }
    errors.extend(program.two_orders(text));
    if errors.is_empty() {
        return Ok(program);
    }
    errors.sort_by_key(|error| error.span.start);
    Err(Errors(errors))
}

/// The lines with their numbers and where they begin. A byte order mark is skipped.
fn numbered(text: &str) -> impl Iterator<Item = (usize, usize, &str)> {
    let body = text.strip_prefix('\u{feff}').unwrap_or(text);
    let mut next = text.len() - body.len();
    (1..)
        .zip(body.split_inclusive('\n'))
        .map(move |(number, line)| {
            let offset = next;
            next += line.len();
            (number, offset, line)
        })
}

/// The line that a part of the text begins in.
fn line_of(text: &str, span: &Span) -> usize {
    text[..span.start].matches('\n').count() + 1
}

/// The names of activities. Only that of a line that loads a cell has a space, `cell 3[0]`.
fn named(words: &[Word]) -> Vec<Named> {
    let mut names = Vec::new();
    let mut rest = words;
    while let Some((first, behind)) = rest.split_first() {
        let length = if first.text == "cell" && !behind.is_empty() {
            2
        } else {
            1
        };
        let texts: Vec<&str> = rest[..length].iter().map(|word| word.text).collect();
        let (name, span) = (texts.join(" "), span_of(&rest[..length]));
        names.push(Named { name, span });
        rest = &rest[length..];
    }
    names
}

/// The lines with statements.
fn parse<'t>(text: &'t str, errors: &mut Vec<Error>) -> Vec<Line<'t>> {
    let mut lines = Vec::new();
    for (number, offset, line) in numbered(text) {
        let mut faults = Vec::new();
        let words = words(line, offset, &mut faults);
        if let Some(mut parsed) = parse_line(number, &words, &mut faults) {
            let before = &line[..parsed.span.start - offset];
            parsed.column = before.chars().count() + 1;
            lines.push(parsed);
        }
        errors.extend(faults.into_iter().map(|fault| fault.on_line(number)));
    }
    lines
}

impl Program {
    /// Appends the records of one line; answers what is wrong with it.
    fn write(&mut self, names: &mut Names, line: &Line) -> Vec<Fault> {
        match &line.statement {
            Statement::Typed(typed) => return self.typed(names, line, typed),
            Statement::Raw(record) => self.instruction(line, *record),
            Statement::Input(target, value) => match names.resolve(target) {
                Ok((number, port)) => self.valued(line, (number, port), value),
                Err(fault) => return vec![fault],
            },
            Statement::RawInput(record) => self.input(line, *record),
            Statement::Cell(cell, value) => self.load(line, 0, *cell, value),
            Statement::Element(element, value) => {
                let array = names.element(element);
                self.load(line, *array.as_ref().unwrap_or(&0), element.index, value);
                return array.err().into_iter().collect();
            }
            // Their table is made before the instructions.
            Statement::Array(..) | Statement::RawArray(..) | Statement::FaultyArray(_) => {}
            Statement::Picks(picks) => {
                let bytes = picks.iter().flat_map(|pick| pick.to_le_bytes());
                self.files.picks.extend(bytes);
            }
            Statement::Order(words) => self.order.extend(named(words)),
            Statement::Faulty(targets) => return resolve_all(names, targets).1,
            Statement::FaultyInstruction(targets) => {
                self.instruction(line, [0; widths::INSTRUCTION]);
                return resolve_all(names, targets).1;
            }
        }
        Vec::new()
    }

    /// The fault of a text that has both picks and an order.
    fn two_orders(&self, text: &str) -> Option<Error> {
        let first = self
            .order
            .first()
            .filter(|_| !self.files.picks.is_empty())?;
        let fault = Fault::new(first.span.clone(), "an order beside picks");
        let fault = fault.hint("either of them says what fires: leave one out");
        Some(fault.on_line(line_of(text, &first.span)))
    }

    /// A STORE to an array, or to the whole store by 0, and the two inputs that fire it.
    fn load(&mut self, line: &Line, array: i32, index: i32, value: &Value) {
        // The number fits: Names has counted the instructions.
        let store = self.instructions.len() as u16;
        self.instruction(line, layout::instruction(STORE, &[], array));
        self.input(line, layout::input(store, 0, index));
        self.valued(line, (store, 1), value);
    }

    fn typed(&mut self, names: &mut Names, line: &Line, typed: &Typed) -> Vec<Fault> {
        let (ends, mut faults) = resolve_all(names, &typed.arcs);
        let array = typed
            .array
            .map(|name| names.array(name, typed.operation.name));
        let (constant, fault) = match array.transpose() {
            Ok(array) => (array.unwrap_or(typed.constant), None),
            Err(fault) => (0, Some(fault)),
        };
        faults.extend(fault);
        if typed.operation.constant == Constant::Site && faults.is_empty() {
            let back = ends[1].0;
            faults.extend(names.check_return(typed.constant, back, line).err());
        }
        let record = layout::instruction(typed.operation.code, &ends, constant);
        self.instruction(line, record);
        faults
    }

    fn instruction(&mut self, line: &Line, record: [u8; widths::INSTRUCTION]) {
        let arcs = match &line.statement {
            Statement::Typed(typed) => typed.arcs.iter().map(|arc| arc.word.span()).collect(),
            _ => Vec::new(),
        };
        self.instructions.push(Instruction {
            name: self.name(line),
            place: line.place(),
            arcs,
        });
        self.files.graph.extend(record);
    }

    fn name(&self, line: &Line) -> String {
        match (&line.statement, line.name) {
            (Statement::Cell(cell, _), _) => format!("cell {cell}"),
            (Statement::Element(element, _), _) => element.word.text.to_string(),
            (_, Some(name)) => name.text.to_string(),
            (_, None) => format!("#{}", self.instructions.len()),
        }
    }

    /// An input with its value, or with the low end of its range.
    fn valued(&mut self, line: &Line, (number, port): (u16, u8), value: &Value) {
        self.ranges.extend(value.ranged(self.inputs.len()));
        self.input(line, layout::input(number, port, value.low()));
    }

    fn input(&mut self, line: &Line, record: [u8; widths::TOKEN]) {
        self.inputs.push(line.place());
        self.files.inputs.extend(record);
    }
}

/// The ends of some arcs, and the faults of those that have none.
fn resolve_all(names: &Names, arcs: &[Target]) -> (Vec<(u16, u8)>, Vec<Fault>) {
    let mut ends = Vec::new();
    let mut faults = Vec::new();
    for arc in arcs {
        match names.resolve(arc) {
            Ok(end) => ends.push(end),
            Err(fault) => faults.push(fault),
        }
    }
    (ends, faults)
}
