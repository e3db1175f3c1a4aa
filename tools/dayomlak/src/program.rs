//! What a user gives: a typed graph, a folder with the files of one, or `-` for standard input.

use std::fs;
use std::io::{self, Read};
use std::path::{Path, PathBuf};

use asm::{disassemble, read, Files, Named, Place, RangedInput, Span};
use ttda::layout::fields::token;
use ttda::widths::TOKEN;

use crate::arrays::Arrays;
use crate::diagnostics::Finding;
use crate::failure::Failure;
use crate::graph::Graph;
use crate::machine::{Machine, Sizes};
use crate::orders::Order;
use crate::records::Tag;
use crate::sources::Source;
use crate::{log_file, named, orders, ranges, saved};

/// The files of a folder.
const FILES: [&str; 4] = ["graph", "arrays", "inputs", "picks"];

/// How messages call what comes by `-`.
pub const STANDARD_INPUT: &str = "standard input";

pub struct Program {
    /// How messages and pictures call it.
    pub label: String,
    /// How messages call its text, by line and column.
    pub text_label: String,
    /// As typed, or disassembled; empty where files have no text.
    pub text: String,
    pub files: Files,
    pub graph: Graph,
    pub arrays: Arrays,
    /// The files that it was read from.
    pub sources: Vec<Source>,
    /// Its order by names, which its picks come from; empty where it has none.
    pub order: Vec<Named>,
    /// The inputs that are known only between limits; its files have the low end of each. Only `dayomlak ranges` has any.
    pub ranges: Vec<RangedInput>,
    instructions: Vec<asm::Instruction>,
    inputs: Vec<Place>,
}

impl Program {
    /// Loads what a command is given.
    pub fn load(file: &str) -> Result<Program, Failure> {
        Program::load_by(file, Program::typed)
    }

    /// Loads what a command is given that takes ranges.
    pub fn load_ranges(file: &str) -> Result<Program, Failure> {
        Program::load_by(file, Program::typed_ranges)
    }

    fn load_by(
        file: &str,
        typed: fn(&str, Vec<u8>) -> Result<Program, Failure>,
    ) -> Result<Program, Failure> {
        let path = Path::new(file);
        if path.is_dir() {
            let program = Program::folder(file, files(path)?);
            let source = |name: &&str| {
                let words = format!("the file `{name}` of the graph");
                Source::named(&words, &path.join(name))
            };
            return Ok(program.read_from(FILES.iter().filter_map(source)));
        }
        let (bytes, source) = bytes(file, "the graph itself")?;
        Ok(typed(label(file), bytes)?.read_from(source))
    }

    fn read_from(mut self, sources: impl IntoIterator<Item = Source>) -> Program {
        self.sources.extend(sources);
        self
    }

    /// A typed graph, whose inputs are single values.
    pub fn typed(label: &str, bytes: Vec<u8>) -> Result<Program, Failure> {
        Program::parsed(label, bytes)?.single_values()?.ordered()
    }

    /// A typed graph, whose inputs may be ranges.
    pub fn typed_ranges(label: &str, bytes: Vec<u8>) -> Result<Program, Failure> {
        Program::parsed(label, bytes)?.ordered()
    }

    /// A typed graph, without the picks of its order.
    fn parsed(label: &str, bytes: Vec<u8>) -> Result<Program, Failure> {
        if bytes.starts_with(log_file::START.as_bytes()) {
            let text = format!("{label} is a log\n  `dayomlak replay` takes it behind its graph");
            return Err(Failure::Wrong(text));
        }
        if saved::is_saved(&bytes) {
            return Err(Failure::SavedState(label.to_string()));
        }
        let text = text(label, bytes)?;
        if let Some(finding) = lone_return(&text) {
            return Err(Failure::faulty(label, text, vec![finding]));
        }
        match read(&text) {
            Ok(typed) => Ok(Program::new(label, text, typed)),
            Err(errors) => {
                let findings = errors.0.into_iter().map(Finding::from).collect();
                Err(Failure::faulty(label, text, findings))
            }
        }
    }

    /// Refuses ranges: what is not `dayomlak ranges` would show the run of their low ends alone.
    fn single_values(self) -> Result<Program, Failure> {
        let findings = ranges::findings(&self);
        match findings.is_empty() {
            true => Ok(self),
            false => Err(Failure::faulty(&self.label, self.text, findings)),
        }
    }

    /// With the picks of its order. Where the largest buffers refuse nothing, smaller ones refuse a firing at most, and
    /// behind that one no pick is used.
    fn ordered(mut self) -> Result<Program, Failure> {
        if !self.order.is_empty() {
            let machine = Machine::new(&self, Sizes::default()).ranged(!self.ranges.is_empty());
            let picks = named::picks(&machine, &self.label, &self.text, &self.order)?;
            self.files.picks = orders::bytes(picks.into_iter());
        }
        Ok(self)
    }

    /// The files have a text if they are in whole records; without one there are no names.
    fn folder(label: &str, files: Files) -> Program {
        let text = disassemble(&files).unwrap_or_default();
        let typed = read(&text).unwrap_or_default();
        Program::new(label, text, asm::Program { files, ..typed })
    }

    /// A program of a text, whose names and places are known.
    fn new(label: &str, text: String, typed: asm::Program) -> Program {
        let arrays = Arrays::of(&typed.files.arrays, &typed.arrays);
        Program {
            label: label.to_string(),
            text_label: label.to_string(),
            text,
            graph: Graph::of(&typed.files.graph, &arrays),
            arrays,
            files: typed.files,
            sources: Vec::new(),
            order: typed.order,
            ranges: typed.ranges,
            instructions: typed.instructions,
            inputs: typed.inputs,
        }
    }

    /// The files that a run in an order is read from.
    pub fn sources_with(&self, order: &Order) -> Vec<Source> {
        self.sources.iter().cloned().chain(order.source()).collect()
    }

    /// Why there is no instruction, and what was probably meant.
    pub fn emptiness(&self) -> String {
        let folder = Path::new(&self.label);
        if !folder.is_dir() {
            return "there is no instruction".to_string();
        }
        let empty = "the folder has no file `graph`, or an empty one";
        match typed_graph(folder) {
            Some(file) => format!("{empty}; did you mean {}?", file.display()),
            None => empty.to_string(),
        }
    }

    /// An instruction's name; its number where it has none.
    pub fn name(&self, instruction: u16) -> String {
        match self.instructions.get(usize::from(instruction)) {
            Some(instruction) => instruction.name.clone(),
            None => format!("#{instruction}"),
        }
    }

    /// Whether an instruction is the STORE of a line such as `cell 3 = 7` or `a[3] = 7`. Its name has a space or a bracket, as
    /// no typed one has.
    pub fn is_load_line(&self, instruction: u16) -> bool {
        self.name(instruction).contains([' ', '['])
    }

    /// What a cell is called: an element of an array, or a cell by its number.
    pub fn cell(&self, cell: i32) -> String {
        self.arrays.name(cell)
    }

    /// What an instruction calls the cell that it touches: an element of the array that it names, if it names one.
    pub fn touched(&self, instruction: u16, cell: i32) -> String {
        let array = self.graph.get(instruction).and_then(|i| i.array.as_ref());
        let element = array.and_then(|array| array.element(cell));
        element.unwrap_or_else(|| self.cell(cell))
    }

    /// A tag by names: `start[0]/call1[0]/n[0]`, each call by an ENTER of its site.
    pub fn tag(&self, tag: &Tag) -> String {
        let mut words = String::new();
        for (site, iteration) in tag.calls() {
            let name = match self.graph.enter(site) {
                Some(enter) => self.name(enter),
                None => format!("site {site}"),
            };
            words += &format!("{name}[{iteration}]/");
        }
        words + &format!("{}[{}]", self.name(tag.instruction), tag.iteration)
    }

    /// A tag with a port. A single port needs no number.
    pub fn port(&self, tag: &Tag, port: u8) -> String {
        let operands = self.graph.get(tag.instruction).map_or(0, |i| i.operands());
        match operands {
            1 => self.tag(tag),
            _ => format!("{}.{port}", self.tag(tag)),
        }
    }

    /// Where an instruction stands in the text.
    pub fn span(&self, instruction: usize) -> Option<Span> {
        self.instructions
            .get(instruction)
            .map(|i| i.place.span.clone())
    }

    /// The line of the text that an instruction stands in, counted from 1.
    pub fn line(&self, instruction: u16) -> Option<usize> {
        let start = self.span(instruction.into())?.start;
        let before = self.text.get(..start)?;
        Some(before.matches('\n').count() + 1)
    }

    /// Where an arc of an instruction stands in the text, or else the instruction.
    pub fn arc_span(&self, instruction: usize, arc: usize) -> Option<Span> {
        let instruction = self.instructions.get(instruction)?;
        let arc = instruction.arcs.get(arc).unwrap_or(&instruction.place.span);
        Some(arc.clone())
    }

    /// Where an input stands in the text.
    pub fn input_span(&self, input: usize) -> Option<Span> {
        self.inputs.get(input).map(|input| input.span.clone())
    }

    pub fn input_count(&self) -> usize {
        self.files.inputs.len() / TOKEN
    }

    /// The range of an input, where it is typed as one.
    pub fn range(&self, input: usize) -> Option<&RangedInput> {
        self.ranges.iter().find(|range| range.input == input)
    }

    /// The inputs as a run of ranges takes them: behind each record its high value. What is not whole stays so.
    pub fn range_inputs(&self) -> Vec<u8> {
        let records = self.files.inputs.chunks(TOKEN).enumerate();
        let record = |(number, record): (usize, &[u8])| {
            let mut bytes = record.to_vec();
            if let (TOKEN, Some(low)) = (record.len(), record.get(token::VALUE)) {
                let high = self.range(number).map(|range| range.high.to_le_bytes());
                bytes.extend(high.as_ref().map_or(low, |high| high));
            }
            bytes
        };
        records.flat_map(record).collect()
    }
}

/// How messages call what is given.
pub fn label(file: &str) -> &str {
    match file {
        "-" => STANDARD_INPUT,
        file => file,
    }
}

/// The bytes of a file, or of standard input by `-`, and where they come from.
pub fn bytes(file: &str, words: &str) -> Result<(Vec<u8>, Option<Source>), Failure> {
    let path = Path::new(file);
    if file != "-" {
        let bytes = fs::read(path).map_err(|error| Failure::file(path, error))?;
        return Ok((bytes, Source::named(words, path)));
    }
    let mut bytes = Vec::new();
    let read = io::stdin().read_to_end(&mut bytes);
    read.map_err(|error| Failure::File(STANDARD_INPUT.to_string(), error))?;
    Ok((bytes, Source::standard_input()))
}

/// The text of some bytes.
pub fn text(label: &str, bytes: Vec<u8>) -> Result<String, Failure> {
    String::from_utf8(bytes).map_err(|error| {
        let place = error.utf8_error().valid_up_to();
        no_text(label, error.as_bytes(), place)
    })
}

/// A carriage return that ends a line alone, as on old Macs. Where it is read as a space, a comment swallows all that follows.
fn lone_return(text: &str) -> Option<Finding> {
    let bytes = text.as_bytes();
    let alone = |at: &usize| bytes[*at] == b'\r' && bytes.get(at + 1) != Some(&b'\n');
    let place = (0..bytes.len()).find(alone)?;
    let finding = Finding::error("a line ends by a carriage return (CR) alone")
        .at(Some(place..place + 1), "here")
        .note("save the file with line ends of Unix (LF) or Windows (CR LF)");
    Some(finding)
}

/// A file that is no text from a place on.
fn no_text(label: &str, bytes: &[u8], place: usize) -> Failure {
    let hint = match bytes {
        [0xff, 0xfe, ..] | [0xfe, 0xff, ..] => "it begins as UTF-16 does: save it as UTF-8",
        _ if bytes.contains(&0) => {
            "for the files of a graph give their folder, for a log `dayomlak replay`"
        }
        _ => "it may be Latin-1 or another old code: save it as UTF-8",
    };
    let line = bytes[..place].iter().filter(|byte| **byte == b'\n').count() + 1;
    let byte = bytes[place];
    Failure::Wrong(format!(
        "{label} is no text (UTF-8): line {line} has the byte {byte:02x}\n  {hint}"
    ))
}

/// The error of a file where a folder is needed.
pub fn no_folder() -> io::Error {
    io::Error::new(
        io::ErrorKind::NotADirectory,
        "it is a file, and the folder of a graph's files is needed",
    )
}

/// The first typed graph in a folder.
fn typed_graph(folder: &Path) -> Option<PathBuf> {
    let entries = fs::read_dir(folder)
        .ok()?
        .flatten()
        .map(|entry| entry.path());
    let is_typed = |path: &PathBuf| path.extension().is_some_and(|word| word == "ttda");
    entries.filter(is_typed).min()
}

/// The files of a folder; a missing one counts as empty, as it does for the printing program.
pub fn files(folder: &Path) -> Result<Files, Failure> {
    if folder.is_file() {
        return Err(Failure::file(folder, no_folder()));
    }
    if !folder.is_dir() {
        let error = io::Error::new(io::ErrorKind::NotFound, "no such folder");
        return Err(Failure::file(folder, error));
    }
    let file = |name: &str| {
        let path = folder.join(name);
        match fs::read(&path) {
            Err(error) if error.kind() == io::ErrorKind::NotFound => Ok(Vec::new()),
            result => result.map_err(|error| Failure::file(&path, error)),
        }
    };
    Ok(Files {
        graph: file("graph")?,
        arrays: file("arrays")?,
        inputs: file("inputs")?,
        picks: file("picks")?,
    })
}
