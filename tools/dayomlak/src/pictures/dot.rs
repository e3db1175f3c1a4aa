//! A graph as text for Graphviz.

use std::fmt::Write;

use crate::graph::{
    Destination, Instruction, ENTER, FETCH, GATE, LEAVE, NEXT, OUT, SINK, STORE, SWITCH,
};
use crate::loads::Loads;
use crate::program::Program;
use crate::records::{self, Token};

const HEAD: &str = "digraph {
  graph [fontname=\"Helvetica\", fontsize=10, labelloc=b, labeljust=l, nodesep=0.3, ranksep=0.35];
  node [fontname=\"Helvetica\", fontsize=11, height=0.3, style=filled, fillcolor=white];
  edge [fontname=\"Helvetica\", fontsize=9, arrowsize=0.6, labeldistance=1.5];
";

/// The text of a picture with a caption.
pub fn text(program: &Program, caption: &str) -> String {
    let label = format!("  label=\"{}\";\n", escaped(caption));
    Drawing::new(program, false).text(&label)
}

/// What is drawn of a program. Its parts may have ids, by which a page finds them.
pub struct Drawing<'p> {
    program: &'p Program,
    loads: Loads,
    ids: bool,
}

/// Loaded cells stand below each other up to this number; more of them stand in several columns.
const MOST_ROWS: usize = 16;

/// Room for tokens on the arcs.
const WIDE: &str = "  graph [nodesep=0.45, ranksep=0.6];\n";

impl<'p> Drawing<'p> {
    fn new(program: &'p Program, ids: bool) -> Drawing<'p> {
        Drawing {
            program,
            loads: Loads::of(program),
            ids,
        }
    }

    pub fn with_ids(program: &'p Program) -> Drawing<'p> {
        Drawing::new(program, true)
    }

    /// The text of a picture on which tokens will be shown.
    pub fn wide_text(&self) -> String {
        self.text(WIDE)
    }

    fn text(&self, settings: &str) -> String {
        let instructions = || self.program.graph.instructions.iter().enumerate();
        let nodes = instructions().filter(|(number, _)| !self.is_load(*number as u16));
        let nodes = nodes.map(|(number, instruction)| self.node(number, instruction));
        let edges = instructions().map(|(number, instruction)| self.edges(number, instruction));
        let inputs = records::tokens(&self.program.files.inputs);
        let inputs = inputs.iter().enumerate();
        let inputs = inputs.filter(|(_, input)| !self.is_load(input.tag.instruction));
        let inputs = inputs.map(|(number, input)| self.input_edge(number, input));
        let parts: String = nodes.chain(edges).chain(inputs).collect();
        format!("{HEAD}{settings}{}{parts}}}\n", self.loads_table())
    }

    /// The id of an instruction, or of its row in the table of loads.
    pub fn instruction_id(&self, instruction: u16) -> String {
        match self
            .loads
            .cells
            .keys()
            .position(|load| *load == instruction)
        {
            Some(row) => format!("load-{row}"),
            None => format!("instruction-{instruction}"),
        }
    }

    /// The id of the arc that an input stands on.
    pub fn input_id(&self, number: usize, instruction: u16) -> String {
        match self.is_load(instruction) {
            true => self.instruction_id(instruction),
            false => format!("input-{number}"),
        }
    }

    fn is_load(&self, instruction: u16) -> bool {
        self.loads.contains(instruction)
    }

    /// An id as an attribute, where ids are asked for.
    fn id(&self, id: &str) -> String {
        match self.ids {
            true => format!(", id=\"{id}\""),
            false => String::new(),
        }
    }
}

/// The id of an arc, by its number among those of its instruction.
pub fn arc_id(instruction: usize, arc: usize) -> String {
    format!("arc-{instruction}-{arc}")
}

/// The id of the line from an ENTER to where its call returns to.
pub fn return_id(enter: usize, to: u16) -> String {
    format!("return-{enter}-{to}")
}

fn escaped(text: &str) -> String {
    text.replace('\\', "\\\\")
        .replace('"', "\\\"")
        .replace('\n', "\\l")
        + "\\l"
}

impl Drawing<'_> {
    fn loads_table(&self) -> String {
        let cells = self.loads.cells.values();
        let cells: Vec<(String, i32)> = cells
            .map(|(cell, value)| (self.cell(*cell), *value))
            .collect();
        let columns = cells.len().div_ceil(MOST_ROWS);
        let rows = cells.len().div_ceil(columns.max(1)).max(1);
        let columns: Vec<String> = cells.chunks(rows).map(loads_column).collect();
        let table = match &columns[..] {
            [] => return String::new(),
            [column] => column.clone(),
            _ => self.side_by_side(&columns),
        };
        format!(
            "  loads [shape=plaintext, style=\"\", fontsize=10, label=<{table}>{}];\n",
            self.id("loads")
        )
    }

    /// An element's name, or the number of a cell that is no array's.
    fn cell(&self, cell: i32) -> String {
        let name = self.program.cell(cell);
        name.trim_start_matches("cell ").to_string()
    }

    /// Columns in one table. On a page there is room for tokens beside each.
    fn side_by_side(&self, columns: &[String]) -> String {
        let space = if self.ids { 28 } else { 4 };
        let column = |table: &String| format!("<td valign=\"top\">{table}</td>");
        let columns: String = columns.iter().map(column).collect();
        format!("<table border=\"0\" cellspacing=\"{space}\" cellpadding=\"0\"><tr>{columns}</tr></table>")
    }

    fn node(&self, number: usize, instruction: &Instruction) -> String {
        let (shape, colour) = match instruction.code {
            SWITCH | GATE => ("invtrapezium", "#fff3c4"),
            NEXT => ("circle", "#d5e8ff"),
            ENTER => ("invhouse", "#e6d9ff"),
            LEAVE => ("house", "#e6d9ff"),
            FETCH | STORE => ("cylinder", "#d9f2d9"),
            OUT | SINK => ("box", "#eeeeee"),
            _ => ("ellipse", "white"),
        };
        let margin = if instruction.code == NEXT {
            ", margin=0.02"
        } else {
            ""
        };
        let id = self.id(&self.instruction_id(number as u16));
        format!(
            "  n{number} [shape={shape}, fillcolor=\"{colour}\"{margin}, label=<{}<br/><font point-size=\"8\" \
             color=\"#555555\">{}</font>>{id}];\n",
            instruction.words(),
            self.program.name(number as u16)
        )
    }

    /// The arcs of an instruction, and where the call of an ENTER returns to. The arcs of a NEXT go to the next iteration.
    fn edges(&self, number: usize, instruction: &Instruction) -> String {
        let arcs = instruction.arcs().iter().enumerate();
        let mut text: String = arcs
            .map(|(side, arc)| self.arc(number, side, arc, instruction.code))
            .collect();
        for to in self.program.graph.returns_of(number) {
            let head = port_words(self.program, to, 0);
            let id = self.id(&return_id(number, to));
            let _ = writeln!(
                text,
                "  n{number} -> n{to} [headlabel=\"{head}\", style=dashed, color=\"#8a6fc1\"{id}];"
            );
        }
        text
    }

    fn arc(&self, number: usize, side: usize, arc: &Destination, code: u8) -> String {
        let tail = match code {
            SWITCH => ["T", "F"][side],
            _ => "",
        };
        let style = match code {
            NEXT => ", color=\"#2b6cb0\", penwidth=1.6, constraint=false",
            _ => "",
        };
        let head = port_words(self.program, arc.instruction, arc.port);
        let id = self.id(&arc_id(number, side));
        let to = arc.instruction;
        format!("  n{number} -> n{to} [taillabel=\"{tail}\", headlabel=\"{head}\"{style}{id}];\n")
    }

    fn input_edge(&self, number: usize, input: &Token) -> String {
        let to = input.tag.instruction;
        let head = port_words(self.program, to, input.port);
        let id = self.id(&self.input_id(number, to));
        format!(
            "  i{number} [shape=plaintext, style=\"\", fontsize=10, fontcolor=\"#b00020\", label=\"{}\"];\n  \
             i{number} -> n{to} [color=\"#b00020\", headlabel=\"{head}\"{id}];\n",
            input.value
        )
    }
}

/// Loaded cells below each other, under a heading.
fn loads_column(cells: &[(String, i32)]) -> String {
    let row = |(cell, value): &(String, i32)| {
        format!("<tr><td align=\"right\">{cell}</td><td align=\"right\">{value}</td></tr>")
    };
    let rows: String = cells.iter().map(row).collect();
    format!(
        "<table border=\"0\" cellborder=\"1\" cellspacing=\"0\" bgcolor=\"#d9f2d9\">\
         <tr><td>cell</td><td>loaded</td></tr>{rows}</table>"
    )
}

/// The number of a port where there are two.
fn port_words(program: &Program, instruction: u16, port: u8) -> String {
    match program.graph.get(instruction).map(Instruction::operands) {
        Some(2) => port.to_string(),
        _ => String::new(),
    }
}
