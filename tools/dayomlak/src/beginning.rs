//! What a run begins from: a graph with its inputs, or a saved state.

use std::path::Path;

use crate::answer::Word;
use crate::cli::Buffers;
use crate::diagnostics;
use crate::failure::Failure;
use crate::machine::{End, Machine, Sizes};
use crate::orders::{self, Order};
use crate::program::{self, Program};
use crate::saved::conditions;
use crate::saved::file::SavedFile;
use crate::saved::{self, State};
use crate::sources::Source;
use crate::warnings;

pub struct Beginning {
    pub program: Program,
    sizes: Sizes,
    bound: u16,
    pub saved: Option<SavedFile>,
}

impl Beginning {
    /// Loads a graph or a saved state, and shows the warnings of the graph.
    pub fn load(file: &str, buffers: &Buffers) -> Result<Beginning, Failure> {
        if Path::new(file).is_dir() {
            return Beginning::load_graph(file, buffers);
        }
        let (bytes, source) = program::bytes(file, "the graph itself")?;
        let label = program::label(file);
        if !saved::is_saved(&bytes) {
            let mut program = Program::typed(label, bytes)?;
            program.sources.extend(source);
            return Ok(Beginning::at_inputs(program, buffers.sizes()));
        }
        if buffers.are_chosen() {
            let text =
                format!("{label} is a saved state, which has a capacity and cells of its own");
            return Err(Failure::Wrong(
                text + "\n  leave out --capacity and --cells",
            ));
        }
        let source = match file {
            "-" => source,
            file => Source::named(saved::ITSELF, Path::new(file)),
        };
        Beginning::at_state(saved::decode(label, &bytes, source)?)
    }

    /// Loads a graph, and shows its warnings.
    pub fn load_graph(file: &str, buffers: &Buffers) -> Result<Beginning, Failure> {
        Ok(Beginning::at_inputs(Program::load(file)?, buffers.sizes()))
    }

    fn at_inputs(program: Program, sizes: Sizes) -> Beginning {
        complain(&program);
        Beginning {
            program,
            sizes,
            bound: 0,
            saved: None,
        }
    }

    /// Under a loop bound, if one is given. A saved state has its own.
    pub fn bounded(mut self, bound: Option<u16>) -> Beginning {
        self.bound = bound.unwrap_or(self.bound);
        self
    }

    /// Loads a saved state.
    pub fn load_saved(file: &str) -> Result<Beginning, Failure> {
        Beginning::at_state(saved::read(file)?)
    }

    /// Where the engine and the conditions do not agree about the state, nothing is shown of it.
    fn at_state((program, saved): (Program, SavedFile)) -> Result<Beginning, Failure> {
        complain(&program);
        let beginning = Beginning {
            program,
            sizes: Sizes {
                capacity: saved.capacity.into(),
                cells: saved.state.cell_count(),
            },
            bound: saved.bound,
            saved: Some(saved),
        };
        conditions::check(&beginning.machine())?;
        Ok(beginning)
    }

    pub fn machine(&self) -> Machine<'_> {
        Machine {
            program: &self.program,
            sizes: self.sizes,
            bound: self.bound,
            start: self.saved.as_ref().map(|saved| &saved.state),
            ranged: false,
        }
    }

    /// In which order a run fired that began here, in words.
    pub fn order(&self, order: &Order, end: &End) -> String {
        let words = self.machine().order(order);
        let Some(saved) = &self.saved else {
            return words;
        };
        let before = usize::from(saved.state.firings);
        let is_idle = end.answer.firings <= before && !matches!(end.answer.word, Word::Refused(_));
        match is_idle && before > 0 {
            true => saved.order.clone(),
            false => orders::joined(&saved.order, before, &words),
        }
    }

    /// The file of what a run left that began here and fired in an order.
    pub fn save(&self, order: &str, end: &End) -> SavedFile {
        let of = self
            .saved
            .as_ref()
            .map_or(&self.program.label, |saved| &saved.of);
        SavedFile {
            of: of.clone(),
            order: order.to_string(),
            capacity: self.sizes.capacity as u16,
            bound: self.bound,
            text: self.program.text.clone().into_bytes(),
            graph: self.program.files.graph.clone(),
            arrays: self.program.files.arrays.clone(),
            state: State::of(end),
        }
    }
}

fn complain(program: &Program) {
    diagnostics::complain(&program.text_label, &program.text, &warnings::of(program));
}
