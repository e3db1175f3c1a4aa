//! An assembler for dataflow graphs typed as text, and back. The format is
//! described in docs/TYPED-GRAPHS.md; the records are those of document 01.

mod arrays;
mod assemble;
mod disassemble;
mod errors;
mod hints;
mod names;
mod operations;
mod parse;
mod parse_arrays;
mod ranges;
mod statement;
mod words;

pub use assemble::{assemble, read, read_order, Array, Instruction, Named, Place, Program};
pub use disassemble::disassemble;
pub use errors::{Error, Errors, Span};
pub use operations::{by_code, Constant, Operation};
pub use ranges::RangedInput;

/// The contents of the files `graph`, `arrays`, `inputs` and `picks`.
#[derive(Clone, Debug, Default, PartialEq, Eq)]
pub struct Files {
    pub graph: Vec<u8>,
    pub arrays: Vec<u8>,
    pub inputs: Vec<u8>,
    pub picks: Vec<u8>,
}
