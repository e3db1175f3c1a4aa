//! What a line says, with names that are not yet resolved.

use layout::widths;

use crate::assemble::Place;
use crate::errors::Span;
use crate::operations::Operation;
use crate::ranges::Value;
use crate::words::Word;

/// An instruction's name with one of its ports.
#[derive(Clone, Debug)]
pub struct Target<'t> {
    pub name: Word<'t>,
    pub port: u8,
    /// The whole of it.
    pub word: Word<'t>,
}

/// An array's name with the index of one of its elements.
#[derive(Clone, Debug)]
pub struct Element<'t> {
    pub array: Word<'t>,
    pub index: i32,
    /// The whole of it.
    pub word: Word<'t>,
}

/// The cells of an array: how many, and the first of them where it is typed.
#[derive(Clone, Debug)]
pub struct Extent {
    pub length: u16,
    pub at: Option<u16>,
    /// From the name to the last number.
    pub span: Span,
}

/// A typed instruction. The target behind `return` is the last of its arcs.
#[derive(Clone, Debug)]
pub struct Typed<'t> {
    pub operation: Operation,
    pub constant: i32,
    /// The array that FETCH or STORE names; its number is the constant.
    pub array: Option<Word<'t>>,
    pub arcs: Vec<Target<'t>>,
}

#[derive(Clone, Debug)]
pub enum Statement<'t> {
    Typed(Typed<'t>),
    /// A graph record in bytes.
    Raw([u8; widths::INSTRUCTION]),
    Input(Target<'t>, Value),
    /// An input record in bytes.
    RawInput([u8; widths::TOKEN]),
    /// A cell and its value: a STORE and the two inputs that fire it.
    Cell(i32, Value),
    /// An element and its value: a STORE to its array and the two inputs that fire it.
    Element(Element<'t>, Value),
    /// An array and the cells that it takes.
    Array(Word<'t>, Extent),
    /// An array and its record in bytes.
    RawArray(Word<'t>, [u8; widths::ARRAY]),
    Picks(Vec<u16>),
    /// The activities of an order, as answers name them.
    Order(Vec<Word<'t>>),
    /// A line with a fault, and the targets that are named in it all the same.
    Faulty(Vec<Target<'t>>),
    /// An instruction with a fault. Its name is defined, so that one fault is
    /// not reported at every arc to it.
    FaultyInstruction(Vec<Target<'t>>),
    /// An array with a fault. Its name is defined, so that one fault is not
    /// reported wherever it is named.
    FaultyArray(Word<'t>),
}

/// A line with a statement.
#[derive(Clone, Debug)]
pub struct Line<'t> {
    /// The line's number, counted from 1.
    pub number: usize,
    /// The column of its first word, counted from 1.
    pub column: usize,
    pub name: Option<Word<'t>>,
    pub statement: Statement<'t>,
    /// From the first word to the last.
    pub span: Span,
}

impl Line<'_> {
    pub fn place(&self) -> Place {
        Place {
            line: self.number,
            column: self.column,
            span: self.span.clone(),
        }
    }
}
