//! Expressions in one line, such as `a * (b + c) % 3`: their records (02, R-14), values and graphs.

#[cfg(test)]
mod fuzz;
mod parse;
mod tokens;
pub mod typed;

use asm::Span;
use ttda::layout::ADD;
pub use ttda::widths::MOST_EXPRESSION as MOST_PARTS;

pub use parse::parse;

/// A text that is no expression: where, and what to write.
#[derive(Clone, Debug, PartialEq, Eq)]
pub struct Fault {
    pub span: Span,
    pub title: String,
    pub hint: String,
}

/// What stands at a part: an occurrence of a name, a constant, or an operation on two parts before it.
#[derive(Clone, Debug, PartialEq, Eq)]
pub enum Kind {
    Name(String),
    Constant(i32),
    Operation(Operator, usize, usize),
}

#[derive(Clone, Copy, Debug, PartialEq, Eq)]
pub enum Operator {
    Add,
    Subtract,
    Multiply,
    Divide,
    Remainder,
    Less,
    LessOrEqual,
    Equal,
}

impl Operator {
    /// The operation code of the machine.
    pub fn code(self) -> u8 {
        ADD + self as u8
    }

    /// What binds tighter is higher.
    fn tightness(self) -> u8 {
        match self {
            Operator::Multiply | Operator::Divide | Operator::Remainder => 3,
            Operator::Add | Operator::Subtract => 2,
            Operator::Less | Operator::LessOrEqual => 1,
            Operator::Equal => 0,
        }
    }

    /// How a text writes it.
    pub fn sign(self) -> &'static str {
        match self {
            Operator::Add => "+",
            Operator::Subtract => "-",
            Operator::Multiply => "*",
            Operator::Divide => "/",
            Operator::Remainder => "%",
            Operator::Less => "<",
            Operator::LessOrEqual => "<=",
            Operator::Equal => "==",
        }
    }

    pub fn divides(self) -> bool {
        matches!(self, Operator::Divide | Operator::Remainder)
    }

    /// How the typed graph calls it.
    fn word(self) -> &'static str {
        match self {
            Operator::Add => "ADD",
            Operator::Subtract => "SUB",
            Operator::Multiply => "MUL",
            Operator::Divide => "DIV",
            Operator::Remainder => "REM",
            Operator::Less => "LT",
            Operator::LessOrEqual => "LE",
            Operator::Equal => "EQ",
        }
    }

    /// What its result may be called.
    fn result(self) -> &'static str {
        match self {
            Operator::Add => "sum",
            Operator::Subtract => "difference",
            Operator::Multiply => "product",
            Operator::Divide => "quotient",
            Operator::Remainder => "remainder",
            Operator::Less => "less",
            Operator::LessOrEqual => "at_most",
            Operator::Equal => "equal",
        }
    }
}

/// A record of an expression, and where it stands in the text.
#[derive(Clone, Debug, PartialEq, Eq)]
pub struct Part {
    pub kind: Kind,
    pub span: Span,
}

/// An expression: each part names parts before it, and the last one is the whole.
#[derive(Clone, Debug, PartialEq, Eq)]
pub struct Expression {
    pub text: String,
    pub parts: Vec<Part>,
}

impl Expression {
    /// The part of the text that a record stands for, in one line.
    pub fn words(&self, part: &Part) -> String {
        one_line(&self.text[part.span.clone()])
    }

    /// The records of 8 bytes.
    pub fn records(&self) -> Vec<u8> {
        let record = |part: &Part| match part.kind {
            Kind::Operation(operator, left, right) => {
                [operator.code(), left as u8, right as u8, 0, 0, 0, 0, 0]
            }
            Kind::Name(_) | Kind::Constant(_) => [0; 8],
        };
        self.parts.iter().flat_map(record).collect()
    }

    /// The names and constants, in the order of their records.
    pub fn variables(&self) -> impl Iterator<Item = &Part> {
        let operation = |part: &&Part| matches!(part.kind, Kind::Operation(..));
        self.parts.iter().filter(move |part| !operation(part))
    }

    /// The operations, in the order of their records.
    pub fn operations(&self) -> impl Iterator<Item = &Part> {
        let operation = |part: &&Part| matches!(part.kind, Kind::Operation(..));
        self.parts.iter().filter(operation)
    }

    /// The part that an instruction of the graph stands for: first the variables, then the operations; `None` for OUT.
    pub fn part(&self, instruction: usize) -> Option<&Part> {
        self.variables().chain(self.operations()).nth(instruction)
    }

    /// The number of a part's instruction.
    fn instruction(&self, part: usize) -> usize {
        let is_operation = |part: &Part| matches!(part.kind, Kind::Operation(..));
        let before = &self.parts[..part];
        let operations = before.iter().filter(|part| is_operation(part)).count();
        match is_operation(&self.parts[part]) {
            true => self.variables().count() + operations,
            false => part - operations,
        }
    }
}

/// A text with its line breaks and runs of spaces as single spaces.
pub fn one_line(text: &str) -> String {
    let words: Vec<&str> = text.split_whitespace().collect();
    words.join(" ")
}
