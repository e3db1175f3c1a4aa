//! From a text to the parts of an expression, with two stacks: no depth of parentheses is too much.

use asm::Span;

use super::tokens::{fault, tokens, Token, Word};
use super::{Expression, Fault, Kind, Operator, Part};

/// What waits for its right side: an operator or a parenthesis, and where it stands.
enum Waiting {
    Operator(Operator),
    Open(Span),
}

/// A finished part, and where it stands with its parentheses.
struct Operand {
    part: usize,
    span: Span,
}

struct Parser {
    parts: Vec<Part>,
    operands: Vec<Operand>,
    waiting: Vec<Waiting>,
}

/// The expression of a text, or its first fault.
pub fn parse(text: &str) -> Result<Expression, Fault> {
    let mut words = tokens(text)?.into_iter().peekable();
    let mut parser = Parser {
        parts: Vec::new(),
        operands: Vec::new(),
        waiting: Vec::new(),
    };
    let mut after_operand = false;
    while let Some(token) = words.next() {
        after_operand = match after_operand {
            true => parser.after_operand(token)?,
            false => parser.before_operand(token, &mut words)?,
        };
    }
    if !after_operand {
        let end = text.trim_end().len();
        let title = if text.trim().is_empty() {
            "there is no expression"
        } else {
            "something is missing at the end"
        };
        return Err(fault(end..end, title, NEEDED));
    }
    parser.finish()?;
    Ok(Expression {
        text: text.to_string(),
        parts: parser.parts,
    })
}

const NEEDED: &str = "a name, a constant or ( is needed here";

impl Parser {
    /// Where a name, a constant or `(` is needed; answers whether an operand has ended.
    fn before_operand(
        &mut self,
        (word, span): Token,
        words: &mut std::iter::Peekable<std::vec::IntoIter<Token>>,
    ) -> Result<bool, Fault> {
        match word {
            Word::Name(name) => self.put(Kind::Name(name), span),
            Word::Digits(digits) => self.put(constant("", &digits, &span)?, span),
            Word::Open => {
                self.waiting.push(Waiting::Open(span));
                return Ok(false);
            }
            Word::Operator(Operator::Subtract) => match words.next() {
                Some((Word::Digits(digits), end)) => {
                    let span = span.start..end.end;
                    self.put(constant("-", &digits, &span)?, span);
                }
                _ => return Err(fault(span, "a minus sign without a left side", MINUS)),
            },
            Word::Operator(_) => {
                return Err(fault(span, "an operation without a left side", NEEDED))
            }
            Word::Close => return Err(fault(span, "nothing stands before this `)`", NEEDED)),
        }
        Ok(true)
    }

    /// Where an operation or `)` is needed; answers whether an operand has ended.
    fn after_operand(&mut self, (word, span): Token) -> Result<bool, Fault> {
        match word {
            Word::Operator(operator) => {
                self.join_down_to(operator.tightness());
                self.waiting.push(Waiting::Operator(operator));
                Ok(false)
            }
            Word::Close => self.close(span).map(|()| true),
            Word::Name(_) | Word::Digits(_) | Word::Open => Err(fault(
                span,
                "an operation is missing before this",
                "the operations are + - * / % < <= ==",
            )),
        }
    }

    fn put(&mut self, kind: Kind, span: Span) {
        self.operands.push(Operand {
            part: self.parts.len(),
            span: span.clone(),
        });
        self.parts.push(Part { kind, span });
    }

    /// Joins what waits and binds at least so tight: operations of one tightness go from the left.
    fn join_down_to(&mut self, tightness: u8) {
        while let Some(Waiting::Operator(operator)) = self.waiting.last() {
            if operator.tightness() < tightness {
                return;
            }
            let operator = *operator;
            self.waiting.pop();
            self.join(operator);
        }
    }

    /// An operation on the last two operands.
    fn join(&mut self, operator: Operator) {
        let (Some(right), Some(left)) = (self.operands.pop(), self.operands.pop()) else {
            return;
        };
        let kind = Kind::Operation(operator, left.part, right.part);
        self.put(kind, left.span.start..right.span.end);
    }

    /// The operand in the parentheses has them in its place, and its part has not.
    fn close(&mut self, span: Span) -> Result<(), Fault> {
        self.join_down_to(0);
        match (self.waiting.pop(), self.operands.last_mut()) {
            (Some(Waiting::Open(open)), Some(operand)) => {
                operand.span = open.start..span.end;
                Ok(())
            }
            _ => Err(fault(
                span,
                "this `)` has no `(`",
                "leave it out, or open it before",
            )),
        }
    }

    fn finish(&mut self) -> Result<(), Fault> {
        self.join_down_to(0);
        match self.waiting.pop() {
            Some(Waiting::Open(open)) => Err(fault(
                open,
                "this `(` has no `)`",
                "close it behind what belongs to it",
            )),
            _ => Ok(()),
        }
    }
}

const MINUS: &str = "it stands before a constant only: write 0 - a";

/// A constant of 32 signed bits.
fn constant(sign: &str, digits: &str, span: &Span) -> Result<Kind, Fault> {
    let number = format!("{sign}{digits}");
    let value = number.parse().map_err(|_| {
        fault(
            span.clone(),
            "this constant is out of range",
            "values are -2,147,483,648 to 2,147,483,647",
        )
    })?;
    Ok(Kind::Constant(value))
}
