//! From an expression to a graph, and its value (02, R-14).

use crate::arithmetic::Arithmetic;
use crate::{Refusal, GRAPH_RECORD};

/// Bytes of an expression record.
pub const EXPRESSION_RECORD: usize = 8;
/// Most records of an expression.
pub const MOST_EXPRESSION_RECORDS: usize = 100;
/// Bytes of a variable's value.
const VALUE: usize = 4;

/// Operation codes of the graph that is made (01, "Graph records").
const COPY: u8 = 1;
const OUT: u8 = 3;

/// What one record is.
#[derive(Clone, Copy)]
enum Node {
    Variable,
    Operation { code: u8, left: usize, right: usize },
}

/// A checked expression: its records, and for each the record that names it with the
/// port that it goes to; the last has none.
struct Expression {
    nodes: Vec<Node>,
    named_by: Vec<Option<(usize, u8)>>,
}

fn bad_expression(place: usize) -> Refusal {
    Refusal { number: 25, place }
}

impl Node {
    /// The node of the record at a place, or `None` for a bad field: an unknown kind,
    /// bytes that are to be zero, or a record that is not before this one.
    fn parse(record: &[u8], place: usize) -> Option<Node> {
        let (code, left, right) = (record[0], usize::from(record[1]), usize::from(record[2]));
        let zeros = record[3..].iter().all(|&byte| byte == 0);
        match code {
            0 if zeros && left == 0 && right == 0 => Some(Node::Variable),
            16..=23 if zeros && left < place && right < place => {
                Some(Node::Operation { code, left, right })
            }
            _ => None,
        }
    }
}

impl Expression {
    /// Refusal 25: a wrong length, else the first record with a bad field or naming one
    /// already named, else the first never named.
    fn parse(bytes: &[u8]) -> Result<Expression, Refusal> {
        let count = bytes.len() / EXPRESSION_RECORD;
        let whole = bytes.len() % EXPRESSION_RECORD == 0;
        if !whole || !(1..=MOST_EXPRESSION_RECORDS).contains(&count) {
            return Err(bad_expression(0));
        }
        let mut expression = Expression {
            nodes: Vec::with_capacity(count),
            named_by: vec![None; count],
        };
        for (place, record) in bytes.chunks_exact(EXPRESSION_RECORD).enumerate() {
            let node = Node::parse(record, place).ok_or(bad_expression(place))?;
            expression.add(node, place)?;
        }
        let others = &expression.named_by[..count - 1];
        match others.iter().position(Option::is_none) {
            Some(place) => Err(bad_expression(place)),
            None => Ok(expression),
        }
    }

    /// Adds a record, which names none that is already named: not its left record once
    /// more as its right one either.
    fn add(&mut self, node: Node, place: usize) -> Result<(), Refusal> {
        if let Node::Operation { left, right, .. } = node {
            for (port, named) in [(0, left), (1, right)] {
                if self.named_by[named].replace((place, port)).is_some() {
                    return Err(bad_expression(place));
                }
            }
        }
        self.nodes.push(node);
        Ok(())
    }

    fn is_variable(&self, place: usize) -> bool {
        matches!(self.nodes[place], Node::Variable)
    }

    fn variables(&self) -> usize {
        (0..self.nodes.len())
            .filter(|&place| self.is_variable(place))
            .count()
    }

    /// How many records of the same kind, variable or operation, stand before a record.
    fn rank(&self, place: usize) -> usize {
        let alike = |&before: &usize| self.is_variable(before) == self.is_variable(place);
        (0..place).filter(alike).count()
    }

    /// The instruction of a record: the variables first, then the operations.
    fn instruction(&self, place: usize) -> usize {
        if self.is_variable(place) {
            self.rank(place)
        } else {
            self.variables() + self.rank(place)
        }
    }

    /// The graph record of a record: its only arc goes to the record that names it, and
    /// that of the last to OUT, the instruction behind all others.
    fn graph_record(&self, place: usize) -> [u8; GRAPH_RECORD] {
        let (target, port) = match self.named_by[place] {
            Some((naming, port)) => (self.instruction(naming), port),
            None => (self.nodes.len(), 0),
        };
        let mut record = [0; GRAPH_RECORD];
        record[0] = match self.nodes[place] {
            Node::Variable => COPY,
            Node::Operation { code, .. } => code,
        };
        record[1] = 1;
        record[2] = port;
        record[4] = target as u8;
        record
    }

    /// The value of a record, or `None` if an operation in it is out of range or a
    /// divisor is 0.
    fn value(&self, place: usize, values: &[i32]) -> Option<i32> {
        match self.nodes[place] {
            Node::Variable => Some(values[self.rank(place)]),
            Node::Operation { code, left, right } => {
                let left = self.value(left, values)?;
                let right = self.value(right, values)?;
                Arithmetic::ALL[usize::from(code - 16)].apply(left, right)
            }
        }
    }
}

/// Writes the graph of an expression to the start of `graph`; answers the number of its
/// records, or 25, then 26 with nothing written.
pub fn expression(bytes: &[u8], graph: &mut [u8]) -> Result<usize, Refusal> {
    let expression = Expression::parse(bytes)?;
    let records = expression.nodes.len() + 1;
    if GRAPH_RECORD * records > graph.len() {
        return Err(Refusal {
            number: 26,
            place: 0,
        });
    }
    let mut write = |instruction: usize, record: [u8; GRAPH_RECORD]| {
        graph[GRAPH_RECORD * instruction..][..GRAPH_RECORD].copy_from_slice(&record);
    };
    for place in 0..expression.nodes.len() {
        write(
            expression.instruction(place),
            expression.graph_record(place),
        );
    }
    let mut out = [0; GRAPH_RECORD];
    out[0] = OUT;
    write(records - 1, out);
    Ok(records)
}

/// The value of an expression, of the values of its variables in record order, 4 bytes
/// each: 25, then 7 for another number of values, then 12.
pub fn expression_value(bytes: &[u8], values: &[u8]) -> Result<i32, Refusal> {
    let expression = Expression::parse(bytes)?;
    let refused = |number| Refusal { number, place: 0 };
    if values.len() != VALUE * expression.variables() {
        return Err(refused(7));
    }
    let values: Vec<i32> = values
        .chunks_exact(VALUE)
        .map(|v| i32::from_le_bytes([v[0], v[1], v[2], v[3]]))
        .collect();
    let last = expression.nodes.len() - 1;
    expression.value(last, &values).ok_or(refused(12))
}
