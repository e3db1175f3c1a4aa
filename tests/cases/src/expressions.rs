//! R-14 of document 02: expressions, their graphs and their values, through the C
//! functions.

use crate::lent::*;

/// An expression: its records, the values of its variables, the bytes lent for the
/// graph, the answer as a line, and the value if there is one.
pub struct ExpressionCase {
    pub name: &'static str,
    pub records: Vec<u8>,
    pub values: Vec<i32>,
    pub room: usize,
    pub says: &'static str,
    pub value: Option<i32>,
}

type Record = [u8; EXPRESSION];

/// A variable.
const V: Record = [0; EXPRESSION];

/// An operation on the records of two numbers.
fn of(code: u8, left: u8, right: u8) -> Record {
    layout::term(code, left, right)
}

/// An expression that is made, with just the room that its graph needs.
fn made(
    name: &'static str,
    records: &[Record],
    values: &[i32],
    says: &'static str,
    value: impl Into<Option<i32>>,
) -> ExpressionCase {
    ExpressionCase {
        name,
        records: records.concat(),
        values: values.to_vec(),
        room: GRAPH_RECORD * (records.len() + 1),
        says,
        value: value.into(),
    }
}

/// An expression that is refused, with more room than its graph would need.
fn bad(name: &'static str, records: &[Record], says: &'static str) -> ExpressionCase {
    let case = made(name, records, &[], says, None);
    ExpressionCase {
        room: case.room + GRAPH_RECORD,
        ..case
    }
}

/// The printed example's sum, in other bytes lent for its graph.
fn with_room(name: &'static str, room: usize, says: &'static str) -> ExpressionCase {
    let case = made(name, &sum(), &[7, -9], says, -2);
    ExpressionCase { room, ..case }
}

fn sum() -> [Record; 3] {
    [V, V, of(ADD, 0, 1)]
}

pub fn cases() -> Vec<ExpressionCase> {
    let mut cases = graphs();
    cases.extend(lengths());
    cases.extend(bad_fields());
    cases.extend(namings());
    cases
}

/// a, b, a + b, and so on: as many sums as asked for, each of the one before and a new
/// variable.
fn chain(sums: u8) -> Vec<Record> {
    let mut records = vec![V];
    for number in 0..sums {
        records.extend([V, of(ADD, 2 * number, 2 * number + 1)]);
    }
    records
}

fn graphs() -> Vec<ExpressionCase> {
    let quadratic = [
        V,
        V,
        of(MUL, 0, 1),
        V,
        V,
        of(MUL, 3, 4),
        V,
        of(MUL, 5, 6),
        of(SUB, 2, 7),
    ];
    // Variables behind operations: the graph puts them first.
    let late = [V, V, of(SUB, 1, 0), V, of(MUL, 3, 2)];
    let divided = [V, V, of(DIV, 0, 1)];
    vec![
        made("a variable alone", &[V], &[11], "made 2", 11),
        made("a sum", &sum(), &[7, -9], "made 4", -2),
        made(
            "b * b - 4 * a * c",
            &quadratic,
            &[7, 7, 4, 2, -3],
            "made 10",
            73,
        ),
        made("c * (b - a)", &late, &[1, 4, 5], "made 6", 15),
        made("-7 / 2 goes toward zero", &divided, &[-7, 2], "made 4", -3),
        made("a divisor of 0", &divided, &[7, 0], "made 4", None),
        made(
            "-2147483648 / -1",
            &divided,
            &[i32::MIN, -1],
            "made 4",
            None,
        ),
        made("99 records", &chain(49), &[1; 50], "made 100", 50),
        with_room("a graph of just its length", 64, "made 4"),
        with_room("an output that is not whole records", 71, "made 4"),
        with_room("an output a byte too short", 63, "refused 26 0"),
        with_room("no output at all", 0, "refused 26 0"),
    ]
}

fn lengths() -> Vec<ExpressionCase> {
    let of_bytes = |name, bytes, says| ExpressionCase {
        records: vec![0; bytes],
        ..bad(name, &[], says)
    };
    let mut even = chain(49);
    even.push(V);
    vec![
        of_bytes("no record", 0, "refused 25 0"),
        of_bytes("7 bytes", 7, "refused 25 0"),
        of_bytes("9 bytes", 9, "refused 25 0"),
        of_bytes(
            "101 records",
            EXPRESSION * (MOST_EXPRESSION + 1),
            "refused 25 0",
        ),
        // No wrong length: the first that is never named.
        bad("100 records", &even, "refused 25 98"),
    ]
}

fn bad_fields() -> Vec<ExpressionCase> {
    let third = |name, record| bad(name, &[V, V, record], "refused 25 2");
    vec![
        third("kind 15", of(15, 0, 1)),
        third("kind 24", of(24, 0, 1)),
        third("kind 32, a constant on the right", of(32, 0, 1)),
        third("a variable that names a left record", of(0, 1, 0)),
        third("a variable that names a right record", of(0, 0, 1)),
        third(
            "byte 3 is not zero",
            byte(of(ADD, 0, 1), expression::ZEROS.start, 1),
        ),
        third(
            "byte 7 is not zero",
            byte(of(ADD, 0, 1), expression::ZEROS.end - 1, 128),
        ),
        third("an operation that names itself", of(ADD, 0, 2)),
        third("an operation that names a later record", of(ADD, 3, 1)),
        bad("an operation first", &[of(ADD, 0, 0)], "refused 25 0"),
    ]
}

fn namings() -> Vec<ExpressionCase> {
    let twice = [V, V, V, of(ADD, 1, 2), of(ADD, 3, 1)];
    let later = [V, V, of(ADD, 0, 1), V, of(ADD, 2, 3), V];
    let field_first = [V, V, of(13, 0, 1), of(ADD, 0, 0)];
    vec![
        bad("left and right alike", &[V, of(ADD, 0, 0)], "refused 25 1"),
        bad(
            "named twice comes before never named",
            &twice,
            "refused 25 4",
        ),
        bad("never named", &[V, V, V, of(ADD, 0, 2)], "refused 25 1"),
        bad("an operation never named", &later, "refused 25 4"),
        bad(
            "the first record at fault, a field or a name",
            &field_first,
            "refused 25 2",
        ),
        ExpressionCase {
            room: 0,
            ..bad("25 comes before 26", &[V, V], "refused 25 0")
        },
    ]
}
