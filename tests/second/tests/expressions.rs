//! Expressions: refusals with their places, the graph that is made, and its value (02,
//!

mod common;

use common::*;
use second::{expression, expression_value, Refusal};

/// A variable.
const V: [u8; 8] = [0; 8];

fn operation(code: u8, left: u8, right: u8) -> [u8; 8] {
    [code, left, right, 0, 0, 0, 0, 0]
}

/// b * b - 4 * (a * c), the 4 a variable of its own: b, b, 4, a, c.
fn discriminant() -> Vec<u8> {
    [
        V,
        V,
        operation(MUL, 0, 1),
        V,
        V,
        V,
        operation(MUL, 4, 5),
        operation(MUL, 3, 6),
        operation(SUB, 2, 7),
    ]
    .concat()
}

fn values(numbers: &[i32]) -> Vec<u8> {
    numbers.iter().flat_map(|n| n.to_le_bytes()).collect()
}

/// The answer, with the output untouched unless there is one.
fn made(bytes: &[u8], room: usize) -> Result<usize, Refusal> {
    let mut graph = vec![0xa5; room];
    let answer = expression(bytes, &mut graph);
    let written = answer.map_or(0, |records| 16 * records);
    assert!(graph[written..].iter().all(|&byte| byte == 0xa5));
    answer
}

fn refused(number: u8, place: usize) -> Result<usize, Refusal> {
    Err(Refusal { number, place })
}

#[test]
fn variables_come_first_then_operations_then_out() {
    let mut graph = vec![0; 16 * 10];
    assert_eq!(expression(&discriminant(), &mut graph), Ok(10));
    let due = [
        instruction(COPY, &[(5, 0)], 0),
        instruction(COPY, &[(5, 1)], 0),
        instruction(COPY, &[(7, 0)], 0),
        instruction(COPY, &[(6, 0)], 0),
        instruction(COPY, &[(6, 1)], 0),
        instruction(MUL, &[(8, 0)], 0),
        instruction(MUL, &[(7, 1)], 0),
        instruction(MUL, &[(8, 1)], 0),
        instruction(SUB, &[(9, 0)], 0),
        instruction(OUT, &[], 0),
    ];
    assert_eq!(graph, due.concat());
}

#[test]
fn out_receives_the_value() {
    let mut graph = vec![0; 16 * 10];
    expression(&discriminant(), &mut graph).unwrap();
    let numbers = [7, 7, 4, 2, -3];
    let fed: Vec<[u8; 28]> = (0..5)
        .map(|v| input(v, 0, numbers[usize::from(v)]))
        .collect();
    let mut lent = lend(&[], &fed).capacity(300);
    lent.graph = graph;
    let left = lent.run();
    assert_eq!(left.answer, completed(9, 14));
    assert_eq!(left.record(13), token(0, 0, 9, 0, 73, 0));
    assert_eq!(expression_value(&discriminant(), &values(&numbers)), Ok(73));
}

#[test]
fn a_variable_alone_goes_to_out() {
    let mut graph = vec![0; 32];
    assert_eq!(expression(&V, &mut graph), Ok(2));
    let due = [instruction(COPY, &[(1, 0)], 0), instruction(OUT, &[], 0)];
    assert_eq!(graph, due.concat());
    assert_eq!(expression_value(&V, &values(&[-5])), Ok(-5));
}

#[test]
fn a_wrong_length_has_place_0() {
    for bytes in [0, 7, 9, 8 * 101] {
        assert_eq!(made(&vec![0; bytes], 4096), refused(25, 0), "{bytes}");
    }
    // 100 records are no wrong length: the first one is never named.
    assert_eq!(made(&[0; 8 * 100], 4096), refused(25, 0));
    let mut hundred = [V; 100];
    hundred[99] = operation(ADD, 0, 1);
    assert_eq!(made(&hundred.concat(), 4096), refused(25, 2));
}

#[test]
fn bad_fields_have_their_record_as_place() {
    let bad = [
        operation(15, 0, 1),
        operation(24, 0, 1),
        operation(32, 0, 1),
        operation(0, 1, 0),
        operation(0, 0, 1),
        operation(ADD, 2, 1),
        operation(ADD, 0, 2),
        operation(ADD, 0, 255),
        // Left and right alike: the second naming is of one already named.
        operation(ADD, 1, 1),
    ];
    for record in bad {
        assert_eq!(
            made(&[V, V, record].concat(), 64),
            refused(25, 2),
            "{record:?}"
        );
    }
    for at in 3..8 {
        let mut record = operation(ADD, 0, 1);
        record[at] = 1;
        assert_eq!(
            made(&[V, V, record].concat(), 64),
            refused(25, 2),
            "byte {at}"
        );
        let mut variable = V;
        variable[at] = 1;
        assert_eq!(made(&variable, 64), refused(25, 0), "byte {at}");
    }
}

#[test]
fn a_record_named_twice_is_found_before_one_never_named() {
    let twice = [V, V, V, operation(ADD, 1, 2), operation(ADD, 3, 1)];
    assert_eq!(made(&twice.concat(), 4096), refused(25, 4));
    let never = [V, V, V, operation(ADD, 0, 2)];
    assert_eq!(made(&never.concat(), 4096), refused(25, 1));
    let later = [V, V, operation(ADD, 0, 1), V, operation(ADD, 2, 3), V];
    assert_eq!(made(&later.concat(), 4096), refused(25, 4));
}

#[test]
fn the_graph_needs_room() {
    let sum = [V, V, operation(ADD, 0, 1)].concat();
    assert_eq!(made(&sum, 63), refused(26, 0));
    assert_eq!(made(&sum, 64), Ok(4));
    // An output that is not whole records is no fault of its own.
    assert_eq!(made(&sum, 65), Ok(4));
    assert_eq!(made(&[V, V].concat(), 0), refused(25, 0));
}

#[test]
fn a_value_has_its_refusals() {
    let refused = |number, place| Err(Refusal { number, place });
    let quotient = [V, V, operation(DIV, 0, 1)].concat();
    assert_eq!(expression_value(&quotient, &values(&[-7, 2])), Ok(-3));
    assert_eq!(
        expression_value(&quotient, &values(&[1, 0])),
        refused(12, 0)
    );
    assert_eq!(expression_value(&quotient, &values(&[1])), refused(7, 0));
    assert_eq!(
        expression_value(&quotient, &values(&[1, 2, 3])),
        refused(7, 0)
    );
    assert_eq!(expression_value(&quotient, &[0; 7]), refused(7, 0));
    assert_eq!(expression_value(&[V, V].concat(), &[]), refused(25, 0));
}
