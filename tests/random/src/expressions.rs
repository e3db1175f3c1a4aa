//! Expressions: the graph and the value that both make of one, the graph's runs in many
//! orders, and damaged ones (02, R-14).

use layout::fields::{expression, token};
use layout::widths::{
    CELL, EXPRESSION, INSTRUCTION, MOST_EXPRESSION, TOKEN, VARIABLE, WHOLE_BUDGET,
};
use layout::{instruction_of, signed};
use second::{Outcome, Refusal};

use crate::case::{Call, Case, Guarded};
use crate::damage;
use crate::orders::End;
use crate::prng::Prng;
use crate::records::*;
use crate::Harness;

/// An expression with the values of its variables, in bytes.
struct Expression {
    records: Vec<u8>,
    values: Vec<u8>,
}

/// The records that a ledger needs for every expression.
const ENOUGH: usize = 300;
/// Room for the graph of every expression.
const MOST_GRAPH: usize = INSTRUCTION * (MOST_EXPRESSION + 1);

impl Harness {
    /// A good expression, its graph in many orders, and some that are damaged.
    pub fn all_expressions(&mut self, prng: &mut Prng) {
        let expression = generated(prng);
        let made = self.compare_expression(&expression, MOST_GRAPH, prng);
        self.run_expression(&expression, made, prng);
        for _ in 0..6 {
            let bytes = &expression.records;
            let mut damaged = Expression {
                records: bytes.clone(),
                values: expression.values.clone(),
            };
            let mut room = INSTRUCTION * (bytes.len() / EXPRESSION + 1);
            match prng.below(9) {
                0 => room -= 1,
                1 => room = prng.below(room),
                2 => room += prng.below(33),
                3 => damage_values(&mut damaged.values, prng),
                _ => damage_records(&mut damaged.records, prng),
            }
            self.compare_expression(&damaged, room, prng);
        }
    }

    /// Both emulators' graphs and values of one expression; answers the graph if there
    /// is one.
    fn compare_expression(
        &mut self,
        expression: &Expression,
        room: usize,
        prng: &mut Prng,
    ) -> Option<Vec<u8>> {
        self.expressions += 1;
        let (made, graph, result) = compare_graphs(&expression.records, room, prng);
        let value = second::expression_value(&expression.records, &expression.values);
        let found = engine::expression_value(&expression.records, &expression.values);
        let value_result = match engine::packed_value(&value) {
            due if due == found => Ok(()),
            due => Err(format!("value {found:#x}, due {due:#x}")),
        };
        self.tally
            .count_expression(names(expression, &made, &value, room));
        if let Err(reason) = result.and(value_result) {
            let case = case_of(expression, graph.clone(), prng);
            let records = &expression.records;
            self.fail(&case, &format!("expression {records:02x?}: {reason}"));
        }
        made.ok()
            .map(|records| graph[..INSTRUCTION * records].to_vec())
    }

    /// The graph in many orders: OUT receives the value, or every order is refused by 12.
    fn run_expression(&mut self, expression: &Expression, graph: Option<Vec<u8>>, prng: &mut Prng) {
        let graph = graph.expect("a good expression has a graph");
        let case = case_of(expression, graph, prng);
        let value = second::expression_value(&expression.records, &expression.values);
        for end in self.all_orders(&case, prng) {
            match received(&end, &value) {
                Ok(name) => self.tally.count_expression(vec![name]),
                Err(reason) => self.fail(&end.case, &reason),
            }
        }
    }
}

/// The second emulator's answer and output, and whether the engine's are the same.
fn compare_graphs(
    expression: &[u8],
    room: usize,
    prng: &mut Prng,
) -> (Result<usize, Refusal>, Vec<u8>, Result<(), String>) {
    let mut due = vec![0; room];
    prng.fill(&mut due);
    let mut found = Guarded::new(&due, 16 + prng.below(8));
    let made = second::expression(expression, &mut due);
    let answer = engine::expression(expression, found.lent());
    let due_answer = engine::packed_expression(&made);
    let result = if answer != due_answer {
        let (answer, due) = (engine::unpacked(answer), engine::unpacked(due_answer));
        Err(format!(
            "(word, records, 0, place): {answer:?}, due {due:?}"
        ))
    } else {
        found.holds("graph of an expression", &due)
    };
    (made, due, result)
}

/// Each variable is fed its value; the ledger has just the records that are enough.
fn case_of(expression: &Expression, graph: Vec<u8>, prng: &mut Prng) -> Case {
    let values = expression.values.chunks_exact(VARIABLE).enumerate();
    let inputs = values.flat_map(|(variable, v)| input(variable as u16, 0, signed(v, 0..VARIABLE)));
    Case {
        kind: "expression",
        call: Call::Run,
        graph,
        arrays: Vec::new(),
        inputs: inputs.collect(),
        picks: Vec::new(),
        budget: WHOLE_BUDGET,
        bound: 0,
        ledger_bytes: ENOUGH * TOKEN,
        cells_bytes: CELL * prng.below(3),
        garbage: prng.word(),
    }
}

/// What OUT, the last instruction, has received in an order.
fn received(end: &End, value: &Result<i32, Refusal>) -> Result<&'static str, String> {
    let out = end.case.graph.len() / INSTRUCTION - 1;
    let at_out = |t: &&[u8]| instruction_of(t) == out;
    let mut results = end.left.used().chunks_exact(TOKEN).filter(at_out);
    let answer = &end.left.answer;
    match value {
        Ok(value) => {
            let result = results.next().map(|token| &token[token::VALUE]);
            if answer.outcome == Outcome::Completed && result == Some(&value.to_le_bytes()) {
                return Ok("an order receives the value");
            }
        }
        Err(_) if answer.refusal() == Some(12) => return Ok("an order is refused by 12"),
        Err(_) => {}
    }
    Err(format!("{answer:?}, and the value is {value:?}"))
}

/// A tree of up to 49 operations whose records stand in any order that lets each name
/// only records before it.
fn generated(prng: &mut Prng) -> Expression {
    // Sums and comparisons, or all operations: most of the latter are out of range.
    const MILD: [u8; 6] = [ADD, SUB, ADD, LT, LE, EQ];
    let operations = match prng.below(8) {
        0 => 0,
        1 => 49,
        2..=4 => prng.below(50),
        _ => prng.below(7),
    };
    let mild = prng.one_in(2);
    let mut variables = operations + 1;
    let mut open: Vec<u8> = Vec::new();
    let mut records: Vec<[u8; EXPRESSION]> = Vec::new();
    while records.len() < 2 * operations + 1 {
        let mut record = [0; EXPRESSION];
        if open.len() < 2 || variables > 0 && prng.one_in(2) {
            variables -= 1;
        } else {
            record[expression::KIND] = if mild {
                MILD[prng.below(6)]
            } else {
                ADD + prng.below(8) as u8
            };
            record[expression::LEFT] = open.swap_remove(prng.below(open.len()));
            record[expression::RIGHT] = open.swap_remove(prng.below(open.len()));
        }
        open.push(records.len() as u8);
        records.push(record);
    }
    Expression {
        records: records.concat(),
        values: (0..operations + 1)
            .flat_map(|_| value(mild, prng).to_le_bytes())
            .collect(),
    }
}

fn value(mild: bool, prng: &mut Prng) -> i32 {
    match prng.below(30) {
        0 if !mild => i32::MIN,
        1 if !mild => i32::MAX,
        2 => prng.word() as i32,
        _ => prng.between(-9, 20),
    }
}

fn damage_values(values: &mut Vec<u8>, prng: &mut Prng) {
    match prng.below(3) {
        0 => values.extend([0; VARIABLE]),
        1 => values.push(0),
        _ => values.truncate(prng.below(values.len())),
    }
}

fn damage_records(records: &mut Vec<u8>, prng: &mut Prng) {
    let count = records.len() / EXPRESSION;
    match prng.below(10) {
        0 => damage::flip(records, prng),
        1 => records.truncate(prng.below(records.len() + 1)),
        2 => records.truncate(EXPRESSION * prng.below(count + 1)),
        3 => records.extend([0; EXPRESSION]),
        4 => records.resize(EXPRESSION * (99 + prng.below(3)), 0),
        5 => records.resize(records.len() + 1 + prng.below(7), 0),
        6 => set(records, 3 + prng.below(5), prng.word() as u8, prng),
        7 => set(records, 0, prng.below(40) as u8, prng),
        8 => name(records, |left, _| left, prng),
        _ => name(records, |_, other| other, prng),
    }
}

fn set(records: &mut [u8], field: usize, value: u8, prng: &mut Prng) {
    damage::set_field(records, EXPRESSION, field, value, prng);
}

/// Lets an operation name as its right record one chosen of its left one and any other
/// before it, which is likely to be named already.
fn name(records: &mut [u8], chosen: fn(u8, u8) -> u8, prng: &mut Prng) {
    let operations: Vec<usize> = (0..records.len() / EXPRESSION)
        .filter(|number| records[EXPRESSION * number] != 0)
        .collect();
    if !operations.is_empty() {
        let number = operations[prng.below(operations.len())];
        let at = EXPRESSION * number;
        records[at + 2] = chosen(records[at + 1], prng.below(number) as u8);
    }
}

/// What has to come up among the expressions.
pub const NAMES: [&str; 15] = [
    "a variable alone",
    "99 records",
    "room left behind the graph",
    "25 wrong length",
    "25 bad field",
    "25 named twice",
    "25 left and right alike",
    "25 never named",
    "26 graph too long",
    "26 by a byte",
    "value in range",
    "value: 7",
    "value: 12",
    "an order receives the value",
    "an order is refused by 12",
];

/// Which of the names an expression has.
fn names(
    expression: &Expression,
    made: &Result<usize, Refusal>,
    value: &Result<i32, Refusal>,
    room: usize,
) -> Vec<&'static str> {
    let mut names = Vec::new();
    match made {
        Ok(2) => names.push("a variable alone"),
        Ok(100) => names.push("99 records"),
        Ok(_) => {}
        Err(refusal) if refusal.number == 26 => {
            let due = INSTRUCTION * (expression.records.len() / EXPRESSION + 1);
            names.push("26 graph too long");
            names.extend((room + 1 == due).then_some("26 by a byte"));
        }
        Err(refusal) => names.push(reason(&expression.records, refusal.place)),
    }
    if made.is_ok_and(|records| INSTRUCTION * records < room) {
        names.push("room left behind the graph");
    }
    match value {
        Ok(_) => names.push("value in range"),
        Err(refusal) if refusal.number == 12 => names.push("value: 12"),
        Err(refusal) if refusal.number == 7 => names.push("value: 7"),
        Err(_) => {}
    }
    names
}

/// Why 25 is given at a place.
fn reason(records: &[u8], place: usize) -> &'static str {
    let count = records.len() / EXPRESSION;
    if records.len() % EXPRESSION != 0 || !(1..=MOST_EXPRESSION).contains(&count) {
        return "25 wrong length";
    }
    let record = &records[EXPRESSION * place..][..EXPRESSION];
    let operand = |at: usize| usize::from(record[at]);
    let (left, right) = (operand(expression::LEFT), operand(expression::RIGHT));
    let zeros = record[expression::ZEROS] == [0; 5];
    match record[expression::KIND] {
        0 if zeros && left == 0 && right == 0 => "25 never named",
        ADD..=EQ if zeros && left < place && right < place => {
            let named = |record: &[u8], number: usize| {
                let operands = &record[expression::LEFT..=expression::RIGHT];
                record[expression::KIND] != 0 && operands.contains(&(number as u8))
            };
            let before = || records.chunks_exact(EXPRESSION).take(place);
            if before().any(|record| named(record, left) || named(record, right)) {
                "25 named twice"
            } else if left == right {
                "25 left and right alike"
            } else {
                "25 never named"
            }
        }
        _ => "25 bad field",
    }
}
