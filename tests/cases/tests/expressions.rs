//! The cases of expressions, by the second emulator and by the engine.

use cases::expressions::{cases, ExpressionCase};
use cases::lent::{garbage, token, GRAPH_RECORD, TOKEN_RECORD, WHOLE_BUDGET};
use second::{Program, Refusal, Schedule};

fn values(case: &ExpressionCase) -> Vec<u8> {
    case.values.iter().flat_map(|v| v.to_le_bytes()).collect()
}

/// The answer's line: the records made, or the refusal with its place.
fn line(made: &Result<usize, Refusal>) -> String {
    match made {
        Ok(records) => format!("made {records}"),
        Err(refusal) => format!("refused {} {}", refusal.number, refusal.place),
    }
}

/// The answer and the output of the second emulator.
fn by_second(case: &ExpressionCase) -> (Result<usize, Refusal>, Vec<u8>) {
    let mut graph = garbage(case.room);
    let made = second::expression(&case.records, &mut graph);
    (made, graph)
}

#[test]
fn answers_and_values_are_those_of_the_description() {
    for case in cases() {
        let (made, graph) = by_second(&case);
        assert_eq!(line(&made), case.says, "{}", case.name);
        let written = made.map_or(0, |records| GRAPH_RECORD * records);
        assert_eq!(
            graph[written..],
            garbage(case.room)[written..],
            "{}",
            case.name
        );
        if made.is_ok() {
            let value = second::expression_value(&case.records, &values(&case));
            assert_eq!(value.ok(), case.value, "{}", case.name);
        }
    }
}

#[test]
fn the_engine_makes_what_the_second_emulator_makes() {
    for case in cases() {
        let (due, due_graph) = by_second(&case);
        let mut graph = garbage(case.room);
        let answer = engine::expression(&case.records, &mut graph);
        assert_eq!(answer, engine::packed_expression(&due), "{}", case.name);
        assert!(graph == due_graph, "{}", case.name);
        let value = engine::expression_value(&case.records, &values(&case));
        let due = second::expression_value(&case.records, &values(&case));
        assert_eq!(value, engine::packed_value(&due), "{}", case.name);
    }
}

/// Oldest first and newest first, in a ledger of 300 records.
#[test]
fn out_receives_the_value_or_the_run_is_refused_by_12() {
    for case in cases().iter().filter(|case| case.says.starts_with("made")) {
        let (_, graph) = by_second(case);
        let graph = &graph[..graph.len() / GRAPH_RECORD * GRAPH_RECORD];
        let fed = |(variable, &value)| layout::input(variable as u16, 0, value);
        let inputs: Vec<u8> = case.values.iter().enumerate().flat_map(fed).collect();
        let program = Program::plain(graph);
        let newest = second::picks_newest_first(program, &inputs, 300, 0);
        for picks in [Vec::new(), newest] {
            let mut ledger = garbage(300 * TOKEN_RECORD);
            let schedule = Schedule::new(&picks, WHOLE_BUDGET);
            let answer = engine::run(program, &inputs, schedule, &mut ledger, &mut []);
            let (word, _, tokens, _) = engine::unpacked(answer);
            let last = &ledger[TOKEN_RECORD * (tokens as usize - 1)..];
            match case.value {
                Some(value) => {
                    assert_eq!(word, engine::COMPLETED, "{}", case.name);
                    assert_eq!(last[token::VALUE], value.to_le_bytes(), "{}", case.name);
                }
                None => assert_eq!(word, 12, "{}", case.name),
            }
        }
    }
}
