//! Bounds of a graph without loops and calls, worked out without firing (02, R-3).

use crate::graph::{Destination, Graph, Operation};
use crate::token::Token;
use crate::{fits, parse_inputs, Refusal, MOST_RECORDS, TOKEN_RECORD};

/// The most firings and tokens of a run, and whether every run that completes or hangs
/// has exactly these, since no SWITCH or FETCH is reached.
#[derive(Clone, Copy, Debug, PartialEq, Eq)]
pub struct Bounds {
    pub firings: usize,
    pub tokens: usize,
    pub exact: bool,
}

/// The bounds, or one of 1 to 7, then 19 at the first NEXT, ENTER or LEAVE.
pub fn bounds(graph: &[u8], inputs: &[u8]) -> Result<Bounds, Refusal> {
    let graph = Graph::parse(graph)?;
    if !fits(inputs.len(), TOKEN_RECORD, MOST_RECORDS) {
        return Err(Refusal::BAD_STORE);
    }
    let tokens: Vec<Token> = parse_inputs(inputs, &graph)?;
    if let Some(place) = graph.instructions.iter().position(|i| loops(i.operation)) {
        return Err(Refusal { number: 19, place });
    }
    let mut bounds = Bounds {
        firings: 0,
        tokens: tokens.len(),
        exact: true,
    };
    let fed = tokens.iter().map(|token| Destination {
        instruction: token.instruction,
        port: token.port,
    });
    for number in reached(&graph, fed.collect()) {
        let instruction = &graph.instructions[number];
        let operation = instruction.operation;
        bounds.firings += usize::from(operation != Operation::Out);
        bounds.tokens += match operation {
            // It reaches both sides and sends one token.
            Operation::Switch => 1,
            _ => usize::from(instruction.fan_out),
        };
        bounds.exact &= !matches!(operation, Operation::Switch | Operation::Fetch);
    }
    Ok(bounds)
}

fn loops(operation: Operation) -> bool {
    matches!(
        operation,
        Operation::Next | Operation::Enter | Operation::Leave
    )
}

/// The instructions that are reached from the ports fed at first: a port is reached if
/// it is fed or a reached instruction sends to it, an instruction if all its ports are.
fn reached(graph: &Graph, mut sent: Vec<Destination>) -> Vec<usize> {
    let mut ports = vec![[false; 2]; graph.instructions.len()];
    let mut reached = Vec::new();
    while let Some(arc) = sent.pop() {
        let number = usize::from(arc.instruction);
        let instruction = &graph.instructions[number];
        let known = &mut ports[number][usize::from(arc.port)];
        if std::mem::replace(known, true) {
            continue;
        }
        let operands = usize::from(instruction.operands);
        if ports[number][..operands].iter().all(|&sent| sent) {
            reached.push(number);
            sent.extend(&instruction.destinations[..usize::from(instruction.fan_out)]);
        }
    }
    reached
}
