//! What the runs are made of: generated graphs, changed ones, long loops and
//! graphs of arbitrary arcs.

use layout::widths::MOST_INSTRUCTIONS;

use crate::arrays;
use crate::generate::{Generator, Size};
use crate::loops;
use crate::meetings;
use crate::prng::Prng;
use crate::records::*;

/// A graph with its inputs and the number of cells that it uses.
pub struct Subject {
    pub kind: &'static str,
    pub graph: Vec<u8>,
    pub arrays: Vec<u8>,
    pub inputs: Vec<u8>,
    pub cells: usize,
}

pub fn subject(prng: &mut Prng) -> Subject {
    loop {
        let (kind, mut draft, cells) = draft(prng);
        if draft.instructions.len() <= MOST_INSTRUCTIONS {
            if prng.one_in(25) {
                draft.fill();
            }
            draft.shuffle(prng);
            arrays::fill(&mut draft, cells, prng);
            return Subject {
                kind,
                graph: draft.graph_bytes(),
                arrays: draft.array_bytes(),
                inputs: draft.input_bytes(),
                cells,
            };
        }
    }
}

const SMALL: Size = Size {
    steps: 12,
    passes: 4,
    loop_free: false,
};
const MEDIUM: Size = Size {
    steps: 30,
    passes: 12,
    loop_free: false,
};
const LARGE: Size = Size {
    steps: 40,
    passes: 120,
    loop_free: false,
};

const LOOP_FREE: Size = Size {
    steps: 40,
    passes: 0,
    loop_free: true,
};

/// The kind of a graph, its draft and the number of its cells.
type Drafted = (&'static str, Draft, usize);

fn draft(prng: &mut Prng) -> Drafted {
    match prng.below(100) {
        0..=46 => generated(prng, "small", SMALL),
        47..=54 => generated(prng, "loop-free", LOOP_FREE),
        55..=66 => generated(prng, "medium", MEDIUM),
        67 => generated(prng, "large", LARGE),
        68 => long_loop(prng),
        69..=72 => extremes(prng),
        73..=75 => met(prng),
        76..=83 => looped(prng),
        84..=91 => changed(prng),
        _ => arbitrary(prng),
    }
}

fn met(prng: &mut Prng) -> Drafted {
    let (draft, cells) = meetings::draft(prng);
    ("meeting", draft, cells)
}

fn looped(prng: &mut Prng) -> Drafted {
    let (draft, cells) = loops::draft(prng);
    ("loop", draft, cells)
}

fn changed(prng: &mut Prng) -> Drafted {
    let (_, mut draft, cells) = generated(prng, "small", SMALL);
    for _ in 0..1 + prng.below(3) {
        change(&mut draft, prng);
    }
    ("changed", draft, cells)
}

fn generated(prng: &mut Prng, kind: &'static str, size: Size) -> Drafted {
    let mut generator = Generator::new(prng, size);
    let cells = generator.graph();
    (kind, generator.draft, cells)
}

/// A loop of about 255 passes, some of which read a cell that one STORE fills.
fn long_loop(prng: &mut Prng) -> Drafted {
    let mut draft = Draft::default();
    let index = draft.add(COPY, 2, 0);
    let test = draft.add(LT + WITH_CONSTANT, 1, prng.between(200, 257));
    let switch = draft.add(SWITCH, 2, 0);
    let step = draft.add(ADD + WITH_CONSTANT, 1, 1);
    let next = draft.add(NEXT, 1, 0);
    let exit = long_exit(&mut draft, prng);
    draft.arc(index, 0, test, 0);
    draft.arc(index, 1, switch, 0);
    draft.arc(test, 0, switch, 1);
    draft.arc(switch, 0, step, 0);
    draft.arc(switch, 1, exit, 0);
    draft.arc(step, 0, next, 0);
    draft.arc(next, 0, index, 0);
    draft.inputs.push((index, 0, prng.between(0, 3)));
    if prng.one_in(2) {
        // NEXT sends the index to a read of cell 0 as well.
        draft.instructions[usize::from(next)].arcs.push((0, 0));
        let cell = draft.add(REM + WITH_CONSTANT, 1, 1);
        let fetch = draft.add(FETCH, 1, 0);
        let result = draft.add(OUT, 0, 0);
        draft.arc(next, 1, cell, 0);
        draft.arc(cell, 0, fetch, 0);
        draft.arc(fetch, 0, result, 0);
        let store = draft.add(STORE, 0, 0);
        draft.inputs.extend([(store, 0, 0), (store, 1, -5)]);
    }
    ("long", draft, 1)
}

/// Where a long loop ends: OUT, or a call at the iteration of the last pass.
fn long_exit(draft: &mut Draft, prng: &mut Prng) -> u16 {
    let out = draft.add(OUT, 0, 0);
    if prng.one_in(2) {
        return out;
    }
    let enter = draft.add(ENTER, 2, prng.between(1, 255));
    let leave = draft.add(LEAVE, 0, 0);
    draft.arc(enter, 0, leave, 0);
    draft.arc(enter, 1, out, 0);
    enter
}

/// One to three arithmetic instructions over operands at the ends of the range.
fn extremes(prng: &mut Prng) -> Drafted {
    const VALUES: [i32; 13] = [
        i32::MIN,
        i32::MIN + 1,
        -65_536,
        -32_768,
        -7,
        -2,
        -1,
        0,
        1,
        2,
        32_768,
        i32::MAX - 1,
        i32::MAX,
    ];
    let mut draft = Draft::default();
    for _ in 0..1 + prng.below(3) {
        let mut code = ADD + prng.below(8) as u8;
        let mut value = || VALUES[prng.below(VALUES.len())];
        let (mut left, mut right) = (value(), value());
        if prng.one_in(4) {
            // DIV is out of range, REM is 0.
            code = DIV + prng.below(2) as u8;
            (left, right) = (i32::MIN, -1);
        }
        let out = draft.add(OUT, 0, 0);
        let number = if prng.one_in(2) {
            draft.add(code + WITH_CONSTANT, 1, right)
        } else {
            let number = draft.add(code, 1, 0);
            draft.inputs.push((number, 1, right));
            number
        };
        draft.inputs.push((number, 0, left));
        draft.arc(number, 0, out, 0);
    }
    ("extremes", draft, 0)
}

/// One change of a valid graph that often lets two tokens take one port, or a
/// result go out of range.
fn change(draft: &mut Draft, prng: &mut Prng) {
    let count = draft.instructions.len();
    let number = prng.below(count);
    match prng.below(9) {
        0 => redirect(draft, number, prng),
        1 | 2 => share_arc(draft, prng),
        3 => {
            if let [first, second] = &mut draft.instructions[number].arcs[..] {
                *second = *first;
            }
        }
        4 => {
            let code = draft.instructions[number].code;
            if code >= ADD {
                draft.instructions[number].code = code & !7 | prng.below(8) as u8;
            }
        }
        5 => {
            let names = draft.arrays.len();
            change_constant(&mut draft.instructions[number], names, prng);
        }
        6 if !draft.inputs.is_empty() => {
            let input = prng.below(draft.inputs.len());
            draft.inputs.swap_remove(input);
        }
        7 if !draft.inputs.is_empty() => {
            let input = prng.below(draft.inputs.len());
            draft.inputs[input].2 = prng.word() as i32;
        }
        _ => draft.instructions[number].arcs.reverse(),
    }
}

/// Draws the last arc of an instruction to any port.
fn redirect(draft: &mut Draft, number: usize, prng: &mut Prng) {
    let target = prng.below(draft.instructions.len());
    let ports = second::operand_count(draft.instructions[target].code);
    let port = prng.below(usize::from(ports)) as u8;
    if let Some(arc) = draft.instructions[number].arcs.last_mut() {
        *arc = (target as u16, port);
    }
}

/// Lets two instructions, FETCHes in half of all cases, send to one port.
fn share_arc(draft: &mut Draft, prng: &mut Prng) {
    let fetches = prng.one_in(2);
    let senders: Vec<usize> = (0..draft.instructions.len())
        .filter(|&number| {
            let instruction = &draft.instructions[number];
            !instruction.arcs.is_empty() && (!fetches || instruction.code == FETCH)
        })
        .collect();
    if !senders.is_empty() {
        let from = senders[prng.below(senders.len())];
        let to = senders[prng.below(senders.len())];
        draft.instructions[to].arcs[0] = draft.instructions[from].arcs[0];
    }
}

/// Another constant; at FETCH and STORE the name of one of the arrays.
fn change_constant(instruction: &mut Instruction, names: usize, prng: &mut Prng) {
    match instruction.code {
        FETCH | STORE => instruction.constant = prng.below(names + 1) as i32,
        CONST | 32..=39 => instruction.constant = prng.between(-2, 5),
        LEAVE => instruction.constant = prng.between(0, 255),
        ENTER => instruction.constant = prng.between(1, 4),
        _ => {}
    }
}

/// Well-formed instructions with arcs to anywhere and inputs at any ports.
fn arbitrary(prng: &mut Prng) -> Drafted {
    let mut draft = Draft::default();
    let names = prng.below(2) * prng.below(4);
    for _ in 0..names {
        let first = prng.below(8);
        draft
            .arrays
            .push((first as u16, prng.below(9 - first) as u16));
    }
    let count = 1 + prng.below(24);
    for _ in 0..count {
        let code = CODES[prng.below(CODES.len())];
        let fan_out = match code {
            SINK | OUT | LEAVE => 0,
            SWITCH | ENTER => 2,
            STORE => prng.below(3),
            _ => 1 + prng.below(2),
        };
        draft.add(code, fan_out, 0);
        let last = draft.instructions.len() - 1;
        change_constant(&mut draft.instructions[last], names, prng);
    }
    for number in 0..count {
        for arc in 0..draft.instructions[number].arcs.len() {
            let returns = draft.instructions[number].code == ENTER && arc == 1;
            let target = prng.below(count);
            let ports = usize::from(second::operand_count(draft.instructions[target].code));
            let port = if returns { 0 } else { prng.below(ports) as u8 };
            draft.arc(number as u16, arc, target as u16, port);
        }
        for port in 0..second::operand_count(draft.instructions[number].code) {
            if prng.one_in(3) {
                draft
                    .inputs
                    .push((number as u16, port, prng.between(-2, 9)));
            }
        }
    }
    ("arbitrary", draft, 8)
}
