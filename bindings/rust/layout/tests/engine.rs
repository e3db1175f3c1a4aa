//! Every number here is the engine's, as its sources and its C header have it.

use std::fs;

use layout::fields::{cell, instruction, logged, token};
use layout::operations::*;
use layout::widths::*;

const CRATES: &str = concat!(env!("CARGO_MANIFEST_DIR"), "/../../../crates");

/// A number of the engine's: its file, its name there, and what it is here.
type Row = (&'static str, &'static str, usize);

const ENGINE: [Row; 27] = [
    ("record/src/instruction.rt", "WIDTH", INSTRUCTION),
    ("record/src/token.rt", "WIDTH", TOKEN),
    ("record/src/token.rt", "PORT", token::PORT),
    (
        "record/src/token.rt",
        "INSTRUCTION",
        token::INSTRUCTION.start,
    ),
    ("record/src/token.rt", "STATE", token::STATE),
    (
        "record/specs/Widths.antt",
        "value_offset",
        token::VALUE.start,
    ),
    ("record/specs/Widths.antt", "state_offset", token::STATE),
    ("record/src/cell.rt", "WIDTH", CELL),
    ("record/src/array.rt", "WIDTH", ARRAY),
    ("record/src/pick.rt", "WIDTH", PICK),
    ("record/src/log.rt", "WIDTH", LOGGED),
    ("record/src/log.rt", "ZERO", logged::ZERO),
    ("record/src/term.rt", "WIDTH", EXPRESSION),
    ("record/src/term.rt", "VALUE_WIDTH", VARIABLE),
    ("profile/src/lib.rt", "WIDTH", STEP),
    ("range_inputs/src/lib.rt", "WIDTH", RANGE_TOKEN),
    ("range_inputs/src/lib.rt", "HIGH", token::HIGH.start),
    ("range_output/src/lib.rt", "TOKEN_WIDTH", RANGE_TOKEN),
    ("range_output/src/lib.rt", "CELL_WIDTH", RANGE_CELL),
    (
        "record/specs/TokensAndTags.antt",
        "most_tokens",
        MOST_RECORDS,
    ),
    ("rules/specs/Check.antt", "most_cells", MOST_CELLS),
    ("record/specs/Arrays.antt", "most_arrays", MOST_ARRAYS),
    ("record/specs/Calls.antt", "most_levels", MOST_LEVELS),
    ("rules/specs/Expression.antt", "most_terms", MOST_EXPRESSION),
    ("text/src/lib.rt", "ANSWER", ANSWER_LINE),
    ("text/src/lib.rt", "TOKEN", TOKEN_LINE),
    ("text/src/lib.rt", "CELL", CELL_LINE),
];

/// Names of the header behind `TTDA_`.
const HEADER: [(&str, usize); 63] = [
    ("COPY", COPY as usize),
    ("SINK", SINK as usize),
    ("OUT", OUT as usize),
    ("CONST", CONST as usize),
    ("SWITCH", SWITCH as usize),
    ("GATE", GATE as usize),
    ("NEXT", NEXT as usize),
    ("ENTER", ENTER as usize),
    ("LEAVE", LEAVE as usize),
    ("FETCH", FETCH as usize),
    ("STORE", STORE as usize),
    ("ADD", ADD as usize),
    ("SUB", SUB as usize),
    ("MUL", MUL as usize),
    ("DIV", DIV as usize),
    ("REM", REM as usize),
    ("LT", LT as usize),
    ("LE", LE as usize),
    ("EQ", EQ as usize),
    ("WITH_CONSTANT", WITH_CONSTANT as usize),
    ("TOKEN_LIVE", token::LIVE as usize),
    ("TOKEN_SPENT", token::SPENT as usize),
    ("TOKEN_DEFERRED", token::DEFERRED as usize),
    ("CELL_ABSENT", cell::ABSENT as usize),
    ("CELL_WAITING", cell::WAITING as usize),
    ("CELL_PRESENT", cell::PRESENT as usize),
    ("INSTRUCTION_BYTES", INSTRUCTION),
    ("TOKEN_BYTES", TOKEN),
    ("OLD_TOKEN_BYTES", OLD_TOKEN),
    ("CELL_BYTES", CELL),
    ("RANGE_TOKEN_BYTES", RANGE_TOKEN),
    ("RANGE_CELL_BYTES", RANGE_CELL),
    ("ARRAY_BYTES", ARRAY),
    ("PICK_BYTES", PICK),
    ("LOG_BYTES", LOGGED),
    ("OLD_LOG_BYTES", OLD_LOGGED),
    ("STEP_BYTES", STEP),
    ("EXPRESSION_BYTES", EXPRESSION),
    ("VALUE_BYTES", VARIABLE),
    ("INSTRUCTION_CODE", instruction::CODE),
    ("INSTRUCTION_FAN_OUT", instruction::FAN_OUT),
    ("INSTRUCTION_PORTS", instruction::port(0)),
    ("INSTRUCTION_TARGETS", instruction::target(0).start),
    ("INSTRUCTION_CONSTANT", instruction::CONSTANT.start),
    ("TOKEN_PATH", token::PATH.start),
    ("TOKEN_ITERATION", token::ITERATION),
    ("TOKEN_PORT", token::PORT),
    ("TOKEN_INSTRUCTION", token::INSTRUCTION.start),
    ("TOKEN_VALUE", token::VALUE.start),
    ("TOKEN_STATE", token::STATE),
    ("TOKEN_HIGH", token::HIGH.start),
    ("CELL_VALUE", cell::VALUE.start),
    ("CELL_STATE", cell::STATE),
    ("CELL_HIGH", cell::HIGH.start),
    ("LOG_PATH", logged::PATH.start),
    ("LOG_ITERATION", logged::ITERATION),
    ("LOG_INSTRUCTION", logged::INSTRUCTION.start),
    ("MOST_INSTRUCTIONS", MOST_INSTRUCTIONS),
    ("MOST_RECORDS", MOST_RECORDS),
    ("MOST_CELLS", MOST_CELLS),
    ("MOST_ARRAYS", MOST_ARRAYS),
    ("MOST_EXPRESSION", MOST_EXPRESSION),
    ("MOST_LEVELS", MOST_LEVELS),
];

fn read(file: &str) -> String {
    let path = format!("{CRATES}/{file}");
    fs::read_to_string(&path).unwrap_or_else(|error| panic!("{path}: {error}"))
}

/// The number that a line of a source gives to a name: `const NAME: usize = 28;` or `name = 28`.
fn number(text: &str, name: &str) -> Option<usize> {
    text.lines().find_map(|line| {
        let (before, value) = line.split_once(" = ")?;
        let words = before.trim_start_matches("pub ");
        let words = words.trim_start_matches("const ");
        let named = words.split(':').next() == Some(name);
        let value = value.trim_end_matches(';');
        named.then(|| value.parse().ok()).flatten()
    })
}

#[test]
fn the_numbers_are_those_of_the_engine() {
    for (file, name, here) in ENGINE {
        assert_eq!(number(&read(file), name), Some(here), "{name} of {file}");
    }
}

#[test]
fn the_numbers_are_those_of_the_header() {
    let text = read("abi/ttda.h");
    let text = text.replace(['{', '}'], ",");
    let rows = text.split([',', '\n']).filter_map(|row| {
        let (name, value) = row.trim().strip_prefix("TTDA_")?.split_once(" = ")?;
        Some((name, value.parse::<usize>().ok()?))
    });
    let rows: Vec<(&str, usize)> = rows.collect();
    for row in HEADER {
        assert!(rows.contains(&row), "TTDA_{} is not {}", row.0, row.1);
    }
    // The words of an answer are in the types of the crate above.
    let known = |name: &str| HEADER.iter().any(|(known, _)| *known == name);
    let words = ["COMPLETED", "SPENT", "HUNG"];
    let unknown: Vec<&(&str, usize)> = rows
        .iter()
        .filter(|(name, _)| !known(name) && !words.contains(name))
        .collect();
    assert!(unknown.is_empty(), "{unknown:?}");
    let room = format!(
        "({ANSWER_LINE} + {TOKEN_LINE} * (size_t)(tokens) + {CELL_LINE} * (size_t)(cells))"
    );
    assert!(text.contains(&room), "{room}");
}

/// The fields of a record stand side by side and fill it.
#[test]
fn fields_fill_their_records() {
    assert_eq!(instruction::ZEROS.end, INSTRUCTION);
    assert_eq!(instruction::target(1).end, instruction::CONSTANT.start);
    assert_eq!((token::ZEROS.end, token::HIGH.end), (TOKEN, RANGE_TOKEN));
    assert_eq!((cell::ZEROS.end, cell::HIGH.end), (CELL, RANGE_CELL));
    assert_eq!(logged::INSTRUCTION.end, LOGGED);
    assert_eq!(token::KEY.end, token::VALUE.start);
}
