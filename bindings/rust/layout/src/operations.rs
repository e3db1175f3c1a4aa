//! The codes of the operations.

pub const COPY: u8 = 1;
pub const SINK: u8 = 2;
pub const OUT: u8 = 3;
pub const CONST: u8 = 4;
pub const SWITCH: u8 = 5;
pub const GATE: u8 = 6;
pub const NEXT: u8 = 7;
pub const ENTER: u8 = 8;
pub const LEAVE: u8 = 9;
pub const FETCH: u8 = 10;
pub const STORE: u8 = 11;
pub const ADD: u8 = 16;
pub const SUB: u8 = 17;
pub const MUL: u8 = 18;
pub const DIV: u8 = 19;
pub const REM: u8 = 20;
pub const LT: u8 = 21;
pub const LE: u8 = 22;
pub const EQ: u8 = 23;
/// Added to the code of an arithmetic operation: the constant on the right.
pub const WITH_CONSTANT: u8 = 16;

/// Every code.
pub const CODES: [u8; 27] = [
    COPY,
    SINK,
    OUT,
    CONST,
    SWITCH,
    GATE,
    NEXT,
    ENTER,
    LEAVE,
    FETCH,
    STORE,
    ADD,
    SUB,
    MUL,
    DIV,
    REM,
    LT,
    LE,
    EQ,
    ADD + WITH_CONSTANT,
    SUB + WITH_CONSTANT,
    MUL + WITH_CONSTANT,
    DIV + WITH_CONSTANT,
    REM + WITH_CONSTANT,
    LT + WITH_CONSTANT,
    LE + WITH_CONSTANT,
    EQ + WITH_CONSTANT,
];
