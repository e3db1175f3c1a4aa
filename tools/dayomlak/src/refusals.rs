//! The table of refusals: what each means and what to do.

/// One line of the table.
pub struct Refusal {
    pub number: u16,
    pub word: &'static str,
    pub given_when: &'static str,
    pub what_to_do: &'static str,
}

const fn refusal(
    number: u16,
    word: &'static str,
    given_when: &'static str,
    what_to_do: &'static str,
) -> Refusal {
    Refusal {
        number,
        word,
        given_when,
        what_to_do,
    }
}

#[rustfmt::skip]
pub const TABLE: [Refusal; 24] = [
    refusal(1, "graph length",
        "The graph has no instruction, more than 256, or its file is not in whole records of 16 bytes.",
        "Give 1 to 256 instructions."),
    refusal(2, "unknown operation",
        "A record's first byte is the code of no operation.",
        "Mend the `raw` record, or type the instruction by its name."),
    refusal(3, "fan-out",
        "An instruction has too few or too many destinations, or a field that it does not use is not zero.",
        "Mend the number of destinations; clear unused fields and the last four bytes."),
    refusal(4, "bad arc",
        "An arc ends at an instruction that is not there, or at a port that it does not have.",
        "Let each arc end at an instruction of the graph, at a port below its operand count."),
    refusal(5, "bad site",
        "A site is not 1 to 255, a LEAVE constant not 0 to 255, a return not to port 0, or two ENTERs of one site have \
         different returns.",
        "Give each call a site of its own, and all ENTERs of that call the same return."),
    refusal(6, "bad input",
        "An input does not have path, iteration and state 0, or its instruction or port is not there.",
        "Mend the input; inputs go to the root, at iteration 0."),
    refusal(7, "bad store",
        "Inputs, picks, ledger, cells, profile or log are not in whole records; or there are more than 2,048 inputs, picks or \
         ledger records or 1,024 cells; or a log has no record for each firing of the budget.",
        "Use whole records; type at most 2,048 inputs and picks."),
    refusal(8, "ledger full",
        "The tokens of the run do not fit in the ledger. It keeps every token, spent ones too.",
        "Raise --capacity, up to 2,048; else let loops go round less often."),
    refusal(9, "second token",
        "Two tokens came to one port under one tag. A tag takes one token on each port in a whole run, and a spent one \
         counts: otherwise which tokens meet would depend on the order of firing.",
        "A loop needs a NEXT on every arc that goes round; a procedure that is called twice needs an ENTER with another \
         site for each call; of two arcs to one port, or an arc and an input, only one may send under a tag, as the arms of \
         a SWITCH do. `dayomlak check` looks for loops without NEXT and for instructions that send twice to one port."),
    refusal(10, "no such cell",
        "FETCH or STORE got a cell number that is negative or not below the number of cells; or, of a named array, an index \
         that is not 1 to its length.",
        "Look where the number comes from; --cells gives up to 1,024 cells, counted from 0. The elements of an array are \
         counted from 1."),
    refusal(11, "second write",
        "STORE came to a cell that has a value already. A cell is written once.",
        "Give each write a cell of its own, such as one for each iteration."),
    refusal(12, "out of range",
        "A result is outside -2,147,483,648 to 2,147,483,647, or a divisor is 0.",
        "Look at the operands; guard a division by a SWITCH."),
    refusal(13, "iteration",
        "NEXT would go past iteration 255.",
        "Let the loop go round 255 times at most, or split it into two loops, one called from the other."),
    refusal(14, "too deep",
        "ENTER came in a call that is eight levels deep; calls nest no deeper.",
        "Call less deep: turn the recursion into a loop."),
    refusal(17, "no return",
        "LEAVE's constant, added to the return instruction of the call, points past the graph.",
        "Let the results of a call stand right behind its return instruction, one for each LEAVE constant."),
    refusal(18, "profile full",
        "A profile has no record left for the next step.",
        "Lend a longer profile; 2,048 records are always enough."),
    refusal(19, "not loop-free",
        "The graph has a NEXT, an ENTER or a LEAVE, so that no bound of its firings is known before it runs.",
        "Run it: if it completes or hangs, its firings and tokens are the same in every order."),
    refusal(20, "not enabled",
        "A record of the log names an activity that is not enabled, has no zero byte or is not whole.",
        "Replay a log with the graph and inputs it was made with; `dayomlak log` writes one."),
    refusal(21, "bad bound",
        "A loop bound is neither 0, for none, nor 2 to 256.",
        "Give --bound 2 or more; a bound of 256 holds a NEXT back at iteration 255 only."),
    refusal(22, "bad array",
        "An array has a cell past the cells, there are more than 64 arrays, or their file is not in whole records of 4 bytes; \
         or FETCH or STORE names an array that is not in the table.",
        "Let every array end within the cells; --cells gives up to 1,024. Name arrays by lines such as `array a = 8`."),
    refusal(23, "undecided",
        "In a run of ranges: the control of a SWITCH may be 0 or not, or the cell number or index of a FETCH or STORE is not a single \
         value; or an input has its low end above its high end.",
        "Narrow the inputs that it comes from, or run each part of their ranges by itself, so that it is decided in each."),
    refusal(24, "damaged state",
        "Ledger, cells and counts do not meet the conditions for a saved state of this graph: fields and states allowed, a tag and port \
         once, paths of sites that have an ENTER, a tag's operands all spent or none, no result spent, each deferred token at a cell, \
         cells waiting exactly where one is deferred, cell values 0 until present, tokens within the capacity, as many firings as tags \
         with spent operands.",
        "Carry on with the graph, ledger, cells and counts as a run left them; `dayomlak show` names the token that breaks a condition."),
    refusal(25, "bad expression",
        "An expression is not 1 to 100 records of 8 bytes; or a record has a bad field, names a record that is not before it or that \
         was named already; or one that is not the last is never named.",
        "Mend the record at the place; let every record but the last be named exactly once, by a later one."),
    refusal(26, "graph too long",
        "The graph of an expression does not fit in the output.",
        "Lend 16 bytes for each record of the expression and 16 more."),
];

/// The line of a number.
pub fn by_number(number: u16) -> Option<&'static Refusal> {
    TABLE.iter().find(|refusal| refusal.number == number)
}

/// The word of a number.
pub fn word(number: u16) -> &'static str {
    by_number(number).map_or("unknown", |refusal| refusal.word)
}
