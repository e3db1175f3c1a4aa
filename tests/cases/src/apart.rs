//! The wrong emulators of 01, and the cases that tell each from a right one: the
//! seven that have to be excluded ("How closely a promise holds") and the five
//! plausible errors; then those of the requests of 02. tests/apart.rs runs each over
//! all cases.

/// A wrong emulator.
#[derive(Clone, Copy, Debug, PartialEq, Eq)]
pub enum Wrong {
    /// Ignores the picks and fires oldest first.
    IgnoresPicks,
    /// Makes the first firing truly and then reports completed.
    FirstThenCompleted,
    /// Reports spent with nothing fired.
    SpentAtOnce,
    /// Reports ledger full with nothing fired.
    FullAtOnce,
    /// Invents the number of firings.
    InventsFirings,
    /// Leaves the ledger untouched.
    LeavesLedger,
    /// Answers completed for every graph.
    AlwaysCompleted,
    /// Refuses every graph.
    AlwaysRefused,
    /// Refuses a second token only while the first is live.
    SecondOnlyWhileLive,
    /// Tests a deferred token's port at the write instead of the fetch.
    DeferredAtWrite,
    /// Counts a two-operand activity twice among the enabled.
    CountsTwice,
    /// Rounds quotients down.
    RoundsDown,
    /// Lets a refused firing spend its operands.
    RefusedSpends,
    /// answers completed where a run hangs.
    HungAsCompleted,
    /// takes a deferred token for proper in a completed run.
    DeferredIsProper,
    /// takes an operand that waits for proper in a completed run.
    OperandIsProper,
    /// asks for the budget before it asks whether anything is enabled.
    SpentBeforeHung,
    /// takes a token at a LEAVE for a result in every path.
    LeaveIsResult,
    /// enables a LEAVE under path 0.
    RootLeaveEnabled,
    /// takes a token at a LEAVE under path 0 for no result.
    RootLeaveNotProper,
    /// LEAVE takes the site of the level above its own.
    OuterSite,
}

/// Each wrong emulator with the cases by which it is known.
pub const APART: [(Wrong, &[&str]); 21] = [
    (
        Wrong::IgnoresPicks,
        &[
            "01 * two STOREs to one cell, first pick 1",
            "01 once picks run out, the first is taken",
            "01 a pick is taken mod the number enabled: 65535 of 3, then 7 of 2",
        ],
    ),
    (
        Wrong::FirstThenCompleted,
        &["01 * two STOREs to one cell", "budget 18, exactly enough"],
    ),
    (
        Wrong::SpentAtOnce,
        &["01 the printed example", "01 * budget 1", "01 * capacity 2"],
    ),
    (
        Wrong::FullAtOnce,
        &["01 the printed example", "01 * that graph, budget 0"],
    ),
    (
        Wrong::InventsFirings,
        &["01 the printed example", "01 * two STOREs to one cell"],
    ),
    (
        Wrong::LeavesLedger,
        &["01 the printed example", "01 * that graph, budget 0"],
    ),
    (
        Wrong::AlwaysCompleted,
        &["01 * that graph, budget 0", "01 * capacity 1"],
    ),
    (
        Wrong::AlwaysRefused,
        &["01 the printed example", "01 * no inputs"],
    ),
    (
        Wrong::SecondOnlyWhileLive,
        &[
            "9 an output meets a spent token",
            "9 an output meets its own operand",
        ],
    ),
    (
        Wrong::DeferredAtWrite,
        &["9 an output meets a deferred token, before any write"],
    ),
    (
        Wrong::CountsTwice,
        &[
            "01 * two STOREs to one cell, first pick 1",
            "enabled: number 2 is the last sink",
            "enabled: number 3 of 3 is GATE again",
        ],
    ),
    (
        Wrong::RoundsDown,
        &[
            "01 * -7 DIV 2 is -3",
            "01 * -7 REM 2 is -1",
            "01 * 7 DIV -2 is -3",
        ],
    ),
    (
        Wrong::RefusedSpends,
        &[
            "01 * capacity 2",
            "01 * COPY with both destinations alike",
            "01 * two STOREs to one cell",
        ],
    ),
    (
        Wrong::HungAsCompleted,
        &[
            "hung: FETCH of cell 5 to OUT, nobody stores",
            "hung: ADD with one operand",
        ],
    ),
    (
        Wrong::DeferredIsProper,
        &[
            "hung: FETCH of cell 5 to OUT, nobody stores",
            "hung: one read is woken and another waits",
        ],
    ),
    (
        Wrong::OperandIsProper,
        &[
            "hung: ADD with one operand",
            "hung: two operands of ADD under two iterations",
        ],
    ),
    (
        Wrong::SpentBeforeHung,
        &[
            "hung: ADD with one operand, budget 0",
            "hung: the budget is just used up",
        ],
    ),
    (
        Wrong::LeaveIsResult,
        &["procedure: called, it leaves to its caller"],
    ),
    (
        Wrong::RootLeaveEnabled,
        &[
            "procedure: ADD 1 to LEAVE at the root",
            "procedure: picks count without a LEAVE at the root",
        ],
    ),
    (
        Wrong::RootLeaveNotProper,
        &[
            "procedure: ADD 1 to LEAVE at the root",
            "procedure: an input at a LEAVE",
        ],
    ),
    (
        Wrong::OuterSite,
        &[
            "sites: four levels, and each LEAVE returns by its own site",
            "sites: one procedure called from two sites of another",
        ],
    ),
];
