//! The functions of crates/abi/ttda.h, a line each, with their parameters in its order. Of each line the macro makes the
//! declaration of the C function and the function that Rust calls. A parameter is `lent` (a buffer that is read), `written`
//! (one that is written), `counted` (a number that is written), `answered` (an answer of an earlier call), `limits` (a record of
//! four numbers), or a number of the type that stands there.

use crate::answers::{Answer, Copied, Held, Printed, Served, Value};
use crate::limits::Limits;

macro_rules! functions {
    ($($(#[$about:meta])* $name:ident = $c:ident($($parameters:tt)*) -> $answer:ident;)*) => {
        $(function! { ($(#[$about])* $name $c $answer) [] [] [] $($parameters)*, })*
    };
}

/// Takes the parameters one by one. The three lists are what Rust is given, what C is declared with and what C is passed.
macro_rules! function {
    ($head:tt [$($given:tt)*] [$($declared:tt)*] [$($passed:tt)*] $p:ident: lent, $($rest:tt)*) => {
        function! { $head [$($given)* $p: &[u8],] [$($declared)* *const u8, usize,]
            [$($passed)* $p.as_ptr(), $p.len(),] $($rest)* }
    };
    ($head:tt [$($given:tt)*] [$($declared:tt)*] [$($passed:tt)*] $p:ident: written, $($rest:tt)*) => {
        function! { $head [$($given)* $p: &mut [u8],] [$($declared)* *mut u8, usize,]
            [$($passed)* $p.as_mut_ptr(), $p.len(),] $($rest)* }
    };
    ($head:tt [$($given:tt)*] [$($declared:tt)*] [$($passed:tt)*] $p:ident: counted, $($rest:tt)*) => {
        function! { $head [$($given)* $p: &mut u64,] [$($declared)* *mut u64,] [$($passed)* $p,] $($rest)* }
    };
    ($head:tt [$($given:tt)*] [$($declared:tt)*] [$($passed:tt)*] $p:ident: answered, $($rest:tt)*) => {
        function! { $head [$($given)* $p: Answer,] [$($declared)* u64,] [$($passed)* $p.0,] $($rest)* }
    };
    ($head:tt [$($given:tt)*] [$($declared:tt)*] [$($passed:tt)*] $p:ident: limits, $($rest:tt)*) => {
        function! { $head [$($given)* $p: &Limits,] [$($declared)* *const Limits,] [$($passed)* $p,] $($rest)* }
    };
    ($head:tt [$($given:tt)*] [$($declared:tt)*] [$($passed:tt)*] $p:ident: $number:ident, $($rest:tt)*) => {
        function! { $head [$($given)* $p: $number,] [$($declared)* $number,] [$($passed)* $p,] $($rest)* }
    };
    (($(#[$about:meta])* $name:ident $c:ident $answer:ident) [$($given:tt)*] [$($declared:ty,)*] [$($passed:tt)*]) => {
        $(#[$about])*
        #[allow(clippy::too_many_arguments)]
        pub fn $name($($given)*) -> $answer {
            extern "C" {
                fn $c($(_: $declared),*) -> u64;
            }
            // SAFETY: every pointer comes with the length of its own slice, and what is written is borrowed exclusively.
            $answer(unsafe { $c($($passed)*) })
        }
    };
}

functions! {
    /// Runs a graph under picks, with a budget of firings and a bound of loops, 0 for none. A table of no bytes names no
    /// array.
    run = ttda_run(graph: lent, arrays: lent, inputs: lent, picks: lent, budget: u16, bound: u16,
        ledger: written, cells: written) -> Answer;

    /// Runs a graph whose inputs are known only between limits. Records are wider: `RANGE_TOKEN` and
    /// `RANGE_CELL` of `widths`.
    run_ranges = ttda_run_ranges(graph: lent, arrays: lent, inputs: lent, picks: lent, budget: u16, bound: u16,
        ledger: written, cells: written) -> Answer;

    /// Goes on from what a run left in ledger and cells, and from the firings and tokens that it answered.
    carry_on = ttda_carry_on(graph: lent, arrays: lent, picks: lent, budget: u16, bound: u16, firings: u16,
        tokens: u16, ledger: written, cells: written) -> Answer;

    /// Runs a graph and writes a record for each firing to the log.
    run_logged = ttda_run_logged(graph: lent, arrays: lent, inputs: lent, picks: lent, budget: u16, bound: u16,
        ledger: written, cells: written, log: written) -> Answer;

    /// Fires the activities that a log names, in turn.
    replay = ttda_replay(graph: lent, arrays: lent, inputs: lent, log: lent, ledger: written, cells: written) -> Answer;

    /// Fires by ideal steps, writes a record for each to the profile, and how many there are to `records`.
    profile = ttda_profile(graph: lent, arrays: lent, inputs: lent, ledger: written, cells: written,
        profile: written, records: counted) -> Answer;

    /// How many firings and tokens no run of a graph without loops and calls exceeds; nothing is fired.
    bounds = ttda_bounds(graph: lent, inputs: lent) -> Answer;

    /// Makes the graph of an expression. The answer has the records of the graph in the place of firings.
    expression = ttda_expression(expression: lent, graph: written) -> Answer;

    /// The value of an expression, of the values of its variables.
    expression_value = ttda_expression_value(expression: lent, values: lent) -> Value;

    /// How many activities a bound holds back in what a run left, and how many are enabled in all.
    held = ttda_held(graph: lent, bound: u16, firings: u16, tokens: u16, ledger: lent, cells: lent) -> Held;

    /// Whether what was kept of one run serves for a run that is asked for. `kept_held` is, of a hang, what `held` counts as held back.
    serves = ttda_serves(kept_graph: lent, kept_arrays: lent, kept_inputs: lent, kept_picks: lent, kept_limits: limits,
        kept_answer: answered, kept_held: u64, graph: lent, arrays: lent, inputs: lent, picks: lent, limits: limits) -> Served;

    /// Sorts the used records of a ledger into `out` of the same length.
    list = ttda_list(ledger: lent, out: written) -> Copied;

    /// Makes token records of 20 bytes records of 28.
    convert = ttda_convert(old: lent, out: written) -> Copied;

    /// Makes log records of 12 bytes records of 20.
    convert_log = ttda_convert_log(old: lent, out: written) -> Copied;

    /// Prints an answer, a listing and cells to the start of `out`.
    print = ttda_print(answer: answered, listing: lent, cells: lent, out: written) -> Printed;
}
