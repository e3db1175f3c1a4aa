//! The proved engine of the tagged-token dataflow machine. Every function is one of crates/abi/ttda.h, which says what it
//! writes and when it refuses; buffers are lent as slices, and the answers have types. docs/FORMATS.md gives the records.
//!
//! ```
//! use ttda::layout::{input, instruction, widths, ADD, OUT};
//!
//! let graph = [instruction(ADD, &[(1, 0)], 0), instruction(OUT, &[], 0)].concat();
//! let inputs = [input(0, 0, 7), input(0, 1, -9)].concat();
//! let (mut ledger, mut cells) = (vec![0; 3 * widths::TOKEN], vec![]);
//! // No named arrays, no picks, a budget of 2,048, no loop bound.
//! let answer = ttda::run(&graph, &[], &inputs, &[], 2048, 0, &mut ledger, &mut cells);
//! assert_eq!((answer.word(), answer.firings()), (ttda::Word::Completed, 1));
//! ```

mod answers;
mod functions;
mod limits;

pub use answers::{Answer, Copied, Held, NotPrinted, Printed, Served, Value, Word};
pub use functions::*;
pub use layout::{self, widths};
pub use limits::Limits;
