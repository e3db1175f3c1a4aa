//! What a run is given beside graph, named arrays, inputs and picks.

/// As crates/abi/ttda.h has it. A bound of 0 is none.
#[repr(C)]
#[derive(Clone, Copy, Debug, PartialEq, Eq, Hash)]
pub struct Limits {
    pub budget: u64,
    pub bound: u64,
    /// The length of the ledger in bytes.
    pub ledger: u64,
    /// The length of the cells in bytes.
    pub cells: u64,
}
