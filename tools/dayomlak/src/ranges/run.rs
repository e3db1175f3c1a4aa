//! The run of ranges itself: the library's call, alone.

pub use ttda::run_ranges;
