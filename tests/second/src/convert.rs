//! Records from before R-8 of 02, made new ones.

use crate::{fits, LOG_RECORD, MOST_RECORDS, TOKEN_RECORD};

/// Bytes of a path before R-8; the new ones come behind them.
const OLD_PATH: usize = 8;
/// By how much every record grew.
const GROWN: usize = 8;

/// Inputs or a listing of 20 bytes a token; answers 0, or 7 with `out` untouched.
pub fn convert(old: &[u8], out: &mut [u8]) -> u64 {
    widen(old, out, TOKEN_RECORD)
}

/// A log of 12 bytes a firing; answers 0, or 7 with `out` untouched.
pub fn convert_log(old: &[u8], out: &mut [u8]) -> u64 {
    widen(old, out, LOG_RECORD)
}

/// "Records not whole or past 2,048, or an output of another length, give 7 and nothing
/// written"; else "the new bytes" are zero and later fields move by 8.
fn widen(old: &[u8], out: &mut [u8], record: usize) -> u64 {
    let old_record = record - GROWN;
    if !fits(old.len(), old_record, MOST_RECORDS) || out.len() != old.len() / old_record * record {
        return 7;
    }
    for (number, byte) in old.iter().enumerate() {
        let (row, column) = (number / old_record, number % old_record);
        let moved = if column < OLD_PATH { 0 } else { GROWN };
        out[row * record + column + moved] = *byte;
    }
    for row in out.chunks_exact_mut(record) {
        row[OLD_PATH..OLD_PATH + GROWN].fill(0);
    }
    0
}
