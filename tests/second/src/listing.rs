//! The sorted listing (01, "The printed listing").

use crate::token::Key;
use crate::{MOST_RECORDS, TOKEN_RECORD};

/// Sorts the lent records into `out`; answers 0, or 7 with `out` untouched. Only
/// the key fields of a record are read, the other bytes are carried along.
pub fn list(ledger: &[u8], out: &mut [u8]) -> u64 {
    let whole = ledger.len() % TOKEN_RECORD == 0;
    if out.len() != ledger.len() || !whole || ledger.len() / TOKEN_RECORD > MOST_RECORDS {
        return 7;
    }
    let mut records: Vec<(Key, &[u8])> = ledger
        .chunks_exact(TOKEN_RECORD)
        .map(|record| (key_of(record), record))
        .collect();
    // A stable sort: equal keys keep their order.
    records.sort_by_key(|&(key, _)| key);
    for (place, (_, record)) in out.chunks_exact_mut(TOKEN_RECORD).zip(&records) {
        place.copy_from_slice(record);
    }
    0
}

fn key_of(record: &[u8]) -> Key {
    let mut path = [0; 16];
    path.copy_from_slice(&record[0..16]);
    Key {
        path: u128::from_le_bytes(path),
        iteration: record[16],
        instruction: u16::from_le_bytes([record[18], record[19]]),
        port: record[17],
    }
}
