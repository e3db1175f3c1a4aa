//! The cases of the converters (02, R-8), by the second emulator and by the engine.

use cases::lent::garbage;
use layout::widths::{self, LOGGED, MOST_RECORDS, OLD_LOGGED, TOKEN};

/// A converter of either emulator.
type Converter = fn(&[u8], &mut [u8]) -> u64;

const TOKENS: [Converter; 2] = [second::convert, engine::convert];
const LOGS: [Converter; 2] = [second::convert_log, engine::convert_log];

/// Two calls of site 3 from iteration 2; iteration 9, port 1, instruction 4, value -2, deferred. And what it becomes.
const OLD_TOKEN: [u8; widths::OLD_TOKEN] = [
    2, 3, 2, 3, 0, 0, 0, 0, 9, 1, 4, 0, 0xfe, 0xff, 0xff, 0xff, 2, 0, 0, 0,
];
const NEW_TOKEN: [u8; TOKEN] = [
    2, 3, 2, 3, 0, 0, 0, 0, 0, 0, 0, 0, 0, 0, 0, 0, 9, 1, 4, 0, 0xfe, 0xff, 0xff, 0xff, 2, 0, 0, 0,
];
/// Its activity in a log.
const OLD_FIRING: [u8; OLD_LOGGED] = [2, 3, 2, 3, 0, 0, 0, 0, 9, 0, 4, 0];
const NEW_FIRING: [u8; LOGGED] = [2, 3, 2, 3, 0, 0, 0, 0, 0, 0, 0, 0, 0, 0, 0, 0, 9, 0, 4, 0];

/// That both converters make these bytes of those.
#[track_caller]
fn made(converters: [Converter; 2], old: &[u8], new: &[u8]) {
    for convert in converters {
        let mut out = garbage(new.len());
        assert_eq!(convert(old, &mut out), 0);
        assert_eq!(out, new);
    }
}

/// That both answer 7 and write nothing.
#[track_caller]
fn refused(converters: [Converter; 2], old: &[u8], room: usize) {
    for convert in converters {
        let mut out = garbage(room);
        assert_eq!(convert(old, &mut out), 7);
        assert_eq!(out, garbage(room));
    }
}

#[test]
fn the_new_bytes_are_zero_and_the_later_fields_move() {
    made(TOKENS, &OLD_TOKEN, &NEW_TOKEN);
    made(TOKENS, &OLD_TOKEN.repeat(3), &NEW_TOKEN.repeat(3));
    made(LOGS, &OLD_FIRING, &NEW_FIRING);
    made(LOGS, &OLD_FIRING.repeat(3), &NEW_FIRING.repeat(3));
}

/// Four levels of the highest sites and iterations fill the first eight bytes.
#[test]
fn no_field_is_looked_at() {
    let record = [&[255; 8][..], &[0; 8], &[255; 12]].concat();
    made(TOKENS, &[255; widths::OLD_TOKEN], &record);
    made(LOGS, &[255; OLD_LOGGED], &record[..LOGGED]);
}

#[test]
fn no_record_and_the_most() {
    made(TOKENS, &[], &[]);
    made(LOGS, &[], &[]);
    made(
        TOKENS,
        &OLD_TOKEN.repeat(MOST_RECORDS),
        &NEW_TOKEN.repeat(MOST_RECORDS),
    );
    made(
        LOGS,
        &OLD_FIRING.repeat(MOST_RECORDS),
        &NEW_FIRING.repeat(MOST_RECORDS),
    );
}

#[test]
fn past_2048_records() {
    refused(
        TOKENS,
        &OLD_TOKEN.repeat(MOST_RECORDS + 1),
        (MOST_RECORDS + 1) * TOKEN,
    );
    refused(
        LOGS,
        &OLD_FIRING.repeat(MOST_RECORDS + 1),
        (MOST_RECORDS + 1) * LOGGED,
    );
}

#[test]
fn records_that_are_not_whole() {
    for length in [1, 19, 21, 39] {
        refused(
            TOKENS,
            &OLD_TOKEN.repeat(2)[..length],
            length / widths::OLD_TOKEN * TOKEN,
        );
    }
    for length in [1, 11, 13, 23] {
        refused(
            LOGS,
            &OLD_FIRING.repeat(2)[..length],
            length / OLD_LOGGED * LOGGED,
        );
    }
}

#[test]
fn outputs_of_another_length() {
    for room in [0, 20, 27, 29, 56] {
        refused(TOKENS, &OLD_TOKEN, room);
    }
    for room in [0, 12, 19, 21, 40] {
        refused(LOGS, &OLD_FIRING, room);
    }
    refused(TOKENS, &[], 28);
    refused(LOGS, &[], 20);
}
