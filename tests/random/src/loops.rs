//! Loops in a path of their own, for the bounds of 02's R-9: with a read that enters late,
//! calls from each pass, loops inside loops, and up to the last iteration.

use crate::prng::Prng;
use crate::records::*;

/// The cell that the loop writes at its end, and the one that its calls read.
const WRITTEN: i32 = 0;
const READ: i32 = 1;

/// A loop that is entered, with some of what may hold it back. Answers the number of
/// cells.
pub fn draft(prng: &mut Prng) -> (Draft, usize) {
    let mut draft = Draft::default();
    let result = draft.add(OUT, 0, 0);
    let leave = draft.add(LEAVE, 0, 0);
    let passes = if prng.one_in(4) {
        [254, 255, 256, 256][prng.below(4)]
    } else {
        prng.between(1, 6)
    };
    let site = prng.between(1, 255);
    let (entry, exit) = count(&mut draft, passes, prng);
    enter(&mut draft, site, entry, result, 0, prng);
    let done = draft.add(COPY, 2, 0);
    draft.arc(exit.0, exit.1, done, 0);
    write(&mut draft, done, WRITTEN);
    if !prng.one_in(3) {
        // It waits for what the loop writes in the end, in the loop's path.
        let read = draft.add(FETCH, 1, 0);
        let end = [result, leave][prng.below(2)];
        draft.arc(read, 0, end, 0);
        enter(&mut draft, site, read, result, WRITTEN, prng);
    }
    if prng.one_in(3) {
        // A token that waits for ever, or until the cell is written, at the root.
        let gate = draft.add(GATE, 1, 0);
        draft.arc(gate, 0, result, 0);
        draft.inputs.push((gate, 0, 3));
    }
    if prng.one_in(2) {
        let store = draft.add(STORE, 0, 0);
        draft.inputs.extend([(store, 0, READ), (store, 1, 9)]);
    }
    (draft, 2)
}

/// An ENTER that sends an input to an instruction, through up to three COPYs.
fn enter(draft: &mut Draft, site: i32, to: u16, back: u16, value: i32, prng: &mut Prng) {
    let enter = draft.add(ENTER, 2, site);
    draft.arc(enter, 0, to, 0);
    draft.arc(enter, 1, back, 0);
    let mut entry = enter;
    for _ in 0..prng.below(4) {
        let copy = draft.add(COPY, 1, 0);
        draft.arc(copy, 0, entry, 0);
        entry = copy;
    }
    draft.inputs.push((entry, 0, value));
}

/// Writes a cell with what comes.
fn write(draft: &mut Draft, done: u16, cell: i32) {
    let store = draft.add(STORE, 0, 0);
    let address = draft.add(CONST, 1, cell);
    draft.arc(done, 0, store, 1);
    draft.arc(done, 1, address, 0);
    draft.arc(address, 0, store, 0);
}

/// A loop from 0 on: its entry, and the arc by which it is left.
fn count(draft: &mut Draft, passes: i32, prng: &mut Prng) -> (u16, (u16, usize)) {
    let index = draft.add(COPY, 2, 0);
    let test = draft.add(LT + WITH_CONSTANT, 1, passes);
    let switch = draft.add(SWITCH, 2, 0);
    let step = draft.add(ADD + WITH_CONSTANT, 1, 1);
    let next = draft.add(NEXT, 1, 0);
    draft.arc(index, 0, test, 0);
    draft.arc(index, 1, switch, 0);
    draft.arc(test, 0, switch, 1);
    draft.arc(step, 0, next, 0);
    draft.arc(next, 0, index, 0);
    if passes < 20 && !prng.one_in(3) {
        let body = draft.add(COPY, 2, 0);
        draft.arc(switch, 0, body, 0);
        draft.arc(body, 0, step, 0);
        pass(draft, body, passes, prng);
    } else {
        draft.arc(switch, 0, step, 0);
    }
    (index, (switch, 1))
}

/// What a pass does besides: a slow chain, a read, or a call that reads or loops.
fn pass(draft: &mut Draft, body: u16, passes: i32, prng: &mut Prng) {
    let end = draft.add(SINK, 0, 0);
    match prng.below(5) {
        0 => {
            let mut last = end;
            for _ in 0..1 + prng.below(8) {
                let add = draft.add(ADD + WITH_CONSTANT, 1, 1);
                draft.arc(add, 0, last, 0);
                last = add;
            }
            draft.arc(body, 1, last, 0);
        }
        1 => {
            let read = reader(draft, end);
            draft.arc(body, 1, read, 0);
        }
        kind => {
            let call = draft.add(ENTER, 2, prng.between(1, 255));
            let leave = draft.add(LEAVE, 0, 0);
            draft.arc(body, 1, call, 0);
            draft.arc(call, 1, end, 0);
            let inside = match kind {
                2 => reader(draft, leave),
                _ => called(draft, leave, passes, prng),
            };
            draft.arc(call, 0, inside, 0);
        }
    }
}

/// A read of the cell that calls read, whatever comes.
fn reader(draft: &mut Draft, to: u16) -> u16 {
    let address = draft.add(CONST, 1, READ);
    let read = draft.add(FETCH, 1, 0);
    draft.arc(address, 0, read, 0);
    draft.arc(read, 0, to, 0);
    address
}

/// A loop inside a call, or a call inside a call that reads.
fn called(draft: &mut Draft, leave: u16, passes: i32, prng: &mut Prng) -> u16 {
    if prng.one_in(2) {
        let start = draft.add(CONST, 1, 0);
        let (entry, exit) = count(draft, 1 + passes / 2, prng);
        draft.arc(start, 0, entry, 0);
        draft.arc(exit.0, exit.1, leave, 0);
        return start;
    }
    let back = draft.add(COPY, 1, 0);
    draft.arc(back, 0, leave, 0);
    let call = draft.add(ENTER, 2, prng.between(1, 255));
    let inner = draft.add(LEAVE, 0, 0);
    let read = reader(draft, inner);
    draft.arc(call, 0, read, 0);
    draft.arc(call, 1, back, 0);
    call
}
