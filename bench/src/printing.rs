//! Printing, the engine against the second emulator, of what each work leaves. The
//! engine is lent room for the longest text, and then just as many bytes as the
//! text has, where it has to find out first whether it fits.

use std::time::Duration;

use layout::widths;

use crate::{microseconds, middle, ratio, time, Kind, Lent, CELLS};
use second::Answer;

/// What a work of one size leaves, with the times of both printings of it.
pub struct Printing {
    name: &'static str,
    left: Left,
    roomy: (Vec<u8>, Vec<Duration>),
    exact: (Vec<u8>, Vec<Duration>),
    second: Vec<Duration>,
}

/// An answer, the listing of its tokens and the cells.
pub struct Left {
    pub answer: Answer,
    pub packed: u64,
    pub listing: Vec<u8>,
    pub cells: Vec<u8>,
}

impl Left {
    pub fn new((_, work, newest): Kind, size: usize) -> Left {
        let mut lent = Lent::new(work(size), size, newest);
        let answer = lent.agreed();
        let packed = engine::packed_answer(&answer);
        let mut listing = vec![0; widths::TOKEN * answer.tokens];
        assert_eq!(second::list(&lent.ledger[..listing.len()], &mut listing), 0);
        Left {
            answer,
            packed,
            listing,
            cells: lent.cells,
        }
    }

    pub fn engine(&self, out: &mut [u8]) -> u64 {
        engine::print(self.packed, &self.listing, &self.cells, out)
    }

    pub fn second(&self) -> Vec<u8> {
        second::print(&self.answer, &self.listing, &self.cells)
    }
}

/// The bytes of the longest text of these tokens (`text-within` of the crate text).
pub fn longest(tokens: usize) -> usize {
    widths::printed(tokens, CELLS)
}

impl Printing {
    pub fn new(kind: Kind, size: usize) -> Printing {
        let left = Left::new(kind, size);
        let text = left.second();
        let mut roomy = vec![0; longest(left.answer.tokens)];
        let mut exact = vec![0; text.len()];
        for out in [&mut roomy, &mut exact] {
            assert_eq!(left.engine(out), text.len() as u64);
            assert!(out[..text.len()] == text, "the engine prints otherwise");
        }
        Printing {
            name: kind.0,
            left,
            roomy: (roomy, Vec::new()),
            exact: (exact, Vec::new()),
            second: Vec::new(),
        }
    }

    pub fn runs(&mut self, times: usize) {
        for _ in 0..times {
            for (out, times) in [&mut self.roomy, &mut self.exact] {
                times.push(time(|| self.left.engine(out)));
            }
            self.second.push(time(|| self.left.second()));
        }
    }

    pub fn print_head() {
        println!("Printing of what each work leaves.");
        println!();
        println!(
            "| work | tokens | bytes | engine | engine, exact room | second | engine / second |"
        );
        println!("|---|---:|---:|---:|---:|---:|---:|");
    }

    pub fn print(&self) {
        let (roomy, second) = (middle(&self.roomy.1), middle(&self.second));
        println!(
            "| {} | {} | {} | {} | {} | {} | {} |",
            self.name,
            self.left.answer.tokens,
            self.exact.0.len(),
            microseconds(roomy),
            microseconds(middle(&self.exact.1)),
            microseconds(second),
            ratio(roomy, second),
        );
    }
}
