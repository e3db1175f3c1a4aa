//! The ordered set of the places of enabled activities.

use crate::MOST_RECORDS;

const WORDS: usize = MOST_RECORDS / 64;

/// A set of ledger positions in ascending order, one bit for each.
pub struct Places {
    words: [u64; WORDS],
    count: usize,
}

impl Places {
    pub fn new() -> Places {
        Places {
            words: [0; WORDS],
            count: 0,
        }
    }

    pub fn len(&self) -> usize {
        self.count
    }

    /// Adds a place that is not in the set.
    pub fn insert(&mut self, place: usize) {
        debug_assert!(!self.contains(place));
        self.words[place / 64] |= 1 << (place % 64);
        self.count += 1;
    }

    pub fn contains(&self, place: usize) -> bool {
        self.words[place / 64] >> (place % 64) & 1 == 1
    }

    /// Takes out a place that is in the set.
    pub fn remove(&mut self, place: usize) {
        debug_assert!(self.contains(place));
        self.words[place / 64] &= !(1 << (place % 64));
        self.count -= 1;
    }

    /// The place of the given number in ascending order, counted from 0; the
    /// number is below the set's length.
    pub fn nth(&self, number: usize) -> usize {
        let mut before = number;
        for (index, &word) in self.words.iter().enumerate() {
            let ones = word.count_ones() as usize;
            if before < ones {
                return 64 * index + nth_one(word, before);
            }
            before -= ones;
        }
        unreachable!("the number is below the length of the set")
    }

    /// The same without some of the set's places, which are in ascending order: each of
    /// them up to the place looked for moves it on by one.
    pub fn nth_without(&self, number: usize, left_out: &[usize]) -> usize {
        let mut number = number;
        for &place in left_out {
            if place > self.nth(number) {
                break;
            }
            number += 1;
        }
        self.nth(number)
    }
}

/// The position of a word's one bit of the given number, counted from 0.
fn nth_one(word: u64, number: usize) -> usize {
    let mut rest = word;
    for _ in 0..number {
        rest &= rest - 1;
    }
    rest.trailing_zeros() as usize
}

#[cfg(test)]
mod tests {
    use super::Places;

    #[test]
    fn places_come_in_ascending_order() {
        let mut places = Places::new();
        for place in [2047, 0, 63, 64, 1000] {
            places.insert(place);
        }
        let all: Vec<usize> = (0..places.len()).map(|n| places.nth(n)).collect();
        assert_eq!(all, [0, 63, 64, 1000, 2047]);
        let kept: Vec<usize> = (0..3).map(|n| places.nth_without(n, &[0, 64])).collect();
        assert_eq!(kept, [63, 1000, 2047]);
        places.remove(63);
        assert_eq!((places.len(), places.nth(1)), (4, 64));
    }
}
