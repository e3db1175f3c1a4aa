//! Random numbers that come out the same again (splitmix64).

use crate::value::Value;

pub struct Random(u64);

impl Random {
    pub fn new(seed: u64) -> Random {
        Random(seed)
    }

    pub fn word(&mut self) -> u64 {
        self.0 = self.0.wrapping_add(0x9e37_79b9_7f4a_7c15);
        let mut word = self.0;
        word = (word ^ (word >> 30)).wrapping_mul(0xbf58_476d_1ce4_e5b9);
        word = (word ^ (word >> 27)).wrapping_mul(0x94d0_49bb_1331_11eb);
        word ^ (word >> 31)
    }

    #[cfg(test)]
    pub fn below(&mut self, end: usize) -> usize {
        (self.word() % end as u64) as usize
    }

    #[cfg(test)]
    pub fn one_of<T: Copy>(&mut self, items: &[T]) -> T {
        items[self.below(items.len())]
    }

    /// One of the numbers of a range, both ends among them.
    pub fn within(&mut self, range: Value) -> i32 {
        let [low, high] = [range.low, range.high].map(i64::from);
        let count = (high - low + 1) as u64;
        (low + (self.word() % count) as i64) as i32
    }
}

#[cfg(test)]
mod tests {
    use super::*;

    /// Every number of a small range comes up, and none beside it; the widest range has room.
    #[test]
    fn within_a_range() {
        let mut random = Random::new(7);
        let range = Value { low: -2, high: 1 };
        let mut seen: Vec<i32> = (0..200).map(|_| random.within(range)).collect();
        seen.sort();
        seen.dedup();
        assert_eq!(seen, [-2, -1, 0, 1]);
        let widest = Value {
            low: i32::MIN,
            high: i32::MAX,
        };
        let signs: Vec<bool> = (0..50).map(|_| random.within(widest) < 0).collect();
        assert!(signs.contains(&true) && signs.contains(&false));
        assert_eq!(random.within(Value::of(i32::MIN)), i32::MIN);
    }
}
