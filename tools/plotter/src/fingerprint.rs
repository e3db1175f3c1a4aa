//! Fingerprints, by which a reader or a file tells what something is of (SHA-256, FIPS 180-4).

use std::fmt;

#[derive(Clone, Copy, Debug, PartialEq, Eq)]
pub struct Fingerprint(pub [u8; 32]);

impl Fingerprint {
    /// The fingerprint of a graph, its arrays and its inputs. The lengths of the first two stand before them, so that no byte
    /// of one counts for another; both are short.
    pub fn of_run(graph: &[u8], arrays: &[u8], inputs: &[u8]) -> Fingerprint {
        let [graphs, tables] = [graph, arrays].map(|bytes| (bytes.len() as u32).to_le_bytes());
        Fingerprint::of(&[&graphs, &tables, graph, arrays, inputs].concat())
    }

    /// The fingerprint of a run under a loop bound: that of the run itself where there is none.
    pub fn bounded(self, bound: u16) -> Fingerprint {
        match bound {
            0 => self,
            _ => Fingerprint::of(&[&self.0[..], &bound.to_le_bytes()].concat()),
        }
    }

    pub fn of(bytes: &[u8]) -> Fingerprint {
        let mut state = primes().take(8).map(|prime| root(prime, 2));
        let mut state: [u32; 8] = std::array::from_fn(|_| state.next().unwrap_or(0));
        let mut constants = primes().map(|prime| root(prime, 3));
        let constants: [u32; 64] = std::array::from_fn(|_| constants.next().unwrap_or(0));
        for block in padded(bytes).chunks_exact(64) {
            compress(&mut state, &constants, block);
        }
        let mut sum = [0; 32];
        for (four, word) in sum.chunks_exact_mut(4).zip(state) {
            four.copy_from_slice(&word.to_be_bytes());
        }
        Fingerprint(sum)
    }

    /// All 64 digits.
    pub fn digits(&self) -> String {
        self.0.iter().map(|byte| format!("{byte:02x}")).collect()
    }

    /// The fingerprint of 64 digits, as `digits` writes them.
    pub fn from_digits(digits: &str) -> Option<Fingerprint> {
        let byte = |at: usize| u8::from_str_radix(digits.get(2 * at..2 * at + 2)?, 16).ok();
        let bytes: Vec<u8> = (0..32).map(byte).collect::<Option<_>>()?;
        let fingerprint = Fingerprint(bytes.try_into().ok()?);
        (fingerprint.digits() == digits).then_some(fingerprint)
    }
}

/// The first 16 digits, enough for a reader to tell two things apart.
impl fmt::Display for Fingerprint {
    fn fmt(&self, f: &mut fmt::Formatter<'_>) -> fmt::Result {
        f.write_str(&self.digits()[..16])
    }
}

fn primes() -> impl Iterator<Item = u128> {
    (2..).filter(|number| (2..*number).all(|divisor| number % divisor != 0))
}

/// The first 32 bits behind the point of a number's square or cube root.
fn root(number: u128, power: u32) -> u32 {
    let scaled = number << (32 * power);
    let bits = (0..40).rev();
    let root = bits.fold(0u128, |root, bit| {
        let more = root | 1 << bit;
        let fits = more.pow(power) <= scaled;
        if fits {
            more
        } else {
            root
        }
    });
    root as u32
}

/// The bytes, a 1 bit, zeros, and the number of bits in the last 8 bytes of whole blocks.
fn padded(bytes: &[u8]) -> Vec<u8> {
    let mut padded = bytes.to_vec();
    padded.push(0x80);
    while padded.len() % 64 != 56 {
        padded.push(0);
    }
    padded.extend((8 * bytes.len() as u64).to_be_bytes());
    padded
}

fn compress(state: &mut [u32; 8], constants: &[u32; 64], block: &[u8]) {
    let words = schedule(block);
    let [mut a, mut b, mut c, mut d, mut e, mut f, mut g, mut h] = *state;
    for (constant, word) in constants.iter().zip(words) {
        let mixed = e.rotate_right(6) ^ e.rotate_right(11) ^ e.rotate_right(25);
        let first = h.wrapping_add(mixed).wrapping_add((e & f) ^ (!e & g));
        let first = first.wrapping_add(*constant).wrapping_add(word);
        let mixed = a.rotate_right(2) ^ a.rotate_right(13) ^ a.rotate_right(22);
        let second = mixed.wrapping_add((a & b) ^ (a & c) ^ (b & c));
        (h, g, f, e) = (g, f, e, d.wrapping_add(first));
        (d, c, b, a) = (c, b, a, first.wrapping_add(second));
    }
    for (word, more) in state.iter_mut().zip([a, b, c, d, e, f, g, h]) {
        *word = word.wrapping_add(more);
    }
}

/// The 64 words of a block's rounds.
fn schedule(block: &[u8]) -> [u32; 64] {
    let mut words = [0; 64];
    for (word, four) in words.iter_mut().zip(block.chunks_exact(4)) {
        *word = u32::from_be_bytes([four[0], four[1], four[2], four[3]]);
    }
    for number in 16..64 {
        let (early, late) = (words[number - 15], words[number - 2]);
        let early = early.rotate_right(7) ^ early.rotate_right(18) ^ (early >> 3);
        let late = late.rotate_right(17) ^ late.rotate_right(19) ^ (late >> 10);
        let sum = early.wrapping_add(late).wrapping_add(words[number - 16]);
        words[number] = sum.wrapping_add(words[number - 7]);
    }
    words
}

#[cfg(test)]
mod tests {
    use super::Fingerprint;

    /// The examples of the standard, and lengths at which a block is full (by `sha256sum`).
    #[test]
    fn fingerprints_are_the_standards() {
        let cases: [(&[u8], &str); 7] = [
            (
                b"",
                "e3b0c44298fc1c149afbf4c8996fb92427ae41e4649b934ca495991b7852b855",
            ),
            (
                b"abc",
                "ba7816bf8f01cfea414140de5dae2223b00361a396177a9cb410ff61f20015ad",
            ),
            (
                &[7; 55],
                "943cc61860776ca8e78a365d988036ed2ade2ca4aca3236dd9501adc4fbbaa27",
            ),
            (
                &[7; 56],
                "849e6994b02d460680d1d4d9ed690aa35811c88056987e0b6cad0eb85cb7d98d",
            ),
            (
                &[7; 63],
                "4267755c91adbe48467358342d80bda027985cda840cea5aef936cdc0aa6138e",
            ),
            (
                &[7; 64],
                "6cfeeb3aa25d3f411dae5eec17d7369ca7153e72dcf54bcf4c3daec0f5b21fc7",
            ),
            (
                &[7; 1000],
                "df1329c8b6c7cf3740bbe2f8bab34d253a8d9534a79dceea18177081fdf9f0e9",
            ),
        ];
        for (bytes, digits) in cases {
            assert_eq!(Fingerprint::of(bytes).digits(), digits, "{}", bytes.len());
        }
    }

    #[test]
    fn no_byte_of_a_graph_counts_as_an_inputs() {
        let one = Fingerprint::of_run(&[1, 2], &[], &[3]);
        for (graph, arrays, inputs) in [
            (&[1][..], &[][..], &[2, 3][..]),
            (&[1], &[2], &[3]),
            (&[1, 2], &[3], &[]),
            (&[], &[1, 2], &[3]),
        ] {
            assert_ne!(one, Fingerprint::of_run(graph, arrays, inputs));
        }
        assert_eq!(one, Fingerprint::of_run(&[1, 2], &[], &[3]));
        // As it was before there were arrays: the length in 8 bytes.
        assert_eq!(one, Fingerprint::of(&[2, 0, 0, 0, 0, 0, 0, 0, 1, 2, 3]));
        assert_eq!(one.to_string(), one.digits()[..16]);
    }

    /// Each bound has a fingerprint of its own, and none leaves it as it was.
    #[test]
    fn a_bound_counts() {
        let one = Fingerprint::of_run(&[1, 2], &[], &[3]);
        assert_eq!(one.bounded(0), one);
        let bounds = [0, 2, 3, 256].map(|bound| one.bounded(bound).digits());
        let others: std::collections::HashSet<_> = bounds.iter().collect();
        assert_eq!(others.len(), bounds.len());
    }

    #[test]
    fn digits_are_read_back() {
        let one = Fingerprint::of(b"abc");
        let digits = one.digits();
        assert_eq!(Fingerprint::from_digits(&digits), Some(one));
        for wrong in [
            &digits[1..],
            &digits.to_uppercase(),
            &format!("{digits}0"),
            "",
        ] {
            assert_eq!(Fingerprint::from_digits(wrong), None, "{wrong}");
        }
    }
}
