//! Text to files to text to files, over random files of whole records.

use asm::{assemble, disassemble, Files};
use layout::fields::instruction;
use layout::widths::{self, ARRAY, PICK, TOKEN};
use layout::{array, CODES, CONST, ENTER, LEAVE, OUT, SINK, STORE, SWITCH};

/// A small generator of random numbers (splitmix64).
struct Prng(u64);

impl Prng {
    fn word(&mut self) -> u64 {
        self.0 = self.0.wrapping_add(0x9e37_79b9_7f4a_7c15);
        let mut z = self.0;
        z = (z ^ (z >> 30)).wrapping_mul(0xbf58_476d_1ce4_e5b9);
        z = (z ^ (z >> 27)).wrapping_mul(0x94d0_49bb_1331_11eb);
        z ^ (z >> 31)
    }

    fn below(&mut self, end: usize) -> usize {
        (self.word() % end as u64) as usize
    }
}

/// Assembles the text of the files, which gives the same files, and again.
fn round_trip(files: &Files) -> String {
    let text = disassemble(files).unwrap();
    let again = assemble(&text).unwrap_or_else(|error| panic!("{error} in\n{text}"));
    assert_eq!(&again, files, "{text}");
    assert_eq!(disassemble(&again).unwrap(), text);
    text
}

/// A record that is often well-formed: a known code, its fan-out, arcs into the
/// graph and a small constant where one is used.
fn record(prng: &mut Prng, count: usize) -> [u8; widths::INSTRUCTION] {
    let code = CODES[prng.below(CODES.len())];
    let fan_out = match code {
        SINK | OUT | LEAVE => 0,
        SWITCH | ENTER => 2,
        STORE => prng.below(3),
        _ => 1 + prng.below(2),
    };
    let mut record = layout::instruction(code, &[], 0);
    for _ in 0..fan_out {
        let port = u8::from(prng.below(12) == 0);
        let absent = usize::from(prng.below(20) == 0);
        layout::add_arc(&mut record, prng.below(count + absent) as u16, port);
    }
    if matches!(code, CONST | ENTER..=STORE | 32..) {
        let constant = match code {
            ENTER..=STORE => prng.below(4) as i32,
            _ => prng.word() as i32,
        };
        record[instruction::CONSTANT].copy_from_slice(&constant.to_le_bytes());
    }
    if prng.below(10) == 0 {
        record[prng.below(widths::INSTRUCTION)] = prng.word() as u8;
    }
    record
}

fn random_files(prng: &mut Prng) -> Files {
    let count = 1 + prng.below(40);
    let mut files = Files::default();
    for _ in 0..count {
        files.graph.extend(record(prng, count));
    }
    for _ in 0..prng.below(4) {
        let (first, length) = (prng.below(900) as u16, prng.below(150) as u16);
        files.arrays.extend(array(first, length));
    }
    for _ in 0..prng.below(10) {
        let port = prng.below(2) as u8;
        let mut input = layout::input(prng.below(count + 1) as u16, port, prng.word() as i32);
        if prng.below(6) == 0 {
            input[prng.below(TOKEN)] = prng.word() as u8;
        }
        files.inputs.extend(input);
    }
    for _ in 0..prng.below(50) {
        files.picks.extend((prng.word() as u16).to_le_bytes());
    }
    files
}

#[test]
fn random_graphs() {
    let mut prng = Prng(1);
    let (mut typed, mut raw) = (0, 0);
    for _ in 0..3000 {
        let text = round_trip(&random_files(&mut prng));
        raw += text.matches(" raw ").count();
        typed += text.matches(" -> ").count();
    }
    assert!(typed > 10_000 && raw > 1_000, "{typed} typed, {raw} raw");
}

#[test]
fn arbitrary_bytes() {
    let mut prng = Prng(2);
    for _ in 0..500 {
        let mut bytes = |length: usize| (0..length).map(|_| prng.word() as u8).collect();
        let files = Files {
            graph: bytes(widths::INSTRUCTION * 20),
            arrays: bytes(ARRAY * 5),
            inputs: bytes(TOKEN * 10),
            picks: bytes(PICK * 40),
        };
        round_trip(&files);
    }
    round_trip(&Files::default());
    round_trip(&Files {
        graph: vec![SINK; widths::INSTRUCTION * 300],
        arrays: vec![1; ARRAY * 70],
        inputs: vec![0; TOKEN * 3000],
        picks: vec![9; 9000],
    });
}

#[test]
fn all_single_byte_changes() {
    let text = "a: ENTER site 1 -> b.0 return c\nb: LEAVE 0\nc: ADD 1 -> d.0\nd: STORE x -> d.1\narray x = 8 at 9\n";
    let files = assemble(text).unwrap();
    for value in 0..=255 {
        for at in 0..files.graph.len() {
            let mut changed = files.clone();
            changed.graph[at] = value;
            round_trip(&changed);
        }
        for at in 0..files.arrays.len() {
            let mut changed = files.clone();
            changed.arrays[at] = value;
            round_trip(&changed);
        }
    }
}
