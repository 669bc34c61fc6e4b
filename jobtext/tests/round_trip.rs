//! `dump` then `asm` gives the same bytes: of generated jobs, recorded ones, and any bytes at all.

use jobtext::{assemble, dump, hex};
use second::generate::{Rng, job};

/// The seeds that are tried.
const SEEDS: u64 = 8_000;

/// Fails unless the bytes come back.
fn comes_back(bytes: &[u8]) {
    let (text, whole) = dump(bytes);
    assert_eq!(whole, second::read(bytes).is_ok(), "{}", second::to_hex(bytes));
    match assemble(&text) {
        Ok(made) => assert_eq!(made.bytes, bytes, "{}\n{text}", second::to_hex(bytes)),
        Err(problems) => {
            let shown: String =
                problems.iter().map(|problem| problem.show("text", &text)).collect();
            panic!("{}\n{text}\n{shown}", second::to_hex(bytes));
        }
    }
    assert_eq!(hex::read(&hex::write(bytes)).ok().as_deref(), Some(bytes));
}

#[test]
fn generated_jobs() {
    let mut read = 0;
    for seed in 0..SEEDS {
        let (_, bytes) = job(seed);
        read += second::read(&bytes).is_ok() as u64;
        comes_back(&bytes);
    }
    assert!(read > SEEDS / 2, "only {read} of {SEEDS} jobs read");
}

#[test]
fn recorded_cases() {
    let file = std::fs::read("../crates/cases/stdin").expect("the recorded cases");
    let (mut rest, mut count) = (&file[..], 0);
    while let [low, high, after @ ..] = rest
        && (*low, *high) != (0xFF, 0xFF)
    {
        let (bytes, after) = after.split_at(u16::from_le_bytes([*low, *high]) as usize);
        comes_back(bytes);
        rest = &after[1 + after[0] as usize..];
        count += 1;
    }
    assert!(count >= 300, "only {count} cases");
}

#[test]
fn any_bytes() {
    let mut rng = Rng::new(7);
    for _ in 0..10_000 {
        let length = rng.below(60);
        let bytes: Vec<u8> = (0..length).map(|_| random_byte(&mut rng)).collect();
        comes_back(&bytes);
    }
}

/// A byte that is often a command or a small number.
fn random_byte(rng: &mut Rng) -> u8 {
    match rng.below(4) {
        0 => rng.pick(jobtext::commands::ROWS).byte,
        1 => rng.word() as u8,
        _ => rng.below(4) as u8,
    }
}

/// A job whose expressions use each other in any way: shared, unused, out of order.
fn tangled(rng: &mut Rng) -> Vec<u8> {
    let mut bytes = vec![0x02, 1, 0x10, 0, 0x14, 0, 1, 0x21, 0, 0, 0, 0, 0, 0, 0, 0];
    let count = 1 + rng.below(40);
    for number in 0..count {
        let e = |rng: &mut Rng| (rng.below(number.max(1)) as u16).to_le_bytes();
        let (a, b, c) = (e(rng), e(rng), e(rng));
        match rng.below(if number == 0 { 3 } else { 12 }) {
            0 => bytes.extend([0x30, rng.word() as u8, 0, 0, 0]),
            1 => bytes.push(0x31),
            2 => bytes.extend([0x32, rng.below(64) as u8]),
            3 => bytes.extend([rng.pick(&[0x33, 0x41]), a[0], a[1], b[0], b[1]]),
            4 => bytes.extend([0x34, a[0], a[1], 1 + rng.below(2) as u8]),
            5 => bytes.extend([0x35, rng.below(64) as u8, 0, 0, a[0], a[1]]),
            6 => bytes.extend([0x3A, rng.below(2) as u8, a[0], a[1], b[0], b[1]]),
            7 => {
                let byte = rng.pick(&[0x3B, 0x40]);
                bytes.extend([byte, a[0], a[1], b[0], b[1], c[0], c[1], 1, 0]);
            }
            8 => {
                let f = 0xFF;
                bytes.extend([0x3C, 2, a[0], a[1], b[0], b[1], f, f, f, f, c[0], c[1]]);
            }
            9 => bytes.extend([0x3D, a[0], a[1], b[0], b[1]]),
            10 => bytes.extend([0x3E, rng.below(64) as u8, 2, a[0], a[1], b[0], b[1], 0, 0]),
            _ => bytes.extend([rng.pick(&[0x39, 0x42]), a[0], a[1]]),
        }
    }
    bytes.push(0xFF);
    bytes
}

#[test]
fn tangled_jobs() {
    let mut rng = Rng::new(11);
    for _ in 0..10_000 {
        let bytes = tangled(&mut rng);
        assert!(second::read(&bytes).is_ok(), "{}", second::to_hex(&bytes));
        comes_back(&bytes);
    }
}
