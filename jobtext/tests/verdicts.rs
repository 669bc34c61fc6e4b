//! `explain` gives the verdict of the second implementation, on generated jobs and any bytes, and
//! always a reason; types and effects are the same entry for entry.

use jobtext::conditions::broken_by;
use jobtext::decode::decode;
use jobtext::explain::explain;
use jobtext::symbols::Symbols;
use jobtext::typing::work_out;
use second::generate::{Rng, job};

const SEEDS: u64 = 8_000;

/// The first line of the verdict that the second implementation gives.
fn verdict(bytes: &[u8]) -> String {
    match second::check(bytes) {
        Ok(accepted) => format!("accepted {:016x} {}", accepted.effect, accepted.kind.word()),
        Err(refusal) => format!("refused {} at {}", refusal.number, refusal.place),
    }
}

fn holds(bytes: &[u8]) -> u32 {
    let explained = explain(bytes, None, true);
    let hex = second::to_hex(bytes);
    assert_eq!(explained.text.lines().next(), Some(verdict(bytes).as_str()), "{hex}");
    assert_eq!(explained.accepted, second::check(bytes).is_ok(), "{hex}");
    let number = second::check(bytes).err().map_or(0, |refusal| refusal.number);
    if number > 0 {
        let found = explained.text.lines().filter(|line| line.starts_with("found:")).count();
        assert!(found > 0, "no reason: {hex}\n{}", explained.text);
    }
    number
}

/// Every entry of the type table, and every expression's entry and effect.
fn same_tables(bytes: &[u8]) {
    if let Ok(accepted) = second::check(bytes) {
        let listing = decode(bytes);
        let typing = work_out(&listing.job, &listing.exprs());
        assert_eq!(typing.table, accepted.types, "{}", second::to_hex(bytes));
        assert_eq!(typing.typed, accepted.exprs, "{}", second::to_hex(bytes));
    }
}

/// No condition is found broken where reading found none.
fn no_false_reason(bytes: &[u8]) {
    let listing = decode(bytes);
    let symbols = Symbols::plain(&listing);
    for command in &listing.commands {
        let reasons = broken_by(&listing, &symbols, command);
        assert!(reasons.is_empty(), "{}: {reasons:?}", second::to_hex(bytes));
    }
}

#[test]
fn generated_jobs() {
    let mut seen = [0; 17];
    for seed in 100_000..100_000 + SEEDS {
        let (_, bytes) = job(seed);
        seen[holds(&bytes) as usize] += 1;
        same_tables(&bytes);
        no_false_reason(&bytes);
    }
    assert!((2..15).all(|number| seen[number] > 0), "not every refusal is met: {seen:?}");
}

#[test]
fn changed_bytes() {
    let mut rng = Rng::new(3);
    for seed in 0..SEEDS {
        let (_, mut bytes) = job(seed);
        for _ in 0..1 + rng.below(3) {
            let at = rng.below(bytes.len().max(1));
            if let Some(byte) = bytes.get_mut(at) {
                *byte = rng.word() as u8;
            }
        }
        holds(&bytes);
    }
}

#[test]
fn wide_types() {
    for depth in 1..=16 {
        holds(&second::bytes_of(&second::generate::ladder(depth, 20, 0)));
        holds(&second::bytes_of(&second::generate::tower(depth)));
    }
}
