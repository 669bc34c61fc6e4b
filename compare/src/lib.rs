//! What the programs share: calls into the proved code, and what the second implementation expects of
//! them.
#![forbid(unsafe_code)]

pub mod expected;
pub mod lending;
pub mod lines;
pub mod probe;
pub mod proved;
pub mod words;

/// The arguments of a program: a count and a seed, where they are given; nothing if one is no
/// number or there are more.
pub fn arguments() -> Option<[Option<u64>; 2]> {
    let numbers: Result<Vec<u64>, _> = std::env::args().skip(1).map(|text| text.parse()).collect();
    let numbers = numbers.ok().filter(|numbers| numbers.len() <= 2)?;
    Some([numbers.first().copied(), numbers.get(1).copied()])
}
