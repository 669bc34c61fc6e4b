//! A seeded generator of jobs: most of them well typed, many damaged; one of tables; and one of lists
//! of calls. Beside them a sweep of small jobs and of tables, which has no seed.

mod build;
mod calls;
mod damage;
mod divisions;
mod hosts;
mod limits;
mod looks;
mod setting;
mod sweep;
mod tables;
mod threads;

use crate::job::Job;
use crate::write::bytes_of;

/// A small generator of numbers (splitmix64).
#[derive(Clone, Debug)]
pub struct Rng(u64);

impl Rng {
    /// The generator of a seed.
    pub fn new(seed: u64) -> Self {
        Rng(seed)
    }

    /// The next word.
    pub fn word(&mut self) -> u64 {
        self.0 = self.0.wrapping_add(0x9E37_79B9_7F4A_7C15);
        let mut z = self.0;
        z = (z ^ z >> 30).wrapping_mul(0xBF58_476D_1CE4_E5B9);
        z = (z ^ z >> 27).wrapping_mul(0x94D0_49BB_1331_11EB);
        z ^ z >> 31
    }

    /// A number below `bound`, which is not 0.
    pub fn below(&mut self, bound: usize) -> usize {
        (self.word() % bound as u64) as usize
    }

    /// True `percent` times in a hundred.
    pub fn chance(&mut self, percent: usize) -> bool {
        self.below(100) < percent
    }

    /// One of a list that is not empty.
    pub fn pick<T: Copy>(&mut self, list: &[T]) -> T {
        list[self.below(list.len())]
    }
}

/// Where a job comes from.
#[derive(Clone, Copy, Debug, PartialEq, Eq)]
pub enum Source {
    /// Built by the typing rules.
    Typed,
    /// Built by the typing rules around a function that calls itself.
    Loop,
    /// Built, and then changed in its tables.
    Changed,
    /// Built, and then changed in its bytes.
    Damaged,
    /// Looks at keys, with something around them and in their branches.
    Looks,
    /// Divisions, with keyed operands and such of wrong kinds.
    Divisions,
    /// Threads, with work that they share and keys that they lack.
    Threads,
    /// Many host names and host values, some of them used.
    Hosts,
    /// Near one of the limits.
    Limits,
}

/// The job of a seed.
pub fn job(seed: u64) -> (Source, Vec<u8>) {
    let mut rng = Rng::new(seed ^ 1 << 63);
    if rng.chance(2) { (Source::Hosts, hosts::job(&mut rng)) } else { desk_job(seed) }
}

/// The same from all other sources: many host names and values show nothing more at the desk.
pub fn desk_job(seed: u64) -> (Source, Vec<u8>) {
    let mut rng = Rng::new(seed);
    let rng = &mut rng;
    match rng.below(100) {
        0..22 => (Source::Typed, bytes_of(&typed(rng))),
        22..35 => (Source::Loop, bytes_of(&looped(rng))),
        35..64 => {
            let mut job = match rng.below(20) {
                0..5 => looped(rng),
                5 => looks::job(rng),
                6 => divisions::job(rng),
                7 => threads::job(rng),
                _ => typed(rng),
            };
            for _ in 0..1 + rng.below(3) {
                damage::tables(rng, &mut job);
            }
            (Source::Changed, bytes_of(&job))
        }
        64..78 => {
            let job = match rng.below(12) {
                0 => looks::job(rng),
                1 => divisions::job(rng),
                2 => threads::job(rng),
                _ => typed(rng),
            };
            let mut bytes = bytes_of(&job);
            for _ in 0..1 + rng.below(2) {
                damage::bytes(rng, &mut bytes);
            }
            (Source::Damaged, bytes)
        }
        78..80 => (Source::Looks, bytes_of(&looks::job(rng))),
        80..83 => (Source::Divisions, bytes_of(&divisions::job(rng))),
        83..89 => (Source::Threads, bytes_of(&threads::job(rng))),
        _ => (Source::Limits, limits::job(rng)),
    }
}

/// The printed example, with some rights: the read of a host cell whose key is name 2.
pub fn example(rights: u8) -> Vec<u8> {
    let mut job = vec![0x01, 1, 0x10, 0, 0x12, 2, 0, 0, 0x20, 1, 0, 7, 0, 0, 0];
    job.extend([0x21, rights, 0, 0, 0, 0, 0, 0, 0, 0x32, 0, 0x39, 0, 0, 0xFF]);
    job
}

/// A job that the typing rules mostly accept.
pub fn typed(rng: &mut Rng) -> Job {
    build::job(rng, false)
}

/// The same with a function that calls itself through a cell.
pub fn looped(rng: &mut Rng) -> Job {
    build::job(rng, true)
}

pub use calls::{calls, calls_of};
pub use limits::{heavy, heavy_threads, ladder, largest, tower};
pub use sweep::{sweep, sweep_tables};
pub use tables::{COMMANDS, MOST, Writing, commands, room, tables};
