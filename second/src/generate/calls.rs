//! Lists of calls: turns, and runs with allowances of all sorts.

use std::array::from_fn;

use super::Rng;
use crate::desk::STEPS;
use crate::machine::Machine;
use crate::value::{Call, THREADS};

/// A number for each thread.
type Steps = [u64; THREADS];
/// Allowances that no thread can use up.
const LARGE: [u64; 5] = [u64::MAX, u64::MAX - 1, 1 << 63, 1 << 32, u32::MAX as u64];

/// The list of calls of a seed for a job.
pub fn calls_of(seed: u64, job: &[u8]) -> Vec<Call> {
    let whole = |mut machine: Machine| machine.run([STEPS; THREADS]).counts;
    calls(&mut Rng::new(seed), &Machine::start(job).map_or([0; THREADS], whole))
}

/// A list of calls for a job of which a whole run took so many steps of each thread. Some of the runs
/// allow just what is left of these, one step more or less, nothing, or as much as there can be.
pub fn calls(rng: &mut Rng, whole: &Steps) -> Vec<Call> {
    let mut left = *whole;
    let draw = |_| {
        if rng.chance(30) {
            return Call::Step;
        }
        let allowed = allowances(rng, &left);
        left = from_fn(|thread| left[thread].saturating_sub(allowed[thread]));
        Call::Run(allowed)
    };
    (0..8).map(draw).collect()
}

/// The allowances of a run where so many steps are left to each thread.
fn allowances(rng: &mut Rng, left: &Steps) -> Steps {
    let most = [u64::MAX; THREADS];
    match rng.below(22) {
        0 => [0; THREADS],
        1 => [rng.pick(&LARGE); THREADS],
        2..5 => *left,
        5 => with_one(rng, left, *left, |_, steps| steps + 1),
        6..8 => with_one(rng, left, *left, |_, steps| steps.saturating_sub(1)),
        8 => with_one(rng, left, *left, |_, _| 0),
        9..12 => with_one(rng, left, most, |rng, _| rng.below(60) as u64),
        12 => with_one(rng, left, [0; THREADS], |rng, _| rng.pick(&[1, 2, 9, u64::MAX])),
        13..15 => [1 + rng.below(30) as u64; THREADS],
        15..18 => from_fn(|_| rng.below(4) as u64 * rng.below(20) as u64),
        _ => from_fn(|thread| allowance(rng, left[thread])),
    }
}

/// Allowances in which that of one thread, mostly of one that has steps left, is another.
fn with_one(
    rng: &mut Rng,
    left: &Steps,
    mut allowances: Steps,
    other: fn(&mut Rng, u64) -> u64,
) -> Steps {
    let threads = left.iter().filter(|&&steps| steps > 0).count();
    let thread = rng.below((threads + 1).min(THREADS));
    allowances[thread] = other(rng, allowances[thread]);
    allowances
}

/// The allowance of a thread that has so many steps left.
fn allowance(rng: &mut Rng, left: u64) -> u64 {
    match rng.below(8) {
        0 => 0,
        1 => 1,
        2 => left,
        3 => left.saturating_sub(1),
        4 => left + 1,
        5 => rng.pick(&LARGE),
        _ => rng.word() % (left + 1),
    }
}
