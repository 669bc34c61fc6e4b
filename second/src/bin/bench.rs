//! Times a step of a run and a check.
#![forbid(unsafe_code)]

use std::hint::black_box;
use std::time::Instant;

use second::generate::{Rng, heavy, heavy_threads, job, ladder, looped, tower, typed};
use second::value::THREADS;
use second::{Machine, bytes_of, check};

/// The least time of several tries, in nanoseconds for each of `count`.
fn time(count: u64, mut work: impl FnMut()) -> f64 {
    let least = (0..15).map(|_| {
        let start = Instant::now();
        work();
        start.elapsed()
    });
    least.min().unwrap_or_default().as_nanos() as f64 / count as f64
}

/// The steps of a run.
const STEPS: u64 = 100_000;

/// The steps that a run takes with so many for each thread.
fn taken(start: &Machine, each: u64) -> u64 {
    start.clone().run([each; THREADS]).counts.iter().sum()
}

/// Times a step of a run of differences, by one thread and by eight, and the start of that job.
fn differences() {
    let heavy = bytes_of(&heavy(40));
    let eight = bytes_of(&heavy_threads(40, THREADS));
    for (what, job, threads) in [("run", &heavy, 1), ("eight threads", &eight, THREADS as u64)] {
        let fresh = Machine::start(job).expect("a job that starts");
        let each = STEPS / threads;
        let mut machine = fresh.clone();
        let step = time(taken(&fresh, each), || {
            machine.clone_from(&fresh);
            black_box(machine.run(black_box([each; THREADS])));
        });
        println!("step of {what:18}{step:8.2} ns");
    }
    let start = time(100, || {
        for _ in 0..100 {
            black_box(Machine::start(black_box(&heavy)).is_ok());
        }
    });
    println!("start:                    {start:8.0} ns");
}

/// Times a step of runs of all kinds.
fn mixed() {
    let mut rng = Rng::new(7);
    let loops: Vec<Machine> =
        (0..200).filter_map(|_| Machine::start(&bytes_of(&looped(&mut rng))).ok()).collect();
    let steps = loops.iter().map(|start| taken(start, STEPS)).sum();
    let step = time(steps, || {
        for start in &loops {
            black_box(start.clone().run(black_box([STEPS; THREADS])));
        }
    });
    println!("step of mixed runs:       {step:8.2} ns");
}

/// Times the check of some jobs.
fn checks(what: &str, jobs: &[Vec<u8>]) {
    let bytes: usize = jobs.iter().map(Vec::len).sum();
    let each = time(jobs.len() as u64, || {
        for job in jobs {
            black_box(check(black_box(job)).is_ok());
        }
    });
    println!("check of {what:17}{each:8.0} ns, {} bytes each", bytes / jobs.len());
}

fn main() {
    differences();
    mixed();
    let mut rng = Rng::new(8);
    let large: Vec<Vec<u8>> = std::iter::repeat_with(|| bytes_of(&typed(&mut rng)))
        .filter(|job| job.len() > 800)
        .take(20)
        .collect();
    checks("all kinds of jobs", &(1..2000).map(|seed| job(seed).1).collect::<Vec<_>>());
    checks("large typed jobs", &large);
    checks("512 expressions", &[bytes_of(&tower(512))]);
    let shapes = ["ladder of pairs", "ladder of functions", "ladder of cells"];
    for (shape, what) in shapes.into_iter().enumerate() {
        checks(what, &[bytes_of(&ladder(16, 120, shape))]);
    }
}
