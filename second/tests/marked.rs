//! The marked cases, the printed example, and what holds of the machine between steps.

mod common;

use common::{refused, run, runs};
use second::generate::{Rng, job, ladder, typed};
use second::names::Names;
use second::{Answer, Machine, Outcome, Refusal, Run, bytes_of, check, from_hex, read, tree};

/// Names 2 under 1, and 3 and 4 under 2.
fn names() -> Names {
    let mut names = Names::default();
    for upper in [1, 2, 2] {
        names.declare(upper, true);
    }
    names
}

fn set<const N: usize>(names: [u8; N]) -> u64 {
    names.into_iter().fold(0, |set, name| set | 1 << name)
}

fn bytes(hex: &str) -> Vec<u8> {
    from_hex(hex).expect("hexadecimal digits")
}

fn prints(hex: &str, lines: &str) {
    common::prints(&bytes(hex), lines);
}

/// Host names 2, 3, 4 as above; types: number, cell of key 3, limit keys of 3 and 4; host values
/// of the last three.
fn keyed(rights: u8, exprs: &str) -> Vec<u8> {
    bytes(&format!(
        "0101 0102 0102 1000 12030000 140003 140004
         200100 07000000 200200 00000000 200300 00000000
         21{rights:02x}00000000000000 {exprs} FF"
    ))
}

#[test]
fn sets_of_names() {
    let names = names();
    assert!(names.set_below(set([3]), set([2])));
    assert!(!names.set_below(set([2]), set([3])));
    assert_eq!(names.reduce(set([2, 3])), set([2]));
    assert_eq!(names.without(set([3, 4]), 2), 0);
    assert_eq!(names.raise(set([3]), 3), set([2]));
}

#[test]
fn limits_narrow() {
    // 2 enabled and limit 3 leaves 3.
    let job = keyed(4, "3201 3200 390100 3C01 0000FFFFFFFFFFFF 0200");
    runs(&job, Outcome::Done, 6);
    // 3 enabled and limit 4 leaves nothing.
    let job = keyed(8, "3202 3200 390100 3C01 0000FFFFFFFFFFFF 0200");
    refused(&job, 13, 3);
    let mut machine = Machine::start(&job).unwrap();
    assert_eq!(run(&mut machine, 100), (Outcome::Denied, 5));
    assert_eq!(machine.step(), (Answer::Denied, 0));
}

#[test]
fn depth() {
    for (depth, refused) in [(16, false), (17, true)] {
        let mut hex = String::from("1000");
        for below in 0..depth - 1u16 {
            let [low, high] = below.to_le_bytes();
            hex += &format!("1200{low:02x}{high:02x}");
        }
        hex += "210000000000000000 3000000000 FF";
        let place = 2 + 4 * (depth as u32 - 2);
        let verdict = read(&bytes(&hex)).err();
        assert_eq!(verdict, refused.then_some(Refusal { number: 6, place }));
    }
}

#[test]
fn arithmetic() {
    prints(
        "210000000000000000 30FFFFFFFF 3001000000 3A0000000100 FF",
        "accepted 0000000000000000 number\ndone 5 number 4294967295\n",
    );
    prints(
        "210000000000000000 3003000000 3005000000 3A0100000100 FF",
        "accepted 0000000000000000 number\ndone 5 number 0\n",
    );
}

#[test]
fn keyed_and_unkeyed_reads() {
    // An unkeyed cell read with no rights.
    prints(
        "1000 12000000 20010007000000 210000000000000000 3200 390000 FF",
        "accepted 0000000000000000 number\ndone 3 number 7\n",
    );
    // A keyed read inside a limit without keys.
    let job = keyed(2, "3200 390000 3C00FFFFFFFFFFFFFFFF0100");
    refused(&job, 13, 2);
}

#[test]
fn example() {
    let example = |rights: &str| {
        bytes(&format!("0101 1000 12020000 20010007000000 21{rights}00000000000000 3200 390000 FF"))
    };
    common::prints(&example("04"), "accepted 0000000000000004 number\ndone 3 number 7\n");
    common::prints(&example("00"), "refused 14 at 1\n");
    runs(&example("00"), Outcome::Denied, 2);
}

#[test]
fn edges_of_reading() {
    prints("", "refused 4 at 0\n");
    prints("00", "refused 2 at 0\n");
    prints("FF", "refused 3 at 0\n");
    prints("0101 02", "refused 4 at 2\n");
    prints("0101 0101", "refused 4 at 4\n");
    prints("0100", "refused 6 at 0\n");
    prints("0202", "refused 6 at 0\n");
    prints("210000000000000000 FF", "refused 3 at 9\n");
    prints("210000000000000000 31 FF 00", "refused 7 at 11\n");
    prints("210100000000000000 31 FF", "refused 6 at 0\n");
    prints("210000000000000000 31 31 FF", "refused 8 at 0\n");
    prints("210000000000000000 323F FF", "refused 10 at 0\n");
    prints("210000000000000000 3240 FF", "refused 6 at 9\n");
}

/// No accepted job is stuck or denied; a whole run is its turns, and the turn that is not taken changes
/// nothing.
#[test]
fn turns_and_runs() {
    for seed in 0..600 {
        let (_, job) = job(seed);
        let Ok(start) = Machine::start(&job) else {
            continue;
        };
        let (mut stepped, mut ran) = (start.clone(), start);
        let run = ran.run([u64::MAX; 8]);
        let mut counts = [0; 8];
        for _ in 0..run.counts.iter().sum() {
            let (answer, thread) = stepped.step();
            assert_eq!(answer, Answer::Taken, "seed {seed}");
            counts[thread] += 1;
        }
        assert!(ran == stepped, "seed {seed}");
        let (answer, thread) = stepped.step();
        let outcome = match answer {
            Answer::Taken => Outcome::Spent,
            Answer::Done => Outcome::Done,
            Answer::NoRoom => Outcome::NoRoom,
            Answer::Stuck => Outcome::Stuck,
            Answer::Denied => Outcome::Denied,
        };
        assert_eq!(run, Run { outcome, counts, thread }, "seed {seed}");
        assert!(ran == stepped, "seed {seed}");
        let failed = matches!(outcome, Outcome::Stuck | Outcome::Denied);
        assert!(!failed || check(&job).is_err(), "seed {seed}");
    }
}

/// What the tables of a read job give back as bytes is the job.
#[test]
fn written_as_read() {
    let mut rng = Rng::new(3);
    for _ in 0..200 {
        let bytes = bytes_of(&typed(&mut rng));
        let job = read(&bytes).unwrap();
        assert_eq!(bytes_of(&job), bytes);
        assert_eq!(tree(&job), Ok(()));
    }
}

/// Deep types with shared parts take no longer than others.
#[test]
fn ladders() {
    let start = std::time::Instant::now();
    for shape in 0..3 {
        assert!(check(&bytes_of(&ladder(16, 120, shape))).is_ok(), "{shape}");
    }
    assert!(start.elapsed().as_secs() < 1);
}
