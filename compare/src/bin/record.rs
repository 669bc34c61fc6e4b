//! Writes a file of jobs and of what the desk prints for each, by the second implementation.
//!
//! `record FILE`
#![forbid(unsafe_code)]

use std::collections::HashMap;
use std::process::ExitCode;

use second::allowances::{self, at_desk};
use second::desk::STEPS;
use second::generate::{desk_job, example};
use second::observe::{acts, refused_at};
use second::turns::turns;
use second::value::THREADS;
use second::{Accepted, Call, Expr, Job, Machine, Outcome, Refusal, check, desk, read};

/// The seeds that are tried, the cases wanted, and the bytes that all may take.
const SEEDS: std::ops::Range<u64> = 1..40_000;
const CASES: usize = 300;
const BYTES: usize = 65_536;
/// The end of the file, in place of a length.
const END: u16 = 0xFFFF;

/// What must come up of threads in accepted jobs, and the kinds of room that must be used up.
const OF_THREADS: [&str; 11] = [
    "2 threads",
    "8 threads",
    "a thread is started within a round",
    "a thread is started by another than thread 0",
    "a thread reads what another has assigned",
    "a thread takes a look's second branch",
    "done, and thread 0 was the first to end",
    "done, and thread 0 was the last to end",
    "no room in a thread",
    "no room for frames in a thread",
    "no room for a thread in a thread",
];
const ROOMS: [&str; 7] = ["cells", "keys", "pairs", "functions", "frames", "bindings", "threads"];

/// What a job shows, as words; cases are chosen so that each word comes up some times.
fn shows(job: &[u8]) -> Vec<String> {
    let mut words = match check(job) {
        Err(refusal) => refused(job, refusal),
        Ok(accepted) => match (Machine::start(job), read(job)) {
            (Ok(machine), Ok(job)) => runs(machine, &job, &accepted),
            _ => Vec::new(),
        },
    };
    words.sort();
    words.dedup();
    words
}

fn refused(job: &[u8], refusal: Refusal) -> Vec<String> {
    let mut words = vec![format!("refused {}", refusal.number)];
    // Jobs that are full of expressions are long.
    let byte = job.get(refusal.place as usize);
    if refusal.number != 5 || byte.is_none_or(|&byte| byte <= 0x30) {
        // How it stands to threads would bring in too many.
        let at = refused_at(job, refusal).into_iter();
        words.extend(at.filter(|word| !word.ends_with("side Spawn")));
    }
    words
}

/// The same of an accepted job.
fn runs(mut machine: Machine, job: &Job, accepted: &Accepted) -> Vec<String> {
    let run = machine.run([STEPS; THREADS]);
    let outcome = run.outcome;
    let mut words = vec![outcome.words().to_string()];
    words.push(format!("accepted as {}", accepted.kind.word()));
    if let (Outcome::Done, Some(value)) = (outcome, machine.result()) {
        words.push(format!("done with {}", value.kind().word()));
    }
    if outcome == Outcome::NoRoom
        && let [room] = machine.rooms().full()[..]
    {
        words.push(format!("no room in {room}"));
    }
    let pure = if accepted.effect == 0 { "no" } else { "an" };
    let with = |expr: &Expr| format!("accepted with {}, {pure} effect", expr.label());
    words.extend(job.exprs.iter().map(with));
    let (acts, turns) = (acts(job, STEPS), turns(job, &[Call::Run([STEPS; THREADS])]));
    let acts = acts.into_iter().chain(turns).chain(at_desk(&run));
    words.extend(acts.map(|act| format!("accepted, {act}")));
    words
}

/// Whether a word tells how a run ends that is mostly long.
fn is_end(word: &str) -> bool {
    word == "spent" || word.contains("spent at the desk") || word.contains("no room")
}

/// How often a word may bring in a case by itself, up to a round. Long runs are kept few.
fn most(word: &str, round: usize) -> usize {
    match word {
        "spent" => round.min(2),
        _ if is_end(word) => 1,
        _ if word.starts_with("refused") && !word.contains("at") => 4 * round,
        _ if word.starts_with("accepted as") || word.starts_with("done with") => 4 * round,
        _ => round,
    }
}

/// A case as the file holds it.
fn case(job: &[u8]) -> Option<Vec<u8>> {
    let printed = desk(job);
    let length = u16::try_from(job.len()).ok().filter(|&length| length != END)?;
    let mut case = length.to_le_bytes().to_vec();
    case.extend(job);
    case.push(u8::try_from(printed.len()).ok()?);
    case.extend(printed.as_bytes());
    Some(case)
}

/// A generated job and what it shows.
type Shown = (Vec<u8>, Vec<String>);

/// The generated jobs, the shortest first, each once.
fn jobs() -> Vec<Shown> {
    let mut jobs: Vec<Vec<u8>> = SEEDS.map(|seed| desk_job(seed).1).collect();
    jobs.sort_by(|a, b| (a.len(), a).cmp(&(b.len(), b)));
    jobs.dedup();
    let shown = |job: Vec<u8>| {
        let words = shows(&job);
        (job, words)
    };
    jobs.into_iter().map(shown).collect()
}

/// What must come up.
fn must() -> Vec<String> {
    let refused = (2..=14).chain([16]);
    let mut must: Vec<String> = refused.map(|number| format!("refused {number}")).collect();
    must.extend(["done", "spent", "no room"].map(str::to_string));
    must.extend(ROOMS.map(|room| format!("no room in {room}")));
    let looks = ["first", "second"].map(|branch| format!("look takes its {branch} branch"));
    let reckoned = ["sum above 4294967295", "difference below 0"];
    let divided = ["by 0", "by a higher number", "with a rest", "without a rest", "has no room"];
    let divided = divided.map(|act| format!("divide {act}"));
    let acts = reckoned.into_iter().chain(OF_THREADS).map(str::to_string);
    let acts = acts.chain(looks).chain(divided);
    must.extend(acts.map(|act| format!("accepted, {act}")));
    must.extend(allowances::wanted().into_iter().filter(|word| word.contains("at the desk")));
    must
}

/// The cases that were chosen, and how often each word came up.
struct Chosen {
    out: Vec<u8>,
    cases: usize,
    shown: HashMap<String, usize>,
    must: Vec<String>,
}

impl Chosen {
    /// The printed example, with the right that it needs and without.
    fn new() -> Self {
        let out = [4, 0].into_iter().filter_map(|rights| case(&example(rights))).flatten();
        Chosen { out: out.collect(), cases: 2, shown: HashMap::new(), must: must() }
    }

    /// Whether a word may bring in one more case in a round; in the first, only one that must.
    fn few(&self, word: &String, round: usize) -> bool {
        let most = if round == 0 { self.must.contains(word) as usize } else { most(word, round) };
        self.shown.get(word).copied().unwrap_or(0) < most
    }

    /// Takes a job in if it shows something that came up seldom; whether it is to be tried again.
    fn consider(&mut self, (job, words): &Shown, round: usize) -> bool {
        // A long run comes in for its end alone.
        let long = words.iter().any(|word| is_end(word));
        let mut counted = words.iter().filter(|word| !long || is_end(word));
        if !counted.any(|word| self.few(word, round)) || self.cases == CASES {
            return true;
        }
        let Some(case) = case(job).filter(|case| self.out.len() + case.len() + 2 <= BYTES) else {
            return false;
        };
        for word in words {
            *self.shown.entry(word.clone()).or_default() += 1;
        }
        self.out.extend(case);
        self.cases += 1;
        false
    }

    /// Prints what came up; the words that must have, and have not.
    fn report(&self) -> Vec<&String> {
        let mut report: Vec<_> = self.shown.iter().collect();
        report.sort();
        for (word, times) in &report {
            println!("{times:5} {word}");
        }
        println!("{} cases, {} bytes", self.cases, self.out.len());
        self.must.iter().filter(|word| !self.shown.contains_key(*word)).collect()
    }
}

fn main() -> ExitCode {
    let Some(path) = std::env::args().nth(1) else {
        eprintln!("usage: record FILE");
        return ExitCode::from(2);
    };
    let mut jobs = jobs();
    let mut chosen = Chosen::new();
    // After the first one every word may come up some times more in each round.
    for round in 0..=20 {
        jobs.retain(|job| chosen.consider(job, round));
    }
    chosen.out.extend(END.to_le_bytes());
    let missing = chosen.report();
    if !missing.is_empty() {
        eprintln!("not met: {missing:?}");
        return ExitCode::FAILURE;
    }
    match std::fs::write(&path, chosen.out) {
        Ok(()) => ExitCode::SUCCESS,
        Err(error) => {
            eprintln!("{path}: {error}");
            ExitCode::FAILURE
        }
    }
}
