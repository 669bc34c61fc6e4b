//! Generates jobs and says what they reach.
//!
//! `generate [COUNT] [SEED]` prints how often each refusal, outcome and kind of room is reached, and
//! what sheets show; it fails if one is not; so for what threads and allowances come to, and for the
//! reasons for which generated tables are not written. `generate COUNT SEED desk` prints each job and
//! the desk's lines instead, and `generate COUNT SEED calls` each job, a query of a list of calls and
//! its answer.
#![forbid(unsafe_code)]

use std::collections::{BTreeMap, BTreeSet};
use std::process::ExitCode;

use second::desk::STEPS;
use second::generate::{Rng, calls, calls_of, job, tables};
use second::observe::{Ran, acts, made, observe, refused_at, session};
use second::observe::{wanted_of_acts, wanted_of_threads};
use second::value::THREADS;
use second::{Call, Expr, Outcome, Reply, Run};
use second::{allowances, desk, read, shown, to_hex, turns, write, written};

/// The desk's run.
const WHOLE: Call = Call::Run([STEPS; THREADS]);

/// How often each thing was reached.
type Reached = BTreeMap<String, u64>;

/// Counts what a job reaches.
fn reach(seed: u64, reached: &mut Reached) {
    let (source, job) = job(seed);
    let seen = observe(&job, &[WHOLE]);
    let mut reach = |what: String| *reached.entry(what).or_default() += 1;
    let verdict = match &seen.verdict {
        Ok(accepted) => {
            reach(format!("accepted as {}", accepted.kind.word()));
            "accepted".to_string()
        }
        Err(refusal) => {
            refused_at(&job, *refusal).into_iter().for_each(&mut reach);
            format!("refused {:2}", refusal.number)
        }
    };
    reach(format!("verdict {verdict}"));
    reach(format!("source {source:?} {verdict}"));
    if let (Ok(accepted), Ok(job)) = (&seen.verdict, read(&job)) {
        made(&job, accepted).into_iter().for_each(|made| reach(format!("accepted, {made}")));
        let commands: BTreeSet<String> = job.exprs.iter().map(Expr::label).collect();
        commands.into_iter().for_each(|c| reach(format!("accepted with {c}")));
        let kinds: BTreeSet<&str> = job.types.iter().map(|ty| ty.kind().word()).collect();
        kinds.into_iter().for_each(|kind| reach(format!("accepted with type {kind}")));
    }
    shown::words(&job).into_iter().for_each(&mut reach);
    if let Ok([ran]) = seen.runs.as_deref() {
        let calls = |run: &Run| calls(&mut Rng::new(seed), &run.counts);
        reach_calls(&job, seen.verdict.is_ok(), ran, calls, reach);
    }
}

/// Counts what the desk's run of a job comes to, what its looks, sums, differences and divisions do, and
/// its threads in calls that are drawn for that run.
fn reach_calls(
    job: &[u8],
    accepted: bool,
    ran: &Ran,
    calls: impl Fn(&Run) -> Vec<Call>,
    mut reach: impl FnMut(String),
) {
    let (Ok(job), Reply::Run(run)) = (read(job), ran.reply) else { return };
    let verdict = if accepted { "accepted" } else { "refused" };
    reach(format!("outcome of {verdict} {}", run.outcome.words()));
    if run.outcome == Outcome::NoRoom
        && let [room] = ran.rooms.full()[..]
    {
        reach(format!("no room in {room} alone"));
    }
    let words = acts(&job, STEPS).into_iter().chain(turns::turns(&job, &calls(&run)));
    for word in words.chain(allowances::at_desk(&run)) {
        reach(word.to_string());
        if accepted {
            reach(format!("accepted, {word}"));
        }
    }
}

/// Counts what the writing of the tables of a seed comes to.
fn reach_writing(seed: u64, reached: &mut Reached) {
    let writing = tables(seed);
    let words = written::words(&writing, &write(&writing.fields, writing.room));
    *reached.entry(words).or_default() += 1;
}

/// What must be reached.
fn wanted() -> Vec<String> {
    let refused = (2..=14).chain([16]);
    let mut wanted: Vec<String> = refused.map(|n| format!("verdict refused {n:2}")).collect();
    wanted.extend(["done", "spent", "no room"].map(|w| format!("outcome of accepted {w}")));
    wanted.extend(["stuck", "denied"].map(|w| format!("outcome of refused {w}")));
    wanted.extend(
        ["cells", "keys", "pairs", "functions", "frames", "bindings", "threads"]
            .map(|room| format!("no room in {room} alone")),
    );
    wanted.extend(wanted_of_acts());
    wanted.extend(wanted_of_threads());
    wanted.extend(turns::wanted());
    wanted.extend(shown::wanted());
    wanted.extend(written::wanted(|_, _| true, true));
    wanted
}

fn coverage(count: u64, seed: u64) -> ExitCode {
    let mut reached = Reached::new();
    for seed in seed..seed + count {
        reach(seed, &mut reached);
        reach_writing(seed, &mut reached);
    }
    for (what, times) in &reached {
        println!("{times:8} {what}");
    }
    let missing: Vec<_> = wanted().into_iter().filter(|what| !reached.contains_key(what)).collect();
    missing.iter().for_each(|what| println!("not reached: {what}"));
    for never in ["stuck", "denied"].map(|w| format!("outcome of accepted {w}")) {
        if reached.contains_key(&never) {
            println!("must not be reached: {never}");
            return ExitCode::FAILURE;
        }
    }
    ExitCode::from(!missing.is_empty() as u8)
}

fn main() -> ExitCode {
    let arguments: Vec<String> = std::env::args().skip(1).collect();
    let number = |place: usize, other: u64| {
        arguments.get(place).and_then(|text| text.parse().ok()).unwrap_or(other)
    };
    let (count, seed) = (number(0, 10_000), number(1, 1));
    match arguments.get(2).map(String::as_str) {
        Some("desk") => {
            for seed in seed..seed + count {
                let (_, job) = job(seed);
                println!("{}\t{}", to_hex(&job), desk(&job).trim_end().replace('\n', " | "));
            }
        }
        Some("calls") => {
            for seed in seed..seed + count {
                let (_, job) = job(seed);
                let calls = calls_of(seed, &job);
                let query: Vec<String> = calls.iter().map(Call::to_string).collect();
                let answer = session(&job, &calls).unwrap_or_else(|refusal| refusal.to_string());
                println!("{}\tcalls {}\t{answer}", to_hex(&job), query.join(" "));
            }
        }
        _ => return coverage(count, seed),
    }
    ExitCode::SUCCESS
}
