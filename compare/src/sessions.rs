//! Sessions of generated jobs: verdict, tables, answers, the value at the end and the cells.

use compare::expected;
use compare::proved::{Held, RESULTS, Tables, session, words_of};
use compare::words::{Words, words};
use jobdesk::{ANSWER_WORDS, CALL_WORDS};
use second::generate::Rng;
use second::{Accepted, Call, Job, Machine, Refusal, check, read};

use crate::generated::{Met, long_enough, same, same_tables};

/// What a session ends with, by the first word of the value.
const END: [&str; 7] = ["no value", "number", "pair", "cell", "function", "limit", "grant"];
/// What is too short for a session.
const SHORT: [&str; 5] = ["list of answers", "value", "list of cells", "verdict", "call"];

/// What must be met of sessions.
pub fn wanted() -> Vec<String> {
    let mut wanted: Vec<String> = END.map(|end| format!("session ends with {end}")).to_vec();
    wanted.extend(SHORT.map(no_session));
    wanted
}

/// The words for a session that is lent something too short.
fn no_session(short: &str) -> String {
    format!("no session 1: short {short}")
}

/// What a session must leave: the words it writes over those that were there.
fn over(before: &Held, answers: &[u64], machine: Option<&Machine>, out: [u64; 2]) -> Held {
    let mut held = before.clone();
    held.answers[..answers.len()].copy_from_slice(answers);
    held.value[..2].copy_from_slice(&expected::value(machine.and_then(Machine::result)));
    let cells = machine.map_or(&[][..], Machine::cells);
    for (place, words) in held.cells[..RESULTS[1]].chunks_mut(2).enumerate() {
        words.copy_from_slice(&expected::value(cells.get(place).copied()));
    }
    held.out[..2].copy_from_slice(&out);
    held
}

/// Compares a session of a job.
pub fn compare_session(
    job: &[u8],
    calls: &[Call],
    rng: &mut Rng,
    met: &mut Met,
) -> Result<(), String> {
    let mut tables = Tables::dirty(long_enough(rng), rng);
    let mut held = Held::dirty(calls.len(), rng);
    let (before, lent) = (tables.clone(), held.clone());
    let lengths = [ANSWER_WORDS * calls.len(), RESULTS[0], RESULTS[1], RESULTS[2]];
    let call_words = words_of(calls, rng);
    if rng.chance(10) {
        let short = compare_short(job, &call_words, (&mut tables, &mut held), lengths, rng)?;
        met.meet(no_session(short));
    }
    let number = session(job, &mut tables, &call_words, &mut held, lengths);
    match check(job).and_then(|accepted| Ok((accepted, read(job)?))) {
        Ok((accepted, job)) => {
            let expected = accepted_session(&job, &accepted, calls, &lent);
            same("session", number, 0)?;
            same_held(&held, &expected)?;
            met.meet(format!("session ends with {}", END[held.value[0] as usize % 7]));
            let words = words(&job, &accepted.types, &accepted.exprs);
            same_tables("after a session", tables.differs(&before, &words, 8))
        }
        Err(Refusal { number: refused, place }) => {
            same("session", number, refused as u64)?;
            same_held(&held, &over(&lent, &[], None, [place as u64, 0]))?;
            same_tables("after no session", tables.differs(&before, &Words::default(), 8))
        }
    }
}

/// What the session of an accepted job must leave.
fn accepted_session(job: &Job, accepted: &Accepted, calls: &[Call], lent: &Held) -> Held {
    let mut machine = Machine::of(job);
    let answers = expected::run(&mut machine, calls);
    over(lent, &answers, Some(&machine), [accepted.entry as u64, accepted.effect])
}

fn same_held(proved: &Held, second: &Held) -> Result<(), String> {
    same("answers of a session", &proved.answers, &second.answers)?;
    same("value of a session", &proved.value, &second.value)?;
    same("cells of a session", &proved.cells, &second.cells)?;
    same("what a session tells", &proved.out, &second.out)
}

/// A session with a result or the last call too short: 1, and nothing is written. Says what it was.
fn compare_short(
    job: &[u8],
    calls: &[u64],
    (tables, held): (&mut Tables, &mut Held),
    mut lengths: [usize; 4],
    rng: &mut Rng,
) -> Result<&'static str, String> {
    let (before, lent) = (tables.clone(), held.clone());
    // Without calls there are no answers that could be too few.
    let first = calls.is_empty() as usize;
    let short = first + rng.below(SHORT.len() - first);
    let mut calls = calls.to_vec();
    match lengths.get_mut(short) {
        Some(length) => *length = rng.below(*length),
        None => calls.extend((0..1 + rng.below(CALL_WORDS - 1)).map(|word| word as u64)),
    }
    same("short session", session(job, tables, &calls, held, lengths), 1)?;
    same_held(held, &lent)?;
    same_tables("short session", tables.differs(&before, &Words::default(), 0))?;
    Ok(SHORT[short])
}
