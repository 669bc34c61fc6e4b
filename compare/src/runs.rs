//! Runs of generated jobs: the start, the answers to calls, and the rooms in use.

use compare::expected;
use compare::probe::probe;
use compare::proved::{self, RUN_TABLES, Tables, dirty, words_of};
use compare::words::{Words, words};
use jobdesk::{ANSWER_WORDS, Answer, CALL_WORDS, ROOM_WORDS, THREADS};
use second::allowances::at_desk;
use second::desk::STEPS;
use second::generate::{self, Rng};
use second::observe::{acts, wanted_of_acts};
use second::{Call, Job, Machine, Refusal, read, tree, turns};

use crate::generated::{Met, long_enough, same, same_tables, too_short};
use crate::sessions::compare_session;

/// How many words are lent for the room in use.
const TOLD: [&str; 3] =
    ["room told in 7 words", "room told in fewer words", "room told in 7 words of more"];
/// What is too short for a run.
const SHORT: [&str; 3] = ["table", "list of answers", "call"];

/// What must be met of runs.
pub fn wanted() -> Vec<String> {
    let mut wanted: Vec<String> =
        (1..=10).map(|number| format!("not started {number:2}")).collect();
    wanted.extend(SHORT.map(not_started));
    for answer in Answer::ALL {
        if answer != Answer::Taken {
            wanted.push(format!("run answers {}", answer.words()));
        }
        if answer != Answer::Spent {
            wanted.push(format!("step answers {}", answer.words()));
        }
    }
    for room in ["cells", "keys", "pairs", "functions", "frames", "bindings", "threads"] {
        wanted.push(format!("no room in {room} alone"));
    }
    wanted.extend(TOLD.map(str::to_string));
    wanted.extend(wanted_of_acts());
    wanted.extend(turns::wanted());
    wanted
}

/// The words for a run that is lent something too short.
fn not_started(short: &str) -> String {
    format!("not started  1: short {short}")
}

/// What a run is lent beside the tables: the words of calls, and so many for the answers and the rooms.
#[derive(Clone)]
struct Slices {
    calls: Vec<u64>,
    answers: Vec<u64>,
    rooms: Vec<u64>,
    lent: [usize; 2],
}

impl Slices {
    /// Dirty words, enough for the answers to some calls; mostly seven for the rooms.
    fn dirty(calls: &[Call], rng: &mut Rng) -> Self {
        let more = if rng.chance(70) { 0 } else { 1 + rng.below(ANSWER_WORDS) };
        let answers = ANSWER_WORDS * calls.len() + more;
        let rooms = if rng.chance(80) { ROOM_WORDS } else { rng.below(ROOM_WORDS + 3) };
        Slices {
            calls: words_of(calls, rng),
            answers: dirty(answers, rng),
            rooms: dirty(rooms, rng),
            lent: [answers, rooms],
        }
    }

    /// The same with some words at the start of the answers, and of the rooms as far as they are lent.
    fn with(&self, answers: &[u64], rooms: &[u64]) -> Self {
        let mut slices = self.clone();
        slices.answers[..answers.len()].copy_from_slice(answers);
        let told = rooms.len().min(self.lent[1]);
        slices.rooms[..told].copy_from_slice(&rooms[..told]);
        slices
    }

    /// Lends them to a run, which must give a number and leave them as expected.
    fn compare(
        mut self,
        job: &[u8],
        tables: &mut Tables,
        number: u64,
        expected: &Slices,
    ) -> Result<(), String> {
        let (answers, rooms) = (&mut self.answers[..self.lent[0]], &mut self.rooms[..self.lent[1]]);
        same("run", proved::run(job, tables, &self.calls, answers, rooms), number)?;
        let calls = format!("after calls {:?}", self.calls);
        same(&format!("answers {calls}"), &self.answers, &expected.answers)?;
        same(&format!("rooms {calls}"), &self.rooms, &expected.rooms)
    }
}

/// Compares runs of a job, and gives a job that uses its value.
pub fn compare_run(
    job: &[u8],
    accepted: bool,
    rng: &mut Rng,
    met: &mut Met,
) -> Result<Option<Vec<u8>>, String> {
    if rng.chance(10) {
        compare_short(job, rng, met)?;
    }
    match read(job).and_then(|job| tree(&job).map(|()| job)) {
        Ok(read) => compare_started(job, &read, accepted, rng, met),
        Err(refusal) => compare_refused(job, refusal, rng, met).map(|()| None),
    }
}

/// A run with a table, the answers or the last call too short: 1 at 0 whatever the job, and nothing else
/// is written.
fn compare_short(job: &[u8], rng: &mut Rng, met: &mut Met) -> Result<(), String> {
    let short = rng.below(SHORT.len());
    let lent = if short == 0 { too_short(rng, RUN_TABLES) } else { long_enough(rng) };
    let mut tables = Tables::dirty(lent, rng);
    let before = tables.clone();
    let calls = vec![Call::Step; 1 + rng.below(3)];
    let mut slices = Slices::dirty(&calls, rng);
    match short {
        1 => slices.lent[0] = rng.below(ANSWER_WORDS * calls.len()),
        2 => slices.calls.truncate(slices.calls.len() - 1 - rng.below(CALL_WORDS - 1)),
        _ => {}
    }
    let expected = slices.with(&[], &[0]);
    slices.compare(job, &mut tables, 1, &expected)?;
    met.meet("not started  1".to_string());
    met.meet(not_started(SHORT[short]));
    same_tables("short run", tables.differs(&before, &Words::default(), 0))
}

/// A run of a job that is not started.
fn compare_refused(
    job: &[u8],
    Refusal { number, place }: Refusal,
    rng: &mut Rng,
    met: &mut Met,
) -> Result<(), String> {
    let mut tables = Tables::dirty(long_enough(rng), rng);
    let before = tables.clone();
    let calls = [Call::Step, Call::Run([STEPS; THREADS])];
    let slices = Slices::dirty(&calls, rng);
    let expected = slices.with(&[], &[place.into()]);
    slices.compare(job, &mut tables, number.into(), &expected)?;
    met.meet(format!("not started {number:2}"));
    compare_session(job, &calls, rng, met)?;
    same_tables("after no start", tables.differs(&before, &Words::default(), RUN_TABLES))
}

/// Calls on a job of which a whole run took so many steps of each thread: mostly those of the second
/// implementation's generator, sometimes turns to the end and past it. The rooms are told after the last
/// call alone, so the list is often cut.
fn calls(rng: &mut Rng, whole: &[u64; THREADS]) -> Vec<Call> {
    let steps: u64 = whole.iter().sum();
    let mut calls = match steps {
        ..=300 if rng.chance(15) => vec![Call::Step; steps as usize + 2],
        _ => generate::calls(rng, whole),
    };
    if rng.chance(40) {
        calls.truncate(rng.below(calls.len() + 1));
    }
    calls
}

/// The answers to some calls, the rooms after them, and a session. Gives a job that uses the value.
fn compare_started(
    job: &[u8],
    read: &Job,
    accepted: bool,
    rng: &mut Rng,
    met: &mut Met,
) -> Result<Option<Vec<u8>>, String> {
    let mut whole = Machine::of(read);
    let run = whole.run([STEPS; THREADS]);
    let calls = calls(rng, &run.counts);
    let (machine, answers) = compare_calls(job, read, &calls, rng, met)?;
    compare_session(job, &calls, rng, met)?;
    let last = meet_answers(&calls, &answers, accepted, met)?;
    if last == Some(Answer::NoRoom)
        && let [room] = machine.rooms().full()[..]
    {
        met.meet(format!("no room in {room} alone"));
    }
    let acts = acts(read, STEPS).into_iter().chain(turns::turns(read, &calls));
    for word in acts.chain(at_desk(&run)) {
        met.meet(word.to_string());
        if accepted {
            met.meet(format!("accepted, {word}"));
        }
    }
    Ok(whole.result().and_then(|value| probe(read, value, rng)))
}

/// The start, the answers to some calls, and the rooms after them as far as words are lent. Gives the
/// machine and the answers.
fn compare_calls(
    job: &[u8],
    read: &Job,
    calls: &[Call],
    rng: &mut Rng,
    met: &mut Met,
) -> Result<(Machine, Vec<u64>), String> {
    let mut tables = Tables::dirty(long_enough(rng), rng);
    let before = tables.clone();
    let mut machine = Machine::of(read);
    let answers = expected::run(&mut machine, calls);
    let slices = Slices::dirty(calls, rng);
    let expected = slices.with(&answers, &expected::rooms(machine.rooms()));
    let told = match slices.lent[1] {
        ROOM_WORDS => 0,
        ..ROOM_WORDS => 1,
        _ => 2,
    };
    slices.compare(job, &mut tables, 0, &expected)?;
    met.meet(TOLD[told].to_string());
    let words = words(read, &read.types, &[]);
    same_tables("after a run", tables.differs(&before, &words, RUN_TABLES))?;
    Ok((machine, answers))
}

/// Counts the answers, of which an accepted job never gives stuck or denied; the last one.
fn meet_answers(
    calls: &[Call],
    answers: &[u64],
    accepted: bool,
    met: &mut Met,
) -> Result<Option<Answer>, String> {
    let mut last = None;
    let answers = answers.as_chunks::<ANSWER_WORDS>().0;
    for (call, [answer, _, steps @ ..]) in calls.iter().zip(answers) {
        let call = if *call == Call::Step { "step" } else { "run" };
        let answer = Answer::ALL[*answer as usize];
        met.steps += steps.iter().sum::<u64>();
        met.meet(format!("{call} answers {}", answer.words()));
        if accepted && matches!(answer, Answer::Stuck | Answer::Denied) {
            return Err(format!("an accepted job is {}", answer.words()));
        }
        last = Some(answer);
    }
    Ok(last)
}
