//! Compares the proved code with the second implementation with one fault after another.
//!
//! `faults [COUNT] [SEED]` fails if a fault makes no difference.
#![forbid(unsafe_code)]

use std::process::ExitCode;

use compare::expected;
use compare::lending::Lending;
use compare::lines::lines;
use compare::probe::probe;
use compare::proved::{self, Held, RESULTS, Tables};
use compare::words::{kind, set_word, type_word};
use jobdesk::{ANSWER_WORDS, LENGTHS, ROOM_WORDS, THREADS};
use second::desk::STEPS;
use second::fields::TypeEntry;
use second::generate::{Rng, Writing, calls, job, sweep};
use second::observe::{Seen, observe};
use second::{Call, Fields, Kind, Machine, Refusal, desk, read, sheet, write};
use second_faults::{ALL, Fault, Told};

/// What is seen of a job on either side.
#[derive(PartialEq, Eq)]
struct Observed {
    verdict: Verdict,
    /// The answers to calls and the rooms after the last one, or number and place of a refusal.
    runs: Result<(Vec<u64>, [u64; ROOM_WORDS]), (u64, u64)>,
    /// The value of an accepted job at the end.
    value: [u64; 2],
}

#[derive(PartialEq, Eq)]
enum Verdict {
    Accepted {
        last: (u64, Option<Kind>, u64),
        types: Vec<u64>,
        sets: Vec<u64>,
        entries: Vec<u16>,
        effects: Vec<u64>,
    },
    Refused(u64, u64),
}

/// What the proved code's check answers.
fn proved_verdict(job: &[u8], tables: &mut Tables) -> Verdict {
    match proved::check(job, tables) {
        (0, [entry, effect]) => {
            // No type word and no head is zero.
            let used = |table: &[u64]| table.iter().take_while(|&&word| word != 0).count();
            let words = &tables.words;
            let (types, exprs) = (used(&words.types), used(&words.heads));
            Verdict::Accepted {
                last: (entry, words.types.get(entry as usize).and_then(|&w| kind(w)), effect),
                types: words.types[..types].to_vec(),
                sets: words.sets[..types].to_vec(),
                entries: words.entries[..exprs].to_vec(),
                effects: words.effects[..exprs].to_vec(),
            }
        }
        (number, [place, _]) => Verdict::Refused(number, place),
    }
}

/// What the proved code does.
fn proved(job: &[u8], calls: &[Call], tables: &mut Tables) -> Observed {
    let verdict = proved_verdict(job, tables);
    let words = proved::words_of(calls, &mut Rng::new(1));
    let (mut answers, mut rooms) = (vec![0; ANSWER_WORDS * calls.len()], [0; ROOM_WORDS]);
    let runs = match proved::run(job, tables, &words, &mut answers, &mut rooms) {
        0 => Ok((answers, rooms)),
        number => Err((number, rooms[0])),
    };
    let mut held = Held::dirty(calls.len(), &mut Rng::new(1));
    let lengths = [ANSWER_WORDS * calls.len(), RESULTS[0], RESULTS[1], RESULTS[2]];
    proved::session(job, tables, &words, &mut held, lengths);
    Observed { verdict, runs, value: [held.value[0], held.value[1]] }
}

/// What the second implementation's check answers, in the same words.
fn second_verdict(seen: &Seen) -> Verdict {
    match &seen.verdict {
        Ok(accepted) => Verdict::Accepted {
            last: (accepted.entry as u64, Some(accepted.kind), accepted.effect),
            types: accepted.types.iter().map(|ty| type_word(&TypeEntry::of(ty))).collect(),
            sets: accepted.types.iter().map(|ty| set_word(&TypeEntry::of(ty))).collect(),
            entries: accepted.exprs.iter().map(|typed| typed.entry).collect(),
            effects: accepted.exprs.iter().map(|typed| typed.effect).collect(),
        },
        Err(refusal) => Verdict::Refused(refusal.number as u64, refusal.place as u64),
    }
}

/// What the second implementation does, in the same words.
fn second(seen: &Seen) -> Observed {
    let verdict = second_verdict(seen);
    let runs = match &seen.runs {
        Ok(runs) => {
            let answers = runs.iter().flat_map(|ran| expected::reply(ran.reply)).collect();
            let rooms = runs.last().map(|ran| expected::rooms(ran.rooms));
            Ok((answers, rooms.unwrap_or_default()))
        }
        Err(refusal) => Err((refusal.number as u64, refusal.place as u64)),
    };
    let last = seen.runs.iter().flatten().last().filter(|_| seen.verdict.is_ok());
    Observed { verdict, runs, value: expected::value(last.and_then(|run| run.result)) }
}

struct Case {
    job: Vec<u8>,
    calls: Vec<Call>,
    proved: Observed,
    /// The desk's lines and the sheet, by the proved code.
    lines: String,
    sheet: String,
}

/// The jobs of a seed with its probes, and what the proved code does with them.
fn cases(seed: u64, tables: &mut Tables, cases: &mut Vec<Case>) {
    let mut rng = Rng::new(!seed);
    let mut next = Some(job(seed).1);
    for _ in 0..3 {
        let Some(job) = next.take() else { return };
        let mut counts = [0; THREADS];
        if let Ok(mut whole) = Machine::start(&job) {
            counts = whole.run([STEPS; THREADS]).counts;
            next = whole.result().and_then(|value| probe(&read(&job).ok()?, value, &mut rng));
        }
        let calls = calls(&mut rng, &counts);
        let proved = proved(&job, &calls, tables);
        let lines = lines(&job, &mut jobdesk::Tables::new());
        let sheet = jobdesk::sheet(&job).text().to_string();
        cases.push(Case { job, calls, proved, lines, sheet });
    }
}

impl Case {
    /// Whether what is seen of the job by the second implementation is not what the proved code does.
    fn differs(&self, seen: Seen) -> bool {
        second(&seen) != self.proved
    }
}

/// A job of the sweep, and what the proved code's check answers.
struct Swept {
    job: Vec<u8>,
    proved: Verdict,
}

impl Swept {
    /// Whether what the second implementation's check answers is not what the proved code's does.
    fn differs(&self, seen: Seen) -> bool {
        second_verdict(&seen) != self.proved
    }
}

/// What writing gives: the bytes, or number and place of a refusal.
type Written = Result<Vec<u8>, (u64, u64)>;

/// Tables of a seed, and what the proved code writes of them.
struct TablesCase {
    seed: u64,
    writing: Writing,
    proved: Written,
}

impl TablesCase {
    fn new(seed: u64) -> Self {
        let mut rng = Rng::new(!seed);
        let Lending { tables, counts, writing } = Lending::of(seed, LENGTHS, &mut rng);
        let mut buffer = vec![0xA5; writing.room];
        let proved = match proved::write(&tables, &counts, &mut buffer) {
            (0, length) => Ok(buffer[..length as usize].to_vec()),
            refused => Err(refused),
        };
        TablesCase { seed, writing, proved }
    }

    /// Whether what a writer gives is not what the proved code writes.
    fn differs(&self, write: impl Fn(&Fields, usize) -> Result<Vec<u8>, Refusal>) -> bool {
        let written = write(&self.writing.fields, self.writing.room);
        written.map_err(|refusal| (refusal.number.into(), refusal.place.into())) != self.proved
    }
}

/// What faults are looked for with.
struct Cases {
    swept: Vec<Swept>,
    jobs: Vec<Case>,
    tables: Vec<TablesCase>,
}

impl Cases {
    fn new(count: u64, seed: u64) -> Self {
        let seeds = seed..seed.saturating_add(count);
        let mut jobs = Vec::new();
        let mut tables = Tables::least();
        let of_sweep = |job: Vec<u8>| Swept { proved: proved_verdict(&job, &mut tables), job };
        let swept = sweep().into_iter().map(of_sweep).collect();
        seeds.clone().for_each(|seed| cases(seed, &mut tables, &mut jobs));
        jobs.sort_by_key(|case| case.job.len());
        Cases { swept, jobs, tables: seeds.map(TablesCase::new).collect() }
    }

    /// A difference without a fault, in words.
    fn difference(&self) -> Option<String> {
        let differs_at = |case: &&Case| {
            let Case { job, calls, lines, sheet: page, .. } = case;
            case.differs(observe(job, calls)) || desk(job) != *lines || sheet(job) != *page
        };
        let swept = self.swept.iter().find(|case| case.differs(observe(&case.job, &[])));
        let job = self.jobs.iter().find(differs_at).map(|case| &case.job);
        let tables = self.tables.iter().find(|case| case.differs(write));
        swept
            .map(|case| &case.job)
            .or(job)
            .map(|job| format!("job: {}", second::to_hex(job)))
            .or(tables.map(|case| format!("tables of seed: {}", case.seed)))
    }

    /// What catches a fault, in words.
    fn catches(&self, fault: &Fault) -> Option<String> {
        if fault.told == Told::Tables {
            let mut tables = self.tables.iter();
            let case =
                tables.find(|case| case.differs(|fields, room| fault.write(fields, room)))?;
            return Some(format!("tables of seed {}", case.seed));
        }
        if fault.told == Told::Sweep {
            let mut swept = self.swept.iter();
            let case = swept.find(|case| case.differs(fault.observe(&case.job, &[])))?;
            return Some(format!("{:5} bytes of the sweep", case.job.len()));
        }
        let differs_at = |case: &&Case| match fault.told {
            Told::Lines => fault.desk(&case.job) != case.lines,
            Told::Sheets => fault.sheet(&case.job) != case.sheet,
            Told::Jobs | Told::Tables | Told::Sweep => {
                case.differs(fault.observe(&case.job, &case.calls))
            }
        };
        let case = self.jobs.iter().find(differs_at)?;
        Some(format!("{:5} bytes", case.job.len()))
    }
}

/// Looks for a difference with each fault, on the sweep's jobs or the jobs and tables of so many seeds. Of a fault that
/// only a field wider than a word's tells there is none to be found.
fn all(count: u64, seed: u64) -> ExitCode {
    let cases = Cases::new(count, seed);
    if let Some(difference) = cases.difference() {
        println!("difference without a fault\n{difference}");
        return ExitCode::FAILURE;
    }
    let (mut caught, mut missed, mut wide) = (0, 0, 0);
    for fault in ALL {
        let (number, text) = (fault.number, fault.text);
        match cases.catches(fault) {
            Some(by) => {
                caught += 1;
                println!("caught {number:3} by {by}: {text}");
            }
            None if fault.wide => wide += 1,
            None => {
                missed += 1;
                println!("MISSED {number:3}: {text}");
            }
        }
    }
    let (swept, jobs, tables) = (cases.swept.len(), cases.jobs.len(), cases.tables.len());
    print!(
        "{caught} caught, {missed} missed, with {jobs} jobs, {swept} of the sweep and {tables} tables; "
    );
    println!("{wide} are told by no word");
    ExitCode::from((missed > 0) as u8)
}

fn main() -> ExitCode {
    match compare::arguments() {
        Some([count, seed]) => all(count.unwrap_or(10_000), seed.unwrap_or(1)),
        None => {
            eprintln!("usage: faults [COUNT] [SEED]");
            ExitCode::from(2)
        }
    }
}
