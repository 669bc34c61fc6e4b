//! Measures the proved code beside the second implementation.
//!
//! `bench check JOB WHO [TIMES]`, the same with `read`, `write` or `sheet`, `bench start WHO [TIMES]`,
//! `bench run WHO [TIMES]` and `bench turns WHO [TIMES]`, and `bench start threads WHO [TIMES]` and
//! `bench run threads WHO [TIMES]` do one thing so many times, for a tool that counts instructions.
//! `bench times` prints a line for each thing: its name, the job's bytes, and the nanoseconds of the proved
//! code and of the second.
#![forbid(unsafe_code)]

mod jobs;

use std::hint::black_box;
use std::process::ExitCode;
use std::time::Instant;

use jobdesk::{ANSWER_WORDS, BYTES, Call, Counts, THREADS, Tables, lent};
use second::{Answer, Fields, Machine, Reply};

/// The steps of a run, of one thread and of each of eight; and the turns that are taken one by one.
const STEPS: u64 = 100_000;
const STEPS_OF_EIGHT: u64 = STEPS / THREADS as u64;
const TURNS: usize = 1_000;

#[derive(Clone, Copy, PartialEq, Eq)]
enum Who {
    Proved,
    Second,
}

#[derive(Clone, Copy)]
enum What {
    Check,
    /// A job into tables.
    Read,
    /// The same job from tables into a buffer.
    Write,
    /// The sheet of a job into a buffer.
    Sheet,
    /// A start and some calls.
    Calls,
}

/// One thing to measure. Tables are lent again as the last call left them.
struct Work {
    what: What,
    job: Vec<u8>,
    tables: Tables,
    /// What writing takes beside the tables, and the tables of the second implementation. The buffer
    /// is lent for sheets too.
    counts: Counts,
    buffer: Vec<u8>,
    fields: Fields,
    /// The calls as either side takes them, and words for the answers.
    words: Vec<u64>,
    answers: Vec<u64>,
    calls: Vec<second::Call>,
}

impl Work {
    /// The tables hold the job, where it can be read.
    fn new(what: What, job: Vec<u8>) -> Self {
        Self::with_calls(what, job, &[])
    }

    /// The same with calls.
    fn with_calls(what: What, job: Vec<u8>, calls: &[Call]) -> Self {
        let mut tables = Tables::new();
        let counts = tables.read(&job).unwrap_or_default();
        let fields = second::read(&job).map_or_else(|_| Fields::default(), |job| Fields::of(&job));
        let call = |&call: &Call| match call {
            Call::Step => second::Call::Step,
            Call::Run(allowances) => second::Call::Run(allowances),
        };
        Work {
            what,
            job,
            tables,
            counts,
            buffer: vec![0; BYTES],
            fields,
            words: Call::all_words(calls),
            answers: vec![0; ANSWER_WORDS * calls.len()],
            calls: calls.iter().map(call).collect(),
        }
    }

    /// Does it once. The result is the same for both: a refusal's number, and the steps of the last call
    /// or the bytes written, those of a sheet too.
    fn once(&mut self, who: Who) -> (u64, u64) {
        match who {
            Who::Proved => self.once_proved(),
            Who::Second => self.once_second(),
        }
    }

    fn once_proved(&mut self) -> (u64, u64) {
        let job = black_box(&self.job[..]);
        let told = match self.what {
            What::Check => self.tables.check(job).map(|_| 0),
            What::Read => self.tables.read(job).map(|counts| {
                black_box(counts);
                0
            }),
            What::Write => {
                let written = self.tables.write(black_box(&self.counts), &mut self.buffer);
                black_box(&self.buffer);
                written.map(|length| length as u64)
            }
            What::Sheet => return self.once_sheet(),
            What::Calls => {
                let ran = self.tables.run_words(job, &self.words, &mut self.answers);
                black_box(&self.answers);
                let last = self.answers.as_chunks::<ANSWER_WORDS>().0.last();
                ran.map(|_| last.map_or(0, |[_, _, steps @ ..]| steps.iter().sum()))
            }
        };
        told.map_or_else(|refusal| (refusal.number.into(), 0), |told| (0, told))
    }

    fn once_sheet(&mut self) -> (u64, u64) {
        let mut out = [0; 2];
        let number = lent::sheet(black_box(&self.job), &mut self.buffer, &mut out);
        black_box(&self.buffer);
        (number, out[0])
    }

    /// Tables are part of the result.
    fn once_second(&self) -> (u64, u64) {
        let job = black_box(&self.job[..]);
        let told = match self.what {
            What::Check => black_box(second::check(job)).map(|_| 0),
            What::Read => black_box(second::read(job)).map(|_| 0),
            What::Write => {
                let written = black_box(second::write(black_box(&self.fields), BYTES));
                written.map(|bytes| bytes.len() as u64)
            }
            What::Sheet => Ok(black_box(second::sheet(job)).len() as u64),
            What::Calls => Machine::start(job).map(|mut machine| {
                let mut last = 0;
                for &call in &self.calls {
                    last = steps(black_box(machine.call(call)));
                }
                black_box(&machine);
                last
            }),
        };
        told.map_or_else(|refusal| (refusal.number.into(), 0), |told| (0, told))
    }

    /// Whether a job that is written is the one that was read, and a sheet is the second's.
    fn is_same(&self) -> bool {
        match self.what {
            What::Write => self.buffer.starts_with(&self.job),
            What::Sheet => self.buffer.starts_with(second::sheet(&self.job).as_bytes()),
            _ => true,
        }
    }

    /// The least time of one in nanoseconds, proved and second in turn.
    fn times(&mut self) -> [f64; 2] {
        let mut least = [f64::MAX; 2];
        // As many at once as take about two milliseconds.
        let both = [Who::Proved, Who::Second];
        let many = both.map(|who| {
            let start = Instant::now();
            self.once(who);
            (2_000_000 / start.elapsed().as_nanos().max(1)).clamp(1, 10_000) as u32
        });
        for _ in 0..25 {
            for (place, who) in both.into_iter().enumerate() {
                let start = Instant::now();
                for _ in 0..many[place] {
                    black_box(self.once(who));
                }
                let each = start.elapsed().as_nanos() as f64 / many[place] as f64;
                least[place] = least[place].min(each);
            }
        }
        least
    }
}

/// The steps of a call by its reply.
fn steps(reply: Reply) -> u64 {
    match reply {
        Reply::Step(answer, _) => (answer == Answer::Taken) as u64,
        Reply::Run(run) => run.counts.iter().sum(),
    }
}

/// A start of a job, and calls.
fn calls(job: &str, calls: &[Call]) -> Option<Work> {
    Some(Work::with_calls(What::Calls, jobs::job(job)?, calls))
}

/// The thing of a name, if there is one.
fn work(name: &[&str]) -> Option<Work> {
    Some(match name {
        ["check", job] => Work::new(What::Check, jobs::job(job)?),
        ["read", job] => Work::new(What::Read, jobs::job(job)?),
        ["write", job] => Work::new(What::Write, jobs::job(job)?),
        ["sheet", job] => Work::new(What::Sheet, jobs::job(job)?),
        ["start"] => calls("loop", &[])?,
        ["run"] => calls("loop", &[Call::run_each(STEPS)])?,
        ["turns"] => calls("loop", &[Call::Step; TURNS])?,
        ["start", "threads"] => calls("threads", &[])?,
        ["run", "threads"] => calls("threads", &[Call::run_each(STEPS_OF_EIGHT)])?,
        _ => return None,
    })
}

/// Every thing that is measured.
const ALL: [&[&str]; 16] = [
    &["check", "small"],
    &["check", "medium"],
    &["check", "largest"],
    &["check", "ladder"],
    &["read", "small"],
    &["read", "medium"],
    &["read", "largest"],
    &["write", "small"],
    &["write", "medium"],
    &["write", "largest"],
    &["sheet", "medium"],
    &["start"],
    &["run"],
    &["turns"],
    &["start", "threads"],
    &["run", "threads"],
];

fn times() -> ExitCode {
    for name in ALL {
        let Some(mut work) = work(name) else { return ExitCode::FAILURE };
        let (proved, second) = (work.once(Who::Proved), work.once(Who::Second));
        if proved != second || proved.0 != 0 || !work.is_same() {
            eprintln!("{name:?}: proved {proved:?}, second {second:?}");
            return ExitCode::FAILURE;
        }
        let [proved, second] = work.times();
        println!("{}\t{}\t{proved:.0}\t{second:.0}", name.join(" "), work.job.len());
    }
    ExitCode::SUCCESS
}

fn main() -> ExitCode {
    let arguments: Vec<String> = std::env::args().skip(1).collect();
    let mut words: Vec<&str> = arguments.iter().map(String::as_str).collect();
    if words == ["times"] {
        return times();
    }
    let count = match words.last().and_then(|word| word.parse().ok()) {
        Some(count) => {
            words.pop();
            count
        }
        None => 1u32,
    };
    let who = match words.pop() {
        Some("proved") => Some(Who::Proved),
        Some("second") => Some(Who::Second),
        _ => None,
    };
    let (Some(who), Some(mut work)) = (who, work(&words)) else {
        eprintln!(
            "usage: bench times | bench check|read|write|sheet JOB WHO [TIMES] | \
             bench start|run [threads] WHO [TIMES] | bench turns WHO [TIMES]\n\
             JOB is small, medium, largest or ladder; WHO is proved or second"
        );
        return ExitCode::from(2);
    };
    for _ in 0..count {
        black_box(work.once(who));
    }
    ExitCode::SUCCESS
}
