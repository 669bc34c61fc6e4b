//! What allowances come to, in words, and what must be met of them.

use std::collections::BTreeSet;

use crate::desk::STEPS;
use crate::machine::{Machine, one_step, under};
use crate::names::bits;
use crate::value::{Answer, Call, Outcome, Run, THREADS};

/// Threads at their allowance that are passed over, and another steps.
const PASSED: [&str; 10] = [
    "a thread is passed over as the first of a round",
    "a thread is passed over between others of a round",
    "a thread is passed over as the last of a round",
    "thread 0 is passed over, without an allowance",
    "thread 0 is passed over that has used its allowance",
    "another than thread 0 is passed over, without an allowance",
    "another than thread 0 is passed over that has used its allowance",
    "several threads are passed over in a row",
    "every thread but one is passed over",
    "a thread is passed over in the run that starts it",
];
/// Threads that a run starts, and one that ends.
const STARTED: [&str; 8] = [
    "a run starts a thread that has no allowance",
    "a thread steps in the run that starts it",
    "a thread is started by the last step of an allowance",
    "a thread is started by one that alone is not at its allowance",
    "a thread is at its allowance, and the one that started it in the run is not",
    "a thread steps past the allowance of the one that started it in the run",
    "a thread ends by the last step of its allowance",
    "a thread ends that alone is not at its allowance",
];
/// How a run is spent.
const SPENT: [&str; 10] = [
    "spent with no allowance at all",
    "spent without a step, with allowances",
    "spent with thread 0 at its end",
    "spent with allowance left to a thread at its end",
    "spent with allowance left to a number that no thread has",
    "spent by several threads, with none at its end",
    "spent by eight threads",
    "spent with a thread of the round still due",
    "spent with no thread of the round still due",
    "spent, and the counts of all threads differ",
];
/// How a run of several threads is done.
const DONE: [&str; 6] = [
    "done with allowance left to every thread",
    "done to the last step of every thread",
    "done with one thread at its allowance and another not",
    "done with no allowance at all",
    "done with allowances of 2^64-1",
    "done, and the counts of all threads differ",
];
/// How a run fails, or the call after one that was spent.
const FAILED: [[&str; 4]; 3] = [
    [
        "no room in thread 0 after another has used its allowance",
        "no room in another after thread 0 has used its allowance",
        "no room in a new round with a thread of the old one due",
        "no room at once after a run that was spent",
    ],
    [
        "stuck in thread 0 after another has used its allowance",
        "stuck in another after thread 0 has used its allowance",
        "stuck in a new round with a thread of the old one due",
        "stuck at once after a run that was spent",
    ],
    [
        "denied in thread 0 after another has used its allowance",
        "denied in another after thread 0 has used its allowance",
        "denied in a new round with a thread of the old one due",
        "denied at once after a run that was spent",
    ],
];
/// What a call finds that a run has left.
const AFTER: [&str; 10] = [
    "a turn is of a thread at its allowance that a run has left due",
    "a run begins with a thread at its allowance that a run has left due",
    "a run passes over a thread at its allowance that a run has left due",
    "a turn is of a thread that was at its allowance",
    "a thread steps that was at its allowance in the run before",
    "a thread is at its allowance that had some left in the run before",
    "a thread that has failed is passed over in the next run",
    "a turn goes on with a round that has passed over a thread",
    "a turn begins a round after one that has passed over a thread",
    "a run goes on with a round that has passed over a thread",
];

/// How the desk's run of several threads ends.
const DESK: [&str; 7] = [
    "done at the desk, and thread 0 took the most steps",
    "done at the desk, and another thread took more steps than thread 0",
    "spent at the desk, with thread 0 at its end",
    "spent at the desk, with thread 0 at its allowance and no other",
    "spent at the desk, with thread 0 and another at their allowance",
    "no room at the desk in thread 0",
    "no room at the desk in another thread than 0, which took more or fewer steps",
];

/// What must be met of allowances; accepted jobs are never stuck or denied.
pub fn wanted() -> Vec<String> {
    let accepted = [&PASSED[..], &STARTED, &SPENT, &DONE, &FAILED[0], &AFTER, &DESK].concat();
    let mut wanted: Vec<String> = accepted.iter().map(|word| format!("accepted, {word}")).collect();
    wanted.extend(FAILED[1..].concat().iter().map(|word| word.to_string()));
    wanted
}

/// The words for the desk's run of a job.
pub fn at_desk(run: &Run) -> Option<&'static str> {
    let [first, others @ ..] = run.counts;
    let most = others.into_iter().max().filter(|&most| most > 0)?;
    let place = match run.outcome {
        Outcome::Done => (most > first) as usize,
        Outcome::Spent if first < STEPS => 2,
        Outcome::Spent => 3 + (most == STEPS) as usize,
        Outcome::NoRoom if run.thread == 0 => 5,
        Outcome::NoRoom if run.counts[run.thread] != first => 6,
        Outcome::NoRoom | Outcome::Stuck | Outcome::Denied => return None,
    };
    Some(DESK[place])
}

/// A turn: whose it is, and which threads lived, were due and were there before it.
#[derive(Clone, Copy)]
pub struct Turn {
    /// The thread that steps.
    pub thread: usize,
    /// The threads that had not ended.
    pub live: u8,
    /// Those whose turn in the round was still to come.
    pub due: u8,
    /// How many threads there were.
    pub threads: usize,
}

impl Turn {
    /// The next turn of a thread.
    pub fn of(machine: &Machine, thread: usize) -> Self {
        let (live, due) = (machine.live(), machine.due());
        Turn { thread, live, due, threads: machine.rooms().threads }
    }

    /// Whether it begins a round, where the threads of a set alone may step.
    fn begins(&self, may: u8) -> bool {
        self.due & may == 0
    }
}

/// What the run before a call has left.
#[derive(Default)]
struct Before {
    /// Whether it was spent.
    spent: bool,
    /// The threads that it has left at their allowance.
    at: u8,
    /// Those that it has left due, if the first of them is at its allowance.
    due: u8,
    /// The numbers to which it has left something, but for threads that have ended.
    more: u8,
    /// The thread that has failed.
    failed: Option<usize>,
}

/// Calls whose allowances are watched.
#[derive(Default)]
pub struct Allowed {
    /// What they come to.
    pub words: BTreeSet<&'static str>,
    /// Whether the call is a run; what it allows, and what is left of it.
    is_run: bool,
    allowances: [u64; THREADS],
    left: [u64; THREADS],
    /// Whether a step was taken in it.
    stepped: bool,
    /// For each thread that it has started, the one that did so.
    starters: [Option<usize>; THREADS],
    /// The threads of this round that were passed over before one that stepped.
    skipped: u8,
    before: Before,
}

impl Allowed {
    /// Begins a call. A turn is one step of the thread whose turn it is.
    pub fn begin(&mut self, machine: &Machine, call: Call) {
        (self.is_run, self.allowances) = match call {
            Call::Step => (false, machine.turn().map_or([0; THREADS], one_step)),
            Call::Run(allowances) => (true, allowances),
        };
        self.left = self.allowances;
        self.stepped = false;
        self.starters = [None; THREADS];
    }

    /// The threads that are not at their allowance.
    pub fn may(&self) -> u8 {
        under(&self.left)
    }

    /// Whether a step was taken in the call.
    pub fn stepped(&self) -> bool {
        self.stepped
    }

    /// A turn was taken.
    pub fn taken(&mut self, machine: &Machine, turn: Turn) {
        self.follow(machine, &turn);
        self.pass(&turn);
        self.stepped = true;
        self.left[turn.thread] -= 1;
        if self.is_run {
            self.start(machine, &turn);
        }
    }

    /// Adds the words that hold.
    fn add<const N: usize>(&mut self, words: &[&'static str; N], hold: [bool; N]) {
        self.words.extend(words.iter().zip(hold).filter_map(|(word, holds)| holds.then_some(word)));
    }

    /// A turn after a run that has left something.
    fn follow(&mut self, machine: &Machine, turn: &Turn) {
        let (before, bit) = (&self.before, 1 << turn.thread);
        let (first, begins) = (!self.stepped, turn.begins(self.may()));
        let due = first && before.due != 0;
        let is_due = due && before.due & before.due.wrapping_neg() == bit;
        let skipped = first && self.skipped & turn.live & !bit != 0;
        let failed = before.failed.is_some_and(|failed| self.allowances[failed] == 0);
        let (run, was_at) = (self.is_run, before.at & bit != 0);
        let is_at = before.more & machine.live() & bit != 0 && self.left[turn.thread] == 1;
        let hold = [
            !run && is_due,
            run && is_due,
            run && due && begins,
            !run && was_at,
            run && was_at,
            run && is_at,
            run && failed,
            !run && skipped && !begins,
            !run && skipped && begins,
            run && skipped && !begins,
        ];
        self.add(&AFTER, hold);
    }

    /// The threads that are passed over for a turn.
    fn pass(&mut self, turn: &Turn) {
        let Turn { thread, live, due, .. } = *turn;
        let (may, begins) = (self.may(), turn.begins(self.may()));
        let last = if begins { due } else { 0 };
        let lower = (if begins { live } else { due }) & !may & !(u8::MAX << thread);
        let passed = last | lower;
        let (used, none) = (passed & under(&self.allowances), passed & !under(&self.allowances));
        let is_new = |thread: u8| self.starters[thread as usize].is_some();
        let hold = [
            begins && lower != 0,
            !begins && lower != 0,
            last != 0,
            none & 1 == 1,
            used & 1 == 1,
            none > 1,
            used > 1,
            lower.count_ones() > 1 || last.count_ones() > 1,
            passed != 0 && live & may == 1 << thread,
            bits(passed.into()).any(is_new),
        ];
        self.add(&PASSED, hold);
        self.skipped = lower | if begins { 0 } else { self.skipped };
    }

    /// What a turn comes to that may start a thread, be of one that was started, or end one.
    fn start(&mut self, machine: &Machine, turn: &Turn) {
        let Turn { thread, live, threads: new, .. } = *turn;
        let starts = machine.rooms().threads > new;
        let (ended, is_at) = (machine.live() >> thread & 1 == 0, self.left[thread] == 0);
        let starter = self.starters[thread];
        let under = |by: usize| self.left[by] > 0 && machine.live() >> by & 1 == 1;
        let taken = self.allowances[thread] - self.left[thread];
        let others = live & !(1 << thread);
        let alone = others != 0 && others & self.may() == 0;
        let hold = [
            starts && self.allowances[new] == 0,
            starter.is_some(),
            starts && is_at,
            starts && alone,
            is_at && !ended && starter.is_some_and(under),
            starter.is_some_and(|by| taken > self.allowances[by]),
            ended && is_at,
            ended && alone,
        ];
        self.add(&STARTED, hold);
        if starts {
            self.starters[new] = Some(thread);
        }
    }

    /// A turn of a thread fails.
    pub fn fail(&mut self, machine: &Machine, thread: usize, answer: Answer) {
        let (may, live, due) = (self.may(), machine.live(), machine.due());
        let used = live & !may & under(&self.allowances);
        let hold = [
            thread == 0 && used != 0,
            thread != 0 && used & 1 == 1,
            self.is_run && due != 0 && due & may == 0,
            !self.stepped && self.before.spent,
        ];
        match answer {
            Answer::NoRoom => self.add(&FAILED[0], hold),
            Answer::Stuck => self.add(&FAILED[1], hold),
            Answer::Denied => self.add(&FAILED[2], hold),
            Answer::Taken | Answer::Done => {}
        }
        self.leave(machine, Some(thread));
    }

    /// A call ends without a failure.
    pub fn end(&mut self, machine: &Machine) {
        let threads = machine.rooms().threads;
        if self.is_run && machine.live() != 0 {
            self.spend(machine, threads);
        } else if self.is_run && threads > 1 {
            self.finish(threads);
        }
        self.leave(machine, None);
    }

    /// A run is spent that leaves so many threads.
    fn spend(&mut self, machine: &Machine, threads: usize) {
        let (live, due, left) = (machine.live(), machine.due(), under(&self.left));
        let there = u8::MAX >> (THREADS - threads);
        let (none, full) = (self.allowances == [0; THREADS], live == u8::MAX);
        let hold = [
            none,
            !none && !self.stepped,
            live & 1 == 0,
            left & there != 0,
            left & !there != 0,
            self.stepped && threads > 1 && live == there,
            self.stepped && full,
            self.stepped && due != 0,
            self.stepped && due == 0,
            self.all_differ(threads),
        ];
        self.add(&SPENT, hold);
    }

    /// A run of so many threads is done.
    fn finish(&mut self, threads: usize) {
        let (left, there) = (under(&self.left), u8::MAX >> (THREADS - threads));
        let hold = [
            self.stepped && left & there == there,
            self.stepped && left & there == 0,
            self.stepped && ![0, there].contains(&(left & there)),
            self.allowances == [0; THREADS],
            self.stepped && self.allowances == [u64::MAX; THREADS],
            self.all_differ(threads),
        ];
        self.add(&DONE, hold);
    }

    /// Whether three threads or more took steps, each another number of them.
    fn all_differ(&self, threads: usize) -> bool {
        let counts = (0..threads).map(|thread| self.allowances[thread] - self.left[thread]);
        let counts: BTreeSet<u64> = counts.filter(|&count| count > 0).collect();
        threads > 2 && counts.len() == threads
    }

    /// What a call leaves. A turn leaves what the run before it has, but that it was the last call.
    fn leave(&mut self, machine: &Machine, failed: Option<usize>) {
        let (live, due, left) = (machine.live(), machine.due(), under(&self.left));
        if !self.is_run {
            (self.before.spent, self.before.due, self.before.failed) = (false, 0, failed);
            return;
        }
        let (at, first) = (live & !left, due & due.wrapping_neg());
        let coming = u8::MAX.checked_shl(machine.rooms().threads as u32).unwrap_or(0);
        self.before = Before {
            spent: failed.is_none() && live != 0,
            at,
            due: if first & at != 0 { due } else { 0 },
            more: left & (live | coming),
            failed,
        };
    }
}
