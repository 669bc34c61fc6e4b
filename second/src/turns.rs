//! What the turns of threads come to, in words, and what must be met of them.

use std::collections::BTreeSet;

use crate::allowances::{self, Allowed, Turn};
use crate::job::{Expr, Job, Kind};
use crate::machine::Machine;
use crate::observe::branches;
use crate::value::{Answer, CELLS, Call, FRAMES, THREADS};

/// How many threads a job has started.
const COUNTS: [&str; THREADS] = [
    "1 thread",
    "2 threads",
    "3 threads",
    "4 threads",
    "5 threads",
    "6 threads",
    "7 threads",
    "8 threads",
];
/// How a thread is started.
const STARTED: [&str; 8] = [
    "a thread is started within a round",
    "a thread is started by the last of a round",
    "a thread is started by another than thread 0",
    "a thread is started by a 42 that has started one",
    "a thread is started by a thread that has started one",
    "a thread is started after one has ended",
    "a thread is started with 256 frames",
    "a thread is started with another kind of room used up",
];
/// How a thread ends.
const ENDED: [&str; 2] = ["a thread ends within a round", "a thread ends as the last of a round"];
/// When thread 0 has ended of a job that is done.
const DONE: [&str; 3] = [
    "done, and thread 0 was the first to end",
    "done, and thread 0 ended between others",
    "done, and thread 0 was the last to end",
];
/// The kinds of values with which threads end that are not thread 0.
const VALUES: [&str; 6] = [
    "a thread ends with a number",
    "a thread ends with a pair",
    "a thread ends with a cell",
    "a thread ends with a function",
    "a thread ends with a limit key",
    "a thread ends with a grant key",
];
/// How a call ends that leaves several threads.
const LEFT: [&str; 2] = ["a call ends within a round", "a call ends with a round"];
/// What threads do that are not thread 0, and with each other.
const BESIDE: [&str; 4] = [
    "a thread takes a look's first branch",
    "a thread takes a look's second branch",
    "a thread reads what another has assigned",
    "threads have more than 256 frames together",
];
/// What threads that are not thread 0 fail with, which a call later they do again.
const FAILED: [[&str; 2]; 5] = [
    ["no room in a thread", "no room in a thread, and again"],
    ["no room for frames in a thread", "no room for frames in a thread, and again"],
    ["no room for a thread in a thread", "no room for a thread in a thread, and again"],
    ["stuck in a thread", "stuck in a thread, and again"],
    ["denied in a thread", "denied in a thread, and again"],
];
/// The first so many of them can be in an accepted job.
const ACCEPTED: usize = 3;

/// What must be met of threads.
pub fn wanted() -> Vec<String> {
    let both = [&COUNTS[1..2], &COUNTS[7..], &STARTED, &ENDED, &DONE, &VALUES, &LEFT, &BESIDE];
    let both = both.concat();
    let failed = FAILED[..ACCEPTED].concat();
    let mut wanted: Vec<String> =
        both.iter().chain(&failed).map(|word| format!("accepted, {word}")).collect();
    wanted.extend(FAILED.concat().iter().map(|word| word.to_string()));
    wanted.extend(allowances::wanted());
    wanted
}

/// A machine whose turns are watched.
struct Watch<'a> {
    job: &'a Job,
    /// For each expression, the words for it if it is a branch of a look.
    branches: Vec<Option<&'static str>>,
    machine: Machine,
    words: BTreeSet<&'static str>,
    /// The expressions and the threads that have started a thread.
    spawns: BTreeSet<u16>,
    starters: u8,
    /// The thread that has assigned each cell.
    writers: [Option<usize>; CELLS],
    /// The place of thread 0's end in the list of words for it.
    zero: Option<usize>,
    /// What the last call failed with.
    failed: Option<usize>,
    allowed: Allowed,
}

/// What the threads of a job come to in calls. The job is free of refusals 8 to 10; of one without a 42
/// there is nothing to tell.
pub fn turns(job: &Job, calls: &[Call]) -> BTreeSet<&'static str> {
    if !job.exprs.iter().any(|expr| matches!(expr, Expr::Spawn(_))) {
        return BTreeSet::new();
    }
    let mut watch = Watch {
        job,
        branches: branches(job, [BESIDE[0], BESIDE[1]]),
        machine: Machine::of(job),
        words: BTreeSet::new(),
        spawns: BTreeSet::new(),
        starters: 0,
        writers: [None; CELLS],
        zero: None,
        failed: None,
        allowed: Allowed::default(),
    };
    calls.iter().for_each(|&call| watch.call(call));
    watch.words.insert(COUNTS[watch.machine.rooms().threads - 1]);
    watch.words.extend(watch.allowed.words);
    watch.words
}

impl Watch<'_> {
    /// Makes a call, turn by turn.
    fn call(&mut self, call: Call) {
        let before = self.failed.take();
        self.allowed.begin(&self.machine, call);
        while let Some(thread) = self.machine.turn_among(self.allowed.may()) {
            let answer = self.turn(thread);
            if answer != Answer::Taken {
                self.fail(thread, answer, before);
                return self.allowed.fail(&self.machine, thread, answer);
            }
        }
        if self.allowed.stepped() && self.machine.live().count_ones() > 1 {
            self.words.insert(LEFT[(self.machine.due() == 0) as usize]);
        }
        self.allowed.end(&self.machine);
    }

    /// A turn of a thread fails; `before` is what the last call failed with.
    fn fail(&mut self, thread: usize, answer: Answer, before: Option<usize>) {
        let deep = self.machine.entering(thread).is_some() && self.is_deep(thread);
        let failed = match answer {
            Answer::NoRoom if self.spawning(thread).is_some() => 2,
            Answer::NoRoom if deep => 1,
            Answer::NoRoom => 0,
            Answer::Stuck => 3,
            Answer::Taken | Answer::Done | Answer::Denied => 4,
        };
        if thread > 0 {
            self.words.insert(FAILED[failed][(before == Some(failed)) as usize]);
            self.failed = Some(failed);
        }
    }

    /// The 42 that a thread enters next.
    fn spawning(&self, thread: usize) -> Option<u16> {
        let is_spawn = |&expr: &u16| matches!(self.job.exprs[expr as usize], Expr::Spawn(_));
        self.machine.entering(thread).filter(is_spawn)
    }

    fn is_deep(&self, thread: usize) -> bool {
        self.machine.depth(thread) == FRAMES
    }

    /// Takes the turn of a thread.
    fn turn(&mut self, thread: usize) -> Answer {
        let turn = Turn::of(&self.machine, thread);
        let (spawning, deep) = (self.spawning(thread), self.is_deep(thread));
        let full = spawning.is_some() && !self.machine.rooms().full().is_empty();
        let (read, assigned) = (self.reading(thread), self.assigning(thread));
        let entered = self.machine.entering(thread).filter(|_| thread > 0);
        let branch = entered.and_then(|expr| self.branches[expr as usize]);
        let answer = self.machine.step_of(thread);
        if answer != Answer::Taken {
            return answer;
        }
        self.allowed.taken(&self.machine, turn);
        if let Some(expr) = spawning {
            self.start(expr, (thread, turn.live), deep, full);
        }
        if self.machine.live() >> thread & 1 == 0 {
            self.end(thread);
        }
        self.words.extend(branch);
        if read.is_some_and(|cell| self.writers[cell].is_some_and(|writer| writer != thread)) {
            self.words.insert(BESIDE[2]);
        }
        if let Some(cell) = assigned {
            self.writers[cell] = Some(thread);
        }
        if self.machine.rooms().frames > FRAMES {
            self.words.insert(BESIDE[3]);
        }
        answer
    }

    /// A thread was started by a 42 that another entered, and so many lived before.
    fn start(&mut self, expr: u16, (by, live): (usize, u8), deep: bool, full: bool) {
        let left = self.machine.due() != 0;
        let started = self.machine.rooms().threads - 1;
        let hold = [
            left,
            !left && live.count_ones() > 1,
            by > 0,
            !self.spawns.insert(expr),
            self.starters >> by & 1 == 1,
            (live.count_ones() as usize) < started,
            deep,
            full,
        ];
        self.starters |= 1 << by;
        let words = STARTED.into_iter().zip(hold);
        self.words.extend(words.filter_map(|(word, holds)| holds.then_some(word)));
    }

    fn end(&mut self, thread: usize) {
        let (live, due) = (self.machine.live(), self.machine.due());
        if live != 0 {
            self.words.insert(ENDED[(due == 0) as usize]);
        }
        let others = self.machine.rooms().threads - 1;
        if thread == 0 {
            let ended = others - live.count_ones() as usize;
            self.zero = Some(if live == 0 { 2 } else { (ended > 0) as usize });
        }
        if live == 0 && others > 0 {
            self.words.extend(self.zero.map(|place| DONE[place]));
        }
        if let Some(value) = self.machine.value(thread).filter(|_| thread > 0) {
            self.words.insert(VALUES[value.kind() as usize]);
        }
    }

    /// The cell that a thread reads next.
    fn reading(&self, thread: usize) -> Option<usize> {
        let expr = self.machine.waiting(thread)?;
        let cell = self.machine.handing(thread).filter(|value| value.is(Kind::Cell))?;
        matches!(self.job.exprs[expr as usize], Expr::Read(_)).then_some(cell.index())
    }

    /// The cell that a thread assigns next.
    fn assigning(&self, thread: usize) -> Option<usize> {
        let (expr, cell, _) = self.machine.acting(thread)?;
        let assigns = matches!(self.job.exprs[expr as usize], Expr::Assign(..));
        (assigns && cell.is(Kind::Cell)).then_some(cell.index())
    }
}
