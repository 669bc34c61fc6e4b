//! The machine: starting, turns and runs of any job free of refusals 2 to 10.

use std::array::from_fn;

use crate::code::resolve;
use crate::job::*;
use crate::names::bits;
use crate::observe::Ran;
use crate::read::read;
use crate::thread::{Stop, Store, Thread};
use crate::tree::tree;

pub use crate::value::*;

/// The machine.
#[derive(Clone, Debug, PartialEq, Eq)]
pub struct Machine {
    threads: Vec<Thread>,
    /// The threads that have not ended, as a set of their numbers.
    live: u8,
    /// Those of them whose turn in this round is still to come: the threads of the round after the
    /// one that stepped last. Where none of them may step, the next turn begins a round.
    due: u8,
    store: Store,
}

/// The start.
impl Machine {
    /// Starts a job, or answers its refusal of 2 to 10.
    pub fn start(job: &[u8]) -> Result<Self, Refusal> {
        let job = read(job)?;
        tree(&job)?;
        Ok(Self::of(&job))
    }

    /// The start of a job that is free of refusals 8 to 10.
    #[inline(always)]
    pub fn of(job: &Job) -> Self {
        let mut store = Store::default();
        let keys = name_keys(&mut store, job);
        let enabled = bits(job.rights).fold(0, |set, name| set | 1 << keys[name as usize]);
        store.rooms.bindings = job.names.host().count_ones() as usize;
        store.code = resolve(job, store.rooms.bindings as u16);
        let mut scope = 0;
        for host in &job.hosts {
            let ty = job.types[host.ty as usize];
            let data = match ty.shape {
                Shape::Limit(name) | Shape::Grant(name) => keys[name as usize] as u32,
                _ => store.new_cell(Value::unkeyed(Kind::Number, host.number)),
            };
            let value = Value::new(ty.kind(), keys[ty.key as usize], data);
            scope = store.bind(value, scope);
        }
        let first = Thread::new(job.last() as u16, scope, enabled);
        Machine { threads: vec![first], live: 1, due: 0, store }
    }
}

/// Makes the key that each host name stands for.
#[inline(always)]
fn name_keys(store: &mut Store, job: &Job) -> [u8; 64] {
    let mut keys = [0u8; 64];
    keys[1] = 1;
    for name in bits(job.names.host()) {
        let upper = keys[job.names.upper(name) as usize];
        keys[name as usize] = store.new_key(upper);
    }
    keys
}

/// What can be seen.
impl Machine {
    /// The room in use.
    pub fn rooms(&self) -> Rooms {
        let frames = self.threads.iter().map(Thread::frames);
        Rooms {
            frames: frames.clone().sum(),
            deepest: frames.max().unwrap_or(0),
            threads: self.threads.len(),
            ..self.store.rooms
        }
    }

    /// Whether every thread has ended.
    pub fn is_done(&self) -> bool {
        self.live == 0
    }

    /// The value of a finished machine: that of thread 0.
    pub fn result(&self) -> Option<Value> {
        self.threads[0].result().filter(|_| self.is_done())
    }

    /// What the cells hold that are in use.
    pub fn cells(&self) -> &[Value] {
        self.store.cells()
    }

    /// The thread whose turn it is.
    pub fn turn(&self) -> Option<usize> {
        self.turn_among(EVERY)
    }

    /// The thread whose turn it is where those of a set alone may step.
    pub fn turn_among(&self, may: u8) -> Option<usize> {
        let open = self.round(may) & may;
        (open != 0).then(|| lowest(open))
    }

    /// The threads that have not ended, as a set of their numbers.
    pub fn live(&self) -> u8 {
        self.live
    }

    /// The threads whose turn in this round is still to come.
    pub fn due(&self) -> u8 {
        self.due
    }

    /// The value of a thread that has ended.
    pub fn value(&self, thread: usize) -> Option<Value> {
        self.threads[thread].result()
    }

    /// The expression that a thread enters next.
    pub fn entering(&self, thread: usize) -> Option<u16> {
        self.threads[thread].entering()
    }

    /// The value that a thread hands on next.
    pub fn handing(&self, thread: usize) -> Option<Value> {
        self.threads[thread].handing()
    }

    /// How many frames a thread has.
    pub fn depth(&self, thread: usize) -> usize {
        self.threads[thread].frames()
    }

    /// The expression of a thread's newest frame.
    pub fn waiting(&self, thread: usize) -> Option<u16> {
        self.threads[thread].waiting()
    }

    /// The expression that acts on two operands in a thread's next step, and both.
    pub fn acting(&self, thread: usize) -> Option<(u16, Value, Value)> {
        self.threads[thread].acting(&self.store)
    }

    /// Whether a thread's newest frame has a value's key enabled.
    pub fn opens(&self, thread: usize, value: Value) -> bool {
        self.threads[thread].opens(&self.store, value)
    }
}

/// Turns and runs.
impl Machine {
    /// Makes a call.
    pub fn call(&mut self, call: Call) -> Reply {
        match call {
            Call::Step => {
                let (answer, thread) = self.step();
                Reply::Step(answer, thread)
            }
            Call::Run(allowances) => Reply::Run(self.run(allowances)),
        }
    }

    /// Takes one turn, whatever runs allow; says what it answers, and which thread stepped or failed,
    /// 0 where every one has ended.
    pub fn step(&mut self) -> (Answer, usize) {
        self.turn().map_or((Answer::Done, 0), |thread| (self.step_of(thread), thread))
    }

    /// Takes one step of a thread that has not ended; others are passed over.
    pub fn step_of(&mut self, thread: usize) -> Answer {
        match self.run(one_step(thread)).outcome {
            Outcome::Done | Outcome::Spent => Answer::Taken,
            Outcome::NoRoom => Answer::NoRoom,
            Outcome::Stuck => Answer::Stuck,
            Outcome::Denied => Answer::Denied,
        }
    }

    /// Takes turns until every thread has ended or used its allowance, or one fails. A thread at its
    /// allowance is passed over.
    pub fn run(&mut self, allowances: [u64; THREADS]) -> Run {
        let mut left = allowances;
        let failed = loop {
            let may = under(&left);
            let round = self.round(may);
            let open = round & may;
            if open == 0 {
                break None;
            }
            // Rounds of all that live are taken in one go.
            let most = if round == self.live { least(&left, open) } else { 1 };
            let (taken, failed) = self.turns(open, most);
            for number in bits(open.into()) {
                left[number as usize] -= taken.by(number);
            }
            if let Some(last) = taken.last(open) {
                self.due = round & above(last);
            }
            if failed.is_some() {
                break failed;
            }
        };
        let end = if self.is_done() { Outcome::Done } else { Outcome::Spent };
        let (outcome, thread) = failed.unwrap_or((end, 0));
        let counts = from_fn(|number| allowances[number] - left[number]);
        Run { outcome, counts, thread }
    }

    /// The round in which the next turn is taken where the threads of a set alone may step: what is
    /// left of this one or, if none of them is in it, every thread that has not ended.
    fn round(&self, may: u8) -> u8 {
        if self.due & may == 0 { self.live } else { self.due }
    }

    /// Up to `most` rounds of turns of the threads of a set, until one is stopped. Says what is taken,
    /// and what the next turn fails with and whose it is. It is compiled apart from `run`, for speed.
    #[inline(never)]
    fn turns(&mut self, open: u8, most: u64) -> (Taken, Option<(Outcome, usize)>) {
        let (mut taken, stopped) = self.unstopped(open, most);
        let Some((number, stop)) = stopped else { return (taken, None) };
        match self.stopped(number, stop) {
            Ok(more) => {
                taken.rest &= !(more << number);
                (taken, None)
            }
            Err(outcome) => (taken, Some((outcome, number))),
        }
    }

    /// The same up to the turn at which a thread is stopped, and which one it is.
    #[inline(always)]
    fn unstopped(&mut self, open: u8, most: u64) -> (Taken, Option<(usize, Stop)>) {
        if open & (open - 1) == 0 {
            let number = lowest(open);
            let (rounds, stop) = self.alone(number, most);
            return (Taken { rounds, rest: open }, stop.map(|stop| (number, stop)));
        }
        for rounds in 0..most {
            let mut rest = open;
            while rest != 0 {
                let number = lowest(rest);
                let (taken, stop) = self.threads[number].run(&mut self.store, 1);
                if let Some(stop) = stop {
                    let rest = rest & !((taken as u8) << number);
                    return (Taken { rounds, rest }, Some((number, stop)));
                }
                rest &= rest - 1;
            }
        }
        (Taken { rounds: most, rest: open }, None)
    }

    /// The same of one thread, compiled apart as well.
    #[inline(never)]
    fn alone(&mut self, number: usize, most: u64) -> (u64, Option<Stop>) {
        self.threads[number].run(&mut self.store, most)
    }

    /// How many steps more a thread takes that was stopped, one where it starts a thread; or what it
    /// fails with.
    #[cold]
    fn stopped(&mut self, number: usize, stop: Stop) -> Result<u8, Outcome> {
        match stop {
            Stop::Done => {
                self.live &= !(1 << number);
                Ok(0)
            }
            Stop::Start => self.spawn(number),
            Stop::NoRoom => Err(Outcome::NoRoom),
            Stop::Stuck => Err(Outcome::Stuck),
            Stop::Denied => Err(Outcome::Denied),
        }
    }

    /// Starts a thread for a 42 that another enters. Its turns begin with the next round.
    fn spawn(&mut self, by: usize) -> Result<u8, Outcome> {
        let number = self.threads.len();
        if number == THREADS {
            return Err(Outcome::NoRoom);
        }
        let thread = self.threads[by].spawn(&self.store);
        self.threads.extend(thread);
        self.live |= 1 << number;
        if self.threads[by].result().is_some() {
            self.live &= !(1 << by);
        }
        Ok(1)
    }
}

/// Turns that the threads of a set have taken, one after another.
struct Taken {
    /// The rounds in which every one has stepped.
    rounds: u64,
    /// Those that have not stepped in the round after these.
    rest: u8,
}

impl Taken {
    /// The steps of a thread of the set.
    fn by(&self, number: u8) -> u64 {
        self.rounds + (self.rest >> number & 1 == 0) as u64
    }

    /// Which thread of the set stepped last, if one did.
    fn last(&self, open: u8) -> Option<usize> {
        let stepped = match open & !self.rest {
            0 if self.rounds > 0 => open,
            stepped => stepped,
        };
        stepped.checked_ilog2().map(|last| last as usize)
    }
}

/// The set of all thread numbers.
const EVERY: u8 = u8::MAX;

/// The lowest of a set that is not empty.
#[inline(always)]
fn lowest(set: u8) -> usize {
    set.trailing_zeros() as usize % THREADS
}

/// The set of the numbers above one.
#[inline(always)]
fn above(number: usize) -> u8 {
    EVERY << number << 1
}

/// The threads that have something left of their allowances.
pub fn under(left: &[u64; THREADS]) -> u8 {
    (0..THREADS).fold(0, |set, number| set | ((left[number] > 0) as u8) << number)
}

/// The least that the threads of a set have left.
fn least(left: &[u64; THREADS], set: u8) -> u64 {
    bits(set.into()).map(|number| left[number as usize]).min().unwrap_or(0)
}

/// Allowances for one step of a thread.
pub fn one_step(thread: usize) -> [u64; THREADS] {
    from_fn(|number| (number == thread) as u64)
}

/// The calls of a job that is free of refusals 8 to 10, one after the other.
pub fn runs(job: &Job, calls: &[Call]) -> Vec<Ran> {
    let mut machine = Machine::of(job);
    let call =
        |&call| Ran { reply: machine.call(call), rooms: machine.rooms(), result: machine.result() };
    calls.iter().map(call).collect()
}
