//! Values, calls and what they answer, and the machine's room.

use std::fmt;
use std::str::FromStr;

use crate::job::Kind;

/// The most cells there can be.
pub const CELLS: usize = 256;
/// The most keys there can be, with 0 and 1.
pub const KEYS: usize = 128;
/// The most pairs there can be.
pub const PAIRS: usize = 512;
/// The most functions there can be.
pub const FUNCTIONS: usize = 512;
/// The most frames that a thread can have.
pub const FRAMES: usize = 256;
/// The most bindings there can be.
pub const BINDINGS: usize = 1024;
/// The most threads that can be started, with thread 0.
pub const THREADS: usize = 8;

/// A value and the key it carries, in one word: kind, key, data.
#[derive(Clone, Copy, Default, PartialEq, Eq)]
pub struct Value(u64);

impl Value {
    /// A value of a kind, with its key and its data.
    #[inline]
    pub fn new(kind: Kind, key: u8, data: u32) -> Self {
        Value(kind as u64 | (key as u64) << 8 | (data as u64) << 32)
    }

    /// A value without a key.
    #[inline]
    pub fn unkeyed(kind: Kind, data: u32) -> Self {
        Value::new(kind, 0, data)
    }

    /// The same value with another key.
    #[inline]
    pub fn with_key(self, key: u8) -> Self {
        Value(self.0 & !0xFF00 | (key as u64) << 8)
    }

    /// Whether the value is of a kind.
    #[inline]
    pub fn is(self, kind: Kind) -> bool {
        self.0 as u8 == kind as u8
    }

    /// The data as an index.
    #[inline]
    pub fn index(self) -> usize {
        self.data() as usize
    }

    /// The value's kind.
    pub fn kind(self) -> Kind {
        [Kind::Number, Kind::Pair, Kind::Cell, Kind::Function, Kind::Limit, Kind::Grant]
            [self.0 as u8 as usize]
    }

    /// The key it carries; 0 is none.
    #[inline]
    pub fn key(self) -> u8 {
        (self.0 >> 8) as u8
    }

    /// A number's value; a pair's, cell's or function's number; or the key that a limit or grant
    /// key stands for.
    #[inline]
    pub fn data(self) -> u32 {
        (self.0 >> 32) as u32
    }
}

impl fmt::Debug for Value {
    fn fmt(&self, f: &mut fmt::Formatter) -> fmt::Result {
        write!(f, "{} {} of key {}", self.kind().word(), self.data(), self.key())
    }
}

/// A call of the machine. It is written `s`, or `a` and the allowances parted by commas.
#[derive(Clone, Copy, Debug, PartialEq, Eq)]
pub enum Call {
    /// One turn.
    Step,
    /// A run with an allowance for each thread number.
    Run([u64; THREADS]),
}

impl fmt::Display for Call {
    fn fmt(&self, f: &mut fmt::Formatter) -> fmt::Result {
        match self {
            Call::Step => write!(f, "s"),
            Call::Run(allowances) => write!(f, "a{}", joined(allowances)),
        }
    }
}

impl FromStr for Call {
    type Err = ();

    fn from_str(text: &str) -> Result<Self, ()> {
        if text == "s" {
            return Ok(Call::Step);
        }
        let numbers = text.strip_prefix('a').ok_or(())?.split(',').map(str::parse);
        let numbers: Vec<u64> = numbers.collect::<Result<_, _>>().map_err(|_| ())?;
        numbers.try_into().map(Call::Run).map_err(|_| ())
    }
}

/// A number for each thread, parted by commas.
fn joined(numbers: &[u64; THREADS]) -> String {
    numbers.map(|number| number.to_string()).join(",")
}

/// What one turn answers: a step of the thread whose turn it is. Every answer but `Taken` leaves the
/// machine as it was.
#[derive(Clone, Copy, Debug, PartialEq, Eq)]
pub enum Answer {
    /// The step is taken.
    Taken,
    /// Every thread has ended with a value.
    Done,
    /// The step needs a place that is not there.
    NoRoom,
    /// An operand is of a kind that the command cannot use.
    Stuck,
    /// An operand's key is not enabled.
    Denied,
}

impl Answer {
    /// The answer in words.
    pub fn words(self) -> &'static str {
        match self {
            Answer::Taken => "taken",
            Answer::Done => "done",
            Answer::NoRoom => "no room",
            Answer::Stuck => "stuck",
            Answer::Denied => "denied",
        }
    }
}

/// What a run says.
#[derive(Clone, Copy, Debug, PartialEq, Eq)]
pub enum Outcome {
    /// Every thread has ended with a value.
    Done,
    /// Every thread that has not ended has used its allowance to the last step, and there is one.
    Spent,
    /// The next step needs a place that is not there.
    NoRoom,
    /// An operand is of a kind that the command cannot use.
    Stuck,
    /// An operand's key is not enabled.
    Denied,
}

impl Outcome {
    /// The words that the desk prints.
    pub fn words(self) -> &'static str {
        match self {
            Outcome::Done => "done",
            Outcome::Spent => "spent",
            Outcome::NoRoom => "no room",
            Outcome::Stuck => "stuck",
            Outcome::Denied => "denied",
        }
    }
}

/// How a run ended.
#[derive(Clone, Copy, Debug, PartialEq, Eq)]
pub struct Run {
    /// What the run says.
    pub outcome: Outcome,
    /// The steps that each thread took in it.
    pub counts: [u64; THREADS],
    /// The thread that failed, 0 where none did.
    pub thread: usize,
}

/// What a call answers.
#[derive(Clone, Copy, Debug, PartialEq, Eq)]
pub enum Reply {
    /// What a turn answers, and which thread stepped or failed; 0 where every one has ended.
    Step(Answer, usize),
    /// How a run ended.
    Run(Run),
}

impl Reply {
    /// The thread that stepped in a turn or that failed.
    pub fn thread(self) -> Option<usize> {
        match self {
            Reply::Step(Answer::Done, _) => None,
            Reply::Run(Run { outcome: Outcome::Done | Outcome::Spent, .. }) => None,
            Reply::Step(_, thread) | Reply::Run(Run { thread, .. }) => Some(thread),
        }
    }
}

/// The words, and of a run the counts.
impl fmt::Display for Reply {
    fn fmt(&self, f: &mut fmt::Formatter) -> fmt::Result {
        match self {
            Reply::Step(answer, _) => write!(f, "{}", answer.words()),
            Reply::Run(run) => write!(f, "{} {}", run.outcome.words(), joined(&run.counts)),
        }
    }
}

/// How much of each kind of room is in use.
#[derive(Clone, Copy, Debug, Default, PartialEq, Eq)]
pub struct Rooms {
    /// Cells, with those of host values.
    pub cells: usize,
    /// Keys, with 0 and 1.
    pub keys: usize,
    /// Pairs.
    pub pairs: usize,
    /// Functions that were made.
    pub functions: usize,
    /// Frames of commands that wait for an operand, in all threads.
    pub frames: usize,
    /// Bindings of variables and names.
    pub bindings: usize,
    /// Threads, also those that have ended.
    pub threads: usize,
    /// Frames of the thread that has the most.
    pub deepest: usize,
}

impl Rooms {
    /// The kinds of room that are used up. A new key needs two bindings.
    pub fn full(self) -> Vec<&'static str> {
        [
            (self.cells == CELLS, "cells"),
            (self.keys == KEYS, "keys"),
            (self.pairs == PAIRS, "pairs"),
            (self.functions == FUNCTIONS, "functions"),
            (self.deepest == FRAMES, "frames"),
            (self.bindings >= BINDINGS - 1, "bindings"),
            (self.threads == THREADS, "threads"),
        ]
        .into_iter()
        .filter_map(|(full, room)| full.then_some(room))
        .collect()
    }
}
