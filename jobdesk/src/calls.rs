//! Calls on a started job, and what they give.
#![forbid(unsafe_code)]

/// The most threads that a job can have, with thread 0: a command 0x42 starts one more.
pub const THREADS: usize = 8;

/// How many words of the library a call is.
pub const CALL_WORDS: usize = 1 + THREADS;
/// How many words the answer to a call is.
pub const ANSWER_WORDS: usize = 2 + THREADS;
/// How many words the room in use is told in.
pub const ROOM_WORDS: usize = 7;

/// A call on the machine.
#[derive(Clone, Copy, Debug, PartialEq, Eq, Hash)]
pub enum Call {
    /// One turn: a step of the thread whose turn it is. The threads that have not ended take turns by
    /// their numbers; one that is started has its first turn in the next round. Calls go on where the
    /// last one left the round.
    Step,
    /// A run with an allowance for each thread number: turns until every thread has ended or has used
    /// its allowance, or one fails. A thread at its allowance is passed over like one that has ended,
    /// and the others go on. The round and who stepped last change by steps alone: after the run a
    /// thread that was passed over still has its turn, unless one with a higher number has stepped
    /// since. A thread that is started in the run has the allowance of its number. Nothing of
    /// allowances carries over to the next call.
    Run([u64; THREADS]),
}

impl Call {
    /// A run that allows every thread the same.
    pub fn run_each(allowance: u64) -> Self {
        Call::Run([allowance; THREADS])
    }

    /// The call as the library takes it: 0 for a turn and 1 for a run, then the allowances, at which a
    /// turn does not look.
    pub fn words(self) -> [u64; CALL_WORDS] {
        match self {
            Call::Step => [0; CALL_WORDS],
            Call::Run([a, b, c, d, e, f, g, h]) => [1, a, b, c, d, e, f, g, h],
        }
    }

    /// The words of a list of calls.
    pub fn all_words(calls: &[Call]) -> Vec<u64> {
        calls.iter().flat_map(|call| call.words()).collect()
    }
}

/// What a call answers. A step that cannot be taken changes nothing: the thread that fails is asked again
/// at the next call, unless that one passes it over, or does not pass over a thread that this one has
/// passed over.
#[derive(Clone, Copy, Debug, PartialEq, Eq, Hash)]
pub enum Answer {
    /// The step of a turn was taken.
    Taken,
    /// Every thread has ended; the job's value is that of thread 0.
    Done,
    /// Every thread that has not ended has used its allowance, and there is one.
    Spent,
    /// The next step, of whichever thread, needs a place that is not there.
    NoRoom,
    /// The next step has an operand of a kind that it cannot use; never of an accepted job.
    Stuck,
    /// The next step needs a key that is not enabled; never of an accepted job.
    Denied,
}

impl Answer {
    /// Every answer, by its number.
    pub const ALL: [Answer; 6] =
        [Answer::Taken, Answer::Done, Answer::Spent, Answer::NoRoom, Answer::Stuck, Answer::Denied];

    /// Its number in the library.
    pub fn number(self) -> u64 {
        self as u64
    }

    /// Its words.
    pub fn words(self) -> &'static str {
        ["taken", "done", "spent", "no room", "stuck", "denied"][self as usize]
    }
}

/// The answer to a call, and the steps that it took.
#[derive(Clone, Copy, Debug, PartialEq, Eq, Hash)]
pub struct Answered {
    /// The answer.
    pub answer: Answer,
    /// The thread that took the step of a turn or that failed; 0 where none did.
    pub thread: usize,
    /// The steps that each thread took in the call; 0 where there is no such thread.
    pub steps: [u64; THREADS],
}

impl Answered {
    /// What the words of an answer say.
    fn of(&[answer, thread, steps @ ..]: &[u64; ANSWER_WORDS]) -> Self {
        Answered { answer: Answer::ALL[answer as usize % 6], thread: thread as usize, steps }
    }

    /// What the words of a list of answers say.
    pub(crate) fn all(words: &[u64]) -> Vec<Self> {
        words.as_chunks().0.iter().map(Answered::of).collect()
    }
}

/// How much of each kind of room is in use. Threads share all but the frames.
#[derive(Clone, Copy, Debug, Default, PartialEq, Eq, Hash)]
pub struct Rooms {
    /// Cells, of 256.
    pub cells: u64,
    /// Keys with 0 and 1, of 128.
    pub keys: u64,
    /// Pairs, of 512.
    pub pairs: u64,
    /// Functions, of 512.
    pub functions: u64,
    /// Frames of all threads together, of 256 for each thread.
    pub frames: u64,
    /// Bindings, of 1,024.
    pub bindings: u64,
    /// Threads, of 8, thread 0 and those that have ended among them: no number is used again.
    pub threads: u64,
}

impl Rooms {
    /// What the words of the room in use say.
    pub(crate) fn of(words: [u64; ROOM_WORDS]) -> Self {
        let [cells, keys, pairs, functions, frames, bindings, threads] = words;
        Rooms { cells, keys, pairs, functions, frames, bindings, threads }
    }
}

/// What the calls on a started job gave.
#[derive(Clone, Debug, PartialEq, Eq)]
pub struct Ran {
    /// The answer to each call.
    pub answers: Vec<Answered>,
    /// The room in use after the last one.
    pub rooms: Rooms,
}
