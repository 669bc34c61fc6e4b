//! Work tables, and the calls that lend them.
#![forbid(unsafe_code)]

use crate::calls::{ANSWER_WORDS, Answered, Call, ROOM_WORDS, Ran, Rooms};
use crate::counts::Counts;
use crate::lent::{self, Held, Lent, Results};
use crate::refusal::Refusal;

/// The least lengths: names, types, sets, values, heads, slots, entries, effects.
pub const LENGTHS: [usize; 8] = [64, 2304, 2304, 64, 512, 2560, 512, 512];

/// No job has more bytes than this.
pub const BYTES: usize = 10_310;

/// The work tables that the proved code is lent. They can be used for any number of jobs, one after
/// the other, and need not be cleared between them.
#[derive(Clone, Debug, PartialEq, Eq)]
pub struct Tables {
    names: Vec<u16>,
    types: Vec<u64>,
    sets: Vec<u64>,
    values: Vec<u64>,
    heads: Vec<u64>,
    slots: Vec<u16>,
    entries: Vec<u16>,
    effects: Vec<u64>,
}

impl Default for Tables {
    fn default() -> Self {
        let [names, types, sets, values, heads, slots, entries, effects] = LENGTHS;
        Tables {
            names: vec![0; names],
            types: vec![0; types],
            sets: vec![0; sets],
            values: vec![0; values],
            heads: vec![0; heads],
            slots: vec![0; slots],
            entries: vec![0; entries],
            effects: vec![0; effects],
        }
    }
}

impl Tables {
    /// Tables of the least lengths.
    pub fn new() -> Self {
        Self::default()
    }

    /// Checks a job.
    ///
    /// ```
    /// let mut tables = jobdesk::Tables::new();
    /// // A number, and the end.
    /// let accepted = tables.check(b"\x21\0\0\0\0\0\0\0\0\x30\x05\0\0\0\xFF")?;
    /// assert_eq!(accepted.effect(), 0);
    /// # Ok::<(), jobdesk::Refusal>(())
    /// ```
    ///
    /// # Errors
    /// The job's refusal, of 2 to 14 or 16.
    pub fn check(&mut self, job: &[u8]) -> Result<Accepted<'_>, Refusal> {
        let mut out = [0; 2];
        let Tables { names, types, sets, values, heads, slots, entries, effects } = self;
        let lent = Lent { names, types, sets, values, heads, slots };
        match lent::check(job, lent, entries, effects, &mut out) {
            0 => Ok(Accepted { tables: self, entry: out[0] as u16, effect: out[1] }),
            number => Err(Refusal::of(number, out[0])),
        }
    }

    /// Checks a job and, where it is accepted, starts it and makes the calls. It is proved that no
    /// call of a session is stuck or denied, in whichever thread.
    ///
    /// ```
    /// use jobdesk::{Answer, Call, Kind, Tables, Value};
    ///
    /// let mut tables = Tables::new();
    /// // A new cell that holds 5; 8 is assigned to it.
    /// let job = b"\x10\0\x21\0\0\0\0\0\0\0\0\x30\x05\0\0\0\x37\0\0\0\0\x30\x08\0\0\0\x38\x01\0\x02\0\xFF";
    /// let session = tables.session(job, &[Call::run_each(100_000)])?;
    /// assert_eq!(session.accepted.kind(), Kind::Number);
    /// assert_eq!(session.answers[0].answer, Answer::Done);
    /// let eight = Value { kind: Kind::Number, data: 8 };
    /// assert_eq!(session.value, Some(eight));
    /// assert_eq!(session.cells, [eight]);
    /// # Ok::<(), jobdesk::Refusal>(())
    /// ```
    ///
    /// # Errors
    /// The job's refusal, of 2 to 14 or 16. No call is made then.
    pub fn session(&mut self, job: &[u8], calls: &[Call]) -> Result<Session<'_>, Refusal> {
        let words = Call::all_words(calls);
        let mut answers = vec![0; ANSWER_WORDS * calls.len()];
        let (mut value, mut cells, mut out) = ([0; 2], [0; 512], [0; 2]);
        let results =
            Results { answers: &mut answers, value: &mut value, cells: &mut cells, out: &mut out };
        let Tables { names, types, sets, values, heads, slots, entries, effects } = self;
        let lent = Lent { names, types, sets, values, heads, slots };
        match lent::session(job, lent, entries, effects, &words, results) {
            0 => Ok(Session {
                accepted: Accepted { tables: self, entry: out[0] as u16, effect: out[1] },
                answers: Answered::all(&answers),
                value: Value::of(value),
                cells: cells.as_chunks().0.iter().map_while(|&words| Value::of(words)).collect(),
            }),
            number => Err(Refusal::of(number, out[0])),
        }
    }

    /// Starts a job and makes the calls, without a check. Every job that is free of 1 to 10 is started,
    /// also one that the check refuses with 11 to 14 or 16: that it is started is no verdict. Only of a
    /// job that the check accepts is it proved that no call is stuck or denied.
    ///
    /// ```
    /// use jobdesk::{Answer, Call};
    ///
    /// let mut tables = jobdesk::Tables::new();
    /// // The sum of a number and a limit key.
    /// let job = b"\x21\0\0\0\0\0\0\0\0\x30\x05\0\0\0\x31\x3A\0\0\0\x01\0\xFF";
    /// assert_eq!(tables.check(job).unwrap_err().number, 11);
    /// let ran = tables.run(job, &[Call::Step, Call::run_each(9)])?;
    /// assert_eq!(ran.answers[0].answer, Answer::Taken);
    /// assert_eq!(ran.answers[1].answer, Answer::Stuck);
    /// # Ok::<(), jobdesk::Refusal>(())
    /// ```
    ///
    /// The threads of a job take turns, and a run allows each so many steps:
    ///
    /// ```
    /// use jobdesk::{Answer, Call};
    ///
    /// let mut tables = jobdesk::Tables::new();
    /// // A thread for the sum of 5 and 6; thread 0 adds its number, which is 0, to 7.
    /// let job = b"\x21\0\0\0\0\0\0\0\0\x30\x05\0\0\0\x30\x06\0\0\0\x3A\0\0\0\x01\0\x42\x02\0\
    ///     \x30\x07\0\0\0\x3A\0\x03\0\x04\0\xFF";
    /// let calls = [Call::Step, Call::Run([100, 2, 0, 0, 0, 0, 0, 0]), Call::run_each(100)];
    /// let ran = tables.run(job, &calls)?;
    /// let [turn, first, rest] = ran.answers[..] else { panic!("an answer to each call") };
    /// assert_eq!((turn.answer, turn.thread), (Answer::Taken, 0));
    /// // Thread 0 has ended, thread 1 has used its allowance.
    /// assert_eq!((first.answer, &first.steps[..2]), (Answer::Spent, &[4, 2][..]));
    /// assert_eq!((rest.answer, &rest.steps[..2]), (Answer::Done, &[0, 3][..]));
    /// assert_eq!(ran.rooms.threads, 2);
    /// # Ok::<(), jobdesk::Refusal>(())
    /// ```
    ///
    /// # Errors
    /// The job's refusal, of 2 to 10. No call is made then.
    pub fn run(&mut self, job: &[u8], calls: &[Call]) -> Result<Ran, Refusal> {
        let words = Call::all_words(calls);
        let mut answers = vec![0; ANSWER_WORDS * calls.len()];
        let rooms = self.run_words(job, &words, &mut answers)?;
        Ok(Ran { answers: Answered::all(&answers), rooms })
    }

    /// The same with calls and answers as words. The [`CALL_WORDS`](crate::CALL_WORDS) of a call are 0
    /// for a turn and any other number for a run, then the allowances. The [`ANSWER_WORDS`] of an answer
    /// are its number, the thread, and the steps of each thread. It gives the room in use.
    ///
    /// # Errors
    /// The job's refusal, of 2 to 10; 1 if the words are no whole number of calls, or there are too few
    /// for the answers. No call is made then.
    pub fn run_words(
        &mut self,
        job: &[u8],
        calls: &[u64],
        answers: &mut [u64],
    ) -> Result<Rooms, Refusal> {
        let mut rooms = [0; ROOM_WORDS];
        let Tables { names, types, sets, values, heads, slots, .. } = self;
        let lent = Lent { names, types, sets, values, heads, slots };
        match lent::run(job, lent, calls, answers, &mut rooms) {
            0 => Ok(Rooms::of(rooms)),
            number => Err(Refusal::of(number, rooms[0])),
        }
    }

    /// Reads a job into the tables: refusals 2 to 7 alone. That it is read is no verdict.
    ///
    /// ```
    /// let mut tables = jobdesk::Tables::new();
    /// let counts = tables.read(b"\x21\0\0\0\0\0\0\0\0\x30\x05\0\0\0\xFF")?;
    /// assert_eq!((counts.names, counts.expressions, counts.rights), (0, 1, 0));
    /// # Ok::<(), jobdesk::Refusal>(())
    /// ```
    ///
    /// # Errors
    /// The job's refusal, of 2 to 7.
    pub fn read(&mut self, job: &[u8]) -> Result<Counts, Refusal> {
        let mut counts = [0; 5];
        let Tables { names, types, sets, values, heads, slots, .. } = self;
        let lent = Lent { names, types, sets, values, heads, slots };
        match lent::read(job, lent, &mut counts) {
            0 => Ok(Counts::of(counts)),
            number => Err(Refusal::of(number, counts[0])),
        }
    }

    /// Writes the bytes of the job that the tables hold to the start of the buffer, and says how many
    /// there are. A buffer of [`BYTES`] is long enough for every job. What was read comes back byte for
    /// byte, also after a check, a session or a run of the same job that did not refuse it: these leave
    /// the job in the tables.
    ///
    /// ```
    /// let mut tables = jobdesk::Tables::new();
    /// let job = b"\x21\0\0\0\0\0\0\0\0\x30\x05\0\0\0\xFF";
    /// let counts = tables.read(job)?;
    /// tables.check(job)?;
    /// let mut buffer = [0; jobdesk::BYTES];
    /// let length = tables.write(&counts, &mut buffer)?;
    /// assert_eq!(buffer[..length], job[..]);
    /// assert_eq!(tables.write(&counts, &mut [0; 14]).unwrap_err().number, 15);
    /// # Ok::<(), jobdesk::Refusal>(())
    /// ```
    ///
    /// That a job is written is no verdict: one that the check refuses with 8 to 14 or 16 is written too.
    /// But such a check clears the tables; so read the job after it.
    ///
    /// # Errors
    /// 15 if the buffer is too short. 2, 3, 5 or 6 if no job has these tables and counts, as after a
    /// refusal: then the place is an offset in the bytes that they stand for. No byte is written then.
    pub fn write(&self, counts: &Counts, buffer: &mut [u8]) -> Result<usize, Refusal> {
        let mut out = [0];
        let Tables { names, types, sets, values, heads, slots, .. } = self;
        let held = Held { names, types, sets, values, heads, slots };
        match lent::write(held, &counts.words(), buffer, &mut out) {
            0 => Ok(out[0] as usize),
            number => Err(Refusal::of(number, out[0])),
        }
    }
}

/// The kinds of types and of values.
#[derive(Clone, Copy, Debug, PartialEq, Eq, Hash)]
pub enum Kind {
    /// A number of 32 bits. A difference below zero is 0, and a sum above 4294967295 is 4294967295.
    Number,
    /// Two values. Of a division the share, then what is left over.
    Pair,
    /// A cell that holds a value.
    Cell,
    /// A function.
    Function,
    /// A limit key.
    Limit,
    /// A grant key.
    Grant,
}

impl Kind {
    /// Every kind, in the order of the command bytes of types.
    pub const ALL: [Kind; 6] =
        [Kind::Number, Kind::Pair, Kind::Cell, Kind::Function, Kind::Limit, Kind::Grant];

    /// The kind of an entry of the type table, by its command byte.
    fn of_type(word: u64) -> Kind {
        let command = word as u8;
        Kind::ALL.into_iter().find(|&kind| kind as u8 + 0x10 == command).unwrap_or(Kind::Number)
    }

    /// The word for it.
    pub fn word(self) -> &'static str {
        ["number", "pair", "cell", "function", "limit", "grant"][self as usize]
    }
}

/// An accepted job: its type and effect, and all that the check worked out.
#[derive(Clone, Copy, Debug, PartialEq, Eq)]
pub struct Accepted<'a> {
    tables: &'a Tables,
    entry: u16,
    effect: u64,
}

impl<'a> Accepted<'a> {
    /// The entry of the job's type in the type table.
    pub fn entry(&self) -> u16 {
        self.entry
    }

    /// The names whose keys the job must be lent, as a set: bit i is name i. Beside these it can use
    /// what a grant key lent to it opens and, where its rights lend a key that a command 0x40 asks
    /// for, what lies below that one.
    pub fn effect(&self) -> u64 {
        self.effect
    }

    /// The kind of the job's value.
    pub fn kind(&self) -> Kind {
        Kind::of_type(self.tables.types[self.entry as usize % LENGTHS[1]])
    }

    /// The type table. An entry has the type's command byte in its low byte, then its key, and from
    /// bit 16 and from bit 32 its parts; a function's effect stands in [`Accepted::sets`]. An
    /// expression makes at most one entry, but a division (command 0x41) two: a number, then the pair
    /// whose parts are both that number. A command 0x42 makes one, a number, whatever its thread comes
    /// to.
    pub fn types(&self) -> &'a [u64] {
        // No entry that is in use is zero.
        let used = self.tables.types.iter().take_while(|&&word| word != 0).count();
        &self.tables.types[..used]
    }

    /// For each entry of the type table, the effect of a function, and 0 for any other.
    pub fn sets(&self) -> &'a [u64] {
        &self.tables.sets[..self.types().len()]
    }

    /// The type, as an entry of the type table, and the effect of each expression.
    pub fn expressions(&self) -> impl Iterator<Item = (u16, u64)> + 'a {
        let Tables { heads, entries, effects, .. } = self.tables;
        // No head that is in use is zero.
        let used = heads.iter().take_while(|&&word| word != 0).count();
        entries.iter().copied().zip(effects.iter().copied()).take(used)
    }
}

/// A value, without its key.
#[derive(Clone, Copy, Debug, PartialEq, Eq, Hash)]
pub struct Value {
    /// Its kind.
    pub kind: Kind,
    /// The number itself; the number of the pair, cell or function; or the key that a limit key or
    /// a grant key stands for. What a pair holds is not told: a job that divides (command 0x41)
    /// gives one part, and puts the other into a cell. The numbers 0 and 4294967295 may be ends at which a difference or a
    /// sum has stopped: nothing tells these, or a number that comes of one, from true results.
    pub data: u32,
}

impl Value {
    /// What two words of the library say.
    fn of([kind, data]: [u64; 2]) -> Option<Value> {
        let place = (kind as usize).checked_sub(1)?;
        Some(Value { kind: *Kind::ALL.get(place)?, data: data as u32 })
    }
}

/// What a session gave.
#[derive(Clone, Debug, PartialEq, Eq)]
pub struct Session<'a> {
    /// The verdict.
    pub accepted: Accepted<'a>,
    /// The answer to each call.
    pub answers: Vec<Answered>,
    /// The job's value, that of thread 0, where every thread has ended.
    pub value: Option<Value>,
    /// What each cell holds after the last call. The host values that are cells come first, in
    /// their order.
    pub cells: Vec<Value>,
}
