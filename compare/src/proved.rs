//! The proved code, and dirty tables to lend it.

use jobdesk::lent::{self, Lent, Results};
use jobdesk::{ANSWER_WORDS, CALL_WORDS, LENGTHS};
use second::Call;
use second::generate::Rng;

use crate::words::Words;

/// A run is lent only the first six tables.
pub const RUN_TABLES: usize = 6;

/// Work tables. The first `lent[i]` entries of a table are lent; those after them belong to
/// nobody else and must stay as they are.
#[derive(Clone, Debug, PartialEq, Eq)]
pub struct Tables {
    pub lent: [usize; 8],
    pub words: Words,
}

/// How many entries stand behind the lent part of each table and slice.
const GUARD: usize = 8;

/// So many dirty words to be lent, and some behind them.
pub fn dirty(length: usize, rng: &mut Rng) -> Vec<u64> {
    (0..length + GUARD).map(|_| rng.word()).collect()
}

impl Tables {
    /// Zero tables of the least lengths.
    pub fn least() -> Self {
        Self::of(LENGTHS, |length| vec![0; length], |length| vec![0; length])
    }

    /// Dirty tables with these lengths lent.
    pub fn dirty(lent: [usize; 8], rng: &mut Rng) -> Self {
        let mut other = Rng::new(rng.word());
        Self::of(
            lent,
            |length| (0..length + GUARD).map(|_| rng.word() as u16).collect(),
            |length| dirty(length, &mut other),
        )
    }

    fn of(
        lent: [usize; 8],
        mut narrow: impl FnMut(usize) -> Vec<u16>,
        mut wide: impl FnMut(usize) -> Vec<u64>,
    ) -> Self {
        let words = Words {
            names: narrow(lent[0]),
            types: wide(lent[1]),
            sets: wide(lent[2]),
            values: wide(lent[3]),
            heads: wide(lent[4]),
            slots: narrow(lent[5]),
            entries: narrow(lent[6]),
            effects: wide(lent[7]),
        };
        Tables { lent, words }
    }

    /// What is lent of the tables that hold a job, and of the entries and the effects.
    fn lend(&mut self) -> (Lent<'_>, &mut [u16], &mut [u64]) {
        let (lent, words) = (self.lent, &mut self.words);
        let job = Lent {
            names: &mut words.names[..lent[0]],
            types: &mut words.types[..lent[1]],
            sets: &mut words.sets[..lent[2]],
            values: &mut words.values[..lent[3]],
            heads: &mut words.heads[..lent[4]],
            slots: &mut words.slots[..lent[5]],
        };
        (job, &mut words.entries[..lent[6]], &mut words.effects[..lent[7]])
    }

    /// What is lent of the tables that hold a job, to be read alone.
    fn hold(&self) -> lent::Held<'_> {
        let (lent, words) = (self.lent, &self.words);
        lent::Held {
            names: &words.names[..lent[0]],
            types: &words.types[..lent[1]],
            sets: &words.sets[..lent[2]],
            values: &words.values[..lent[3]],
            heads: &words.heads[..lent[4]],
            slots: &words.slots[..lent[5]],
        }
    }

    /// Puts words into the tables that hold a job, as far as they are lent. The words of names 0 and
    /// 1, which nobody should look at, stay.
    pub fn put(&mut self, words: &Words) {
        fn over<T: Copy>(table: &mut [T], words: &[T]) {
            table.iter_mut().zip(words).for_each(|(old, new)| *old = *new);
        }
        let (lent, _, _) = self.lend();
        over(lent.names.get_mut(2..).unwrap_or_default(), &words.names[2..]);
        over(lent.types, &words.types);
        over(lent.sets, &words.sets);
        over(lent.values, &words.values);
        over(lent.heads, &words.heads);
        over(lent.slots, &words.slots);
    }
}

/// How many words there are of counts, with the rights.
pub const COUNTS: usize = 5;

/// Reads a job: 0 or a refusal's number.
pub fn read(job: &[u8], tables: &mut Tables, counts: &mut [u64]) -> u64 {
    let (lent, _, _) = tables.lend();
    lent::read(job, lent, counts)
}

/// Writes the job of the tables: 0 or a refusal's number, and the word of `out`.
pub fn write(tables: &Tables, counts: &[u64], buffer: &mut [u8]) -> (u64, u64) {
    let mut out = [0xDEAD];
    (lent::write(tables.hold(), counts, buffer, &mut out), out[0])
}

/// The sheet of a job, into `text`: 0 or a refusal's number; `out` has its length and the place, as far
/// as it has words.
pub fn sheet(job: &[u8], text: &mut [u8], out: &mut [u64]) -> u64 {
    lent::sheet(job, text, out)
}

/// Checks a job: 0 or a refusal's number, and the two words of `out`.
pub fn check(job: &[u8], tables: &mut Tables) -> (u64, [u64; 2]) {
    let mut out = [0xDEAD; 2];
    let (lent, entries, effects) = tables.lend();
    (lent::check(job, lent, entries, effects, &mut out), out)
}

/// The words of calls. Those that a turn does not look at are any, and so is the number of a run, but 0.
pub fn words_of(calls: &[Call], rng: &mut Rng) -> Vec<u64> {
    let mut words = Vec::with_capacity(CALL_WORDS * calls.len());
    for call in calls {
        match call {
            Call::Step => {
                words.extend((0..CALL_WORDS).map(|at| if at > 0 { rng.word() } else { 0 }))
            }
            Call::Run(allowances) => {
                words.push(rng.pick(&[1, 1, 2, 1 << 8, 1 << 32, u64::MAX]));
                words.extend(allowances);
            }
        }
    }
    words
}

/// Starts a job and makes the calls: 0 or a refusal's number.
pub fn run(
    job: &[u8],
    tables: &mut Tables,
    calls: &[u64],
    answers: &mut [u64],
    rooms: &mut [u64],
) -> u64 {
    let (lent, _, _) = tables.lend();
    lent::run(job, lent, calls, answers, rooms)
}

/// The least lengths of what a session gives, after the answers: value, cells, out.
pub const RESULTS: [usize; 3] = [2, 512, 2];

/// What a session writes, with some words behind each slice that is lent.
#[derive(Clone, Debug, PartialEq, Eq)]
pub struct Held {
    pub answers: Vec<u64>,
    pub value: Vec<u64>,
    pub cells: Vec<u64>,
    pub out: Vec<u64>,
}

impl Held {
    /// Dirty words for so many calls.
    pub fn dirty(calls: usize, rng: &mut Rng) -> Self {
        let [value, cells, out] = RESULTS;
        Held {
            answers: dirty(ANSWER_WORDS * calls, rng),
            value: dirty(value, rng),
            cells: dirty(cells, rng),
            out: dirty(out, rng),
        }
    }
}

/// A session with tables and results of which so much is lent: answers, value, cells, out.
pub fn session(
    job: &[u8],
    tables: &mut Tables,
    calls: &[u64],
    held: &mut Held,
    lengths: [usize; 4],
) -> u64 {
    let results = Results {
        answers: &mut held.answers[..lengths[0]],
        value: &mut held.value[..lengths[1]],
        cells: &mut held.cells[..lengths[2]],
        out: &mut held.out[..lengths[3]],
    };
    let (lent, entries, effects) = tables.lend();
    lent::session(job, lent, entries, effects, calls, results)
}
