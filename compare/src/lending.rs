//! Generated tables, lent to the proved code to be written.

use second::Fields;
use second::generate::{Rng, Writing, room, tables};

use crate::proved::{COUNTS, Tables};
use crate::words::{fields_of, words_of};

/// Tables with their counts and rights as words, and what the second implementation writes of them.
pub struct Lending {
    pub tables: Tables,
    pub counts: [u64; COUNTS],
    pub writing: Writing,
}

impl Lending {
    /// The tables of a seed, over dirty ones with these lengths lent.
    pub fn of(seed: u64, lent: [usize; 8], rng: &mut Rng) -> Self {
        Self::new(&tables(seed).fields, lent, rng)
    }

    /// The tables of these fields, over dirty ones with these lengths lent.
    pub fn new(fields: &Fields, lent: [usize; 8], rng: &mut Rng) -> Self {
        let counts = counts_of(fields);
        let mut tables = Tables::dirty(lent, rng);
        tables.put(&words_of(fields));
        let fields = fields_of(&tables.words, counts);
        let room = room(rng, &fields);
        Lending { tables, counts, writing: Writing { fields, room } }
    }
}

/// The five words that say how much of the tables a job uses, and its rights.
pub fn counts_of(fields: &Fields) -> [u64; COUNTS] {
    let [names, types, values, exprs] = fields.counts;
    [names, types, values, exprs, fields.rights]
}
