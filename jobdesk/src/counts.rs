//! How much of the tables is a job's.
#![forbid(unsafe_code)]

/// How much of the tables a job uses, and its rights.
#[derive(Clone, Copy, Debug, Default, PartialEq, Eq, Hash)]
pub struct Counts {
    /// The names that it declares; 0 and 1 are not among them.
    pub names: usize,
    /// The types that it declares.
    pub types: usize,
    /// The host values.
    pub values: usize,
    /// The expressions.
    pub expressions: usize,
    /// The rights, as a set: bit i is name i.
    pub rights: u64,
}

impl Counts {
    /// What five words of the library say.
    pub(crate) fn of([names, types, values, expressions, rights]: [u64; 5]) -> Counts {
        let [names, types, values, expressions] =
            [names, types, values, expressions].map(|count| count as usize);
        Counts { names, types, values, expressions, rights }
    }

    /// The same as words.
    pub(crate) fn words(&self) -> [u64; 5] {
        let &Counts { names, types, values, expressions, rights } = self;
        [names as u64, types as u64, values as u64, expressions as u64, rights]
    }
}
