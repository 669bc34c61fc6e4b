//! The verdict on an accepted job.

use crate::job::{Kind, Type};

/// What the check works out for a job that it accepts.
#[derive(Clone, Debug, PartialEq, Eq)]
pub struct Accepted {
    /// The entry of the last expression's type.
    pub entry: u16,
    /// Its kind.
    pub kind: Kind,
    /// The job's effect.
    pub effect: u64,
    /// The type table: declared types, then those of each 3E, then those that expressions make.
    pub types: Vec<Type>,
    /// Type and effect of each expression.
    pub exprs: Vec<Typed>,
}

/// The least type and the least effect of an expression.
#[derive(Clone, Copy, Debug, Default, PartialEq, Eq)]
pub struct Typed {
    /// The type, as an entry of the type table.
    pub entry: u16,
    /// The effect, as a set of names.
    pub effect: u64,
}
