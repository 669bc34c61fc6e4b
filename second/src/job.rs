//! The tables of a job.

use std::fmt;

use crate::names::Names;

/// The most declared types a job may have.
pub const TYPES: usize = 256;
/// The most variables a job may have.
pub const VARIABLES: usize = 64;
/// The most expressions a job may have.
pub const EXPRESSIONS: usize = 512;
/// The greatest depth of a declared type.
pub const DEPTH: u8 = 16;
/// Stands in 3C for a key operand that is not used.
pub const UNUSED: u16 = 0xFFFF;

/// Why and where a job is refused.
#[derive(Clone, Copy, Debug, PartialEq, Eq)]
pub struct Refusal {
    /// 2 to 16.
    pub number: u32,
    /// 2 to 7: an offset in the job's bytes; 8 to 14 and 16: the number of an expression; 15: 0.
    pub place: u32,
}

impl Refusal {
    /// The refusal of a number at a place.
    pub fn at(number: u32, place: usize) -> Self {
        Refusal { number, place: place as u32 }
    }
}

impl fmt::Display for Refusal {
    fn fmt(&self, f: &mut fmt::Formatter) -> fmt::Result {
        write!(f, "refused {} at {}", self.number, self.place)
    }
}

/// The kinds of types and of values.
#[derive(Clone, Copy, Debug, Default, PartialEq, Eq)]
pub enum Kind {
    /// A number of 32 bits.
    #[default]
    Number,
    /// Two values.
    Pair,
    /// A cell that holds a value.
    Cell,
    /// A function of one argument.
    Function,
    /// A limit key: it limits, lies above new keys, and is given to values.
    Limit,
    /// A grant key: it enables what its name stands for.
    Grant,
}

impl Kind {
    /// The word that the desk prints.
    pub fn word(self) -> &'static str {
        match self {
            Kind::Number => "number",
            Kind::Pair => "pair",
            Kind::Cell => "cell",
            Kind::Function => "function",
            Kind::Limit => "limit",
            Kind::Grant => "grant",
        }
    }
}

/// A type: the name of its key, and what it is apart from that.
#[derive(Clone, Copy, Debug, PartialEq, Eq, Hash)]
pub struct Type {
    /// The name of the key that its values carry; 0 is none.
    pub key: u8,
    /// What it is apart from that.
    pub shape: Shape,
}

/// A type without its key. Parts are entries of the type table.
#[derive(Clone, Copy, Debug, PartialEq, Eq, Hash)]
pub enum Shape {
    /// 10: a number.
    Number,
    /// 11: first and second part.
    Pair(u16, u16),
    /// 12: what the cell holds.
    Cell(u16),
    /// 13: from, to, effect.
    Function(u16, u16, u64),
    /// 14: a limit key of a name.
    Limit(u8),
    /// 15: a grant key of a name.
    Grant(u8),
}

impl Type {
    /// The type with no key.
    pub fn unkeyed(shape: Shape) -> Self {
        Type { key: 0, shape }
    }

    /// The kind of its values.
    pub fn kind(self) -> Kind {
        match self.shape {
            Shape::Number => Kind::Number,
            Shape::Pair(..) => Kind::Pair,
            Shape::Cell(_) => Kind::Cell,
            Shape::Function(..) => Kind::Function,
            Shape::Limit(_) => Kind::Limit,
            Shape::Grant(_) => Kind::Grant,
        }
    }
}

/// A value that the host lends: variable 0, 1, and so on.
#[derive(Clone, Copy, Debug, PartialEq, Eq)]
pub struct HostValue {
    /// Its declared type: a cell of unkeyed numbers, a limit key or a grant key.
    pub ty: u16,
    /// The number in a cell at the start; 0 of a key.
    pub number: u32,
}

/// An expression. Operands stand in the order of the job's bytes.
#[derive(Clone, Copy, Debug, PartialEq, Eq)]
pub enum Expr {
    /// 30: a number.
    Number(u32),
    /// 31: the limit key of name 1, the top.
    Top,
    /// 32: a variable.
    Variable(u8),
    /// 33: a pair of two values.
    Pair(u16, u16),
    /// 34: part 1 or 2 of a pair.
    Part(u16, u8),
    /// 35: a function; variable, its type, body.
    Function(u8, u16, u16),
    /// 36: a function applied to an argument.
    Apply(u16, u16),
    /// 37: a new cell; the type of what it holds, the first content.
    NewCell(u16, u16),
    /// 38: a cell gets a value.
    Assign(u16, u16),
    /// 39: what a cell holds.
    Read(u16),
    /// 3A 00: the sum of two numbers.
    Sum(u16, u16),
    /// 3A 01: the first number less the second.
    Difference(u16, u16),
    /// 3B: tested number, branch if not zero, branch if zero, type.
    Test(u16, u16, u16, u16),
    /// 40: a look at a key; limit key, branch if its key is enabled, branch if not, type.
    Look(u16, u16, u16, u16),
    /// 3C: a limit; number of keys, the keys, body.
    Limit(u8, [u16; 4], u16),
    /// 3D: a grant; key, body.
    Grant(u16, u16),
    /// 3E: a new key; variable, local name, limit key above, body, type.
    NewKey(u8, u8, u16, u16, u16),
    /// 3F: a value gets the key of a limit key.
    Associate(u16, u16),
    /// 41: a number divided by another; quotient and rest.
    Divide(u16, u16),
    /// 42: a thread is started; body.
    Spawn(u16),
}

/// What an expression binds, and where.
#[derive(Clone, Copy, Debug)]
pub struct Binder {
    /// The variable.
    pub variable: u8,
    /// The local name, of a new key.
    pub name: Option<u8>,
    /// The expression in which they are bound.
    pub body: u16,
}

/// A method that hands on the operands of an expression; with `mut`, those of one that may change.
macro_rules! each_operand {
    ($(#[$about:meta])* $name:ident $(, $mut:tt)?) => {
        $(#[$about])*
        #[inline(always)]
        pub fn $name<'a>(&'a $($mut)? self, mut take: impl FnMut(&'a $($mut)? u16)) {
            match self {
                Expr::Number(_) | Expr::Top | Expr::Variable(_) => {}
                Expr::Part(a, _)
                | Expr::Function(_, _, a)
                | Expr::NewCell(_, a)
                | Expr::Read(a)
                | Expr::Spawn(a) => take(a),
                Expr::Pair(a, b)
                | Expr::Apply(a, b)
                | Expr::Assign(a, b)
                | Expr::Sum(a, b)
                | Expr::Difference(a, b)
                | Expr::Grant(a, b)
                | Expr::NewKey(_, _, a, b, _)
                | Expr::Associate(a, b)
                | Expr::Divide(a, b) => {
                    take(a);
                    take(b)
                }
                Expr::Test(a, b, c, _) | Expr::Look(a, b, c, _) => {
                    [a, b, c].into_iter().for_each(take)
                }
                Expr::Limit(count, keys, body) => {
                    for key in &$($mut)? keys[..*count as usize] {
                        take(key)
                    }
                    take(body)
                }
            }
        }
    };
}

impl Expr {
    each_operand!(
        /// Hands each expression that is used to `take`, in order.
        each_operand
    );
    each_operand!(
        /// The same with operands that can be changed.
        each_operand_mut, mut
    );

    /// The type written in the expression.
    pub fn type_operand(&self) -> Option<u16> {
        match *self {
            Expr::Function(_, ty, _)
            | Expr::NewCell(ty, _)
            | Expr::Test(_, _, _, ty)
            | Expr::NewKey(_, _, _, _, ty)
            | Expr::Look(_, _, _, ty) => Some(ty),
            _ => None,
        }
    }

    /// What the command is called where commands are counted; limits are told apart by their keys.
    pub fn label(&self) -> String {
        let name = format!("{self:?}");
        let name = name.split('(').next().unwrap_or_default();
        match self {
            Expr::Limit(count, ..) => format!("{name} of {count}"),
            _ => name.to_string(),
        }
    }

    /// What the expression binds.
    pub fn binder(&self) -> Option<Binder> {
        match *self {
            Expr::Function(variable, _, body) => Some(Binder { variable, name: None, body }),
            Expr::NewKey(variable, name, _, body, _) => {
                Some(Binder { variable, name: Some(name), body })
            }
            _ => None,
        }
    }
}

/// A job as read: free of refusals 2 to 7.
#[derive(Clone, Debug, Default, PartialEq, Eq)]
pub struct Job {
    /// The names, with their tree.
    pub names: Names,
    /// The declared types.
    pub types: Vec<Type>,
    /// For each declared type, every name in it down to its leaves.
    pub type_names: Vec<u64>,
    /// For each declared type, its depth.
    pub depths: Vec<u8>,
    /// The values that the host lends.
    pub hosts: Vec<HostValue>,
    /// The job's rights, as a set of names.
    pub rights: u64,
    /// The expressions; the last one is the job's.
    pub exprs: Vec<Expr>,
}

impl Job {
    /// The number of the last expression. A job as read has at least one.
    pub fn last(&self) -> usize {
        self.exprs.len() - 1
    }
}
