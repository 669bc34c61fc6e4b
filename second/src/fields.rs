//! The tables of a job as fields, each with room for more than its operand.

use crate::job::{Expr, HostValue, Job, Shape, Type};
use crate::read::Section;

/// An entry of a table: its command, and fields of which the command has some as operands.
#[derive(Clone, Copy, Debug, PartialEq, Eq)]
pub struct Entry<const N: usize> {
    /// The command.
    pub command: u64,
    /// The fields; which of them a command has, [`operands`](crate::write::operands) says.
    pub fields: [u64; N],
}

impl<const N: usize> Default for Entry<N> {
    fn default() -> Self {
        Entry { command: 0, fields: [0; N] }
    }
}

impl<const N: usize> Entry<N> {
    fn new(command: u8, fields: [u64; N]) -> Self {
        Entry { command: command.into(), fields }
    }
}

/// The upper name.
pub type NameEntry = Entry<1>;
/// The key, the first part or the name of a key type, the second part, the effect.
pub type TypeEntry = Entry<4>;
/// The type and the number.
pub type ValueEntry = Entry<2>;
/// Two operands of one byte or four, then five of two bytes: expressions, then the type.
pub type ExprEntry = Entry<7>;

/// Where the operands of two bytes begin in an expression's fields.
pub const PLACES: usize = 2;

/// The tables of a job, or such as no job has. Entries from a count on are not used. An entry that
/// is not there is as one of zeros.
#[derive(Clone, Debug, Default, PartialEq, Eq)]
pub struct Fields {
    /// The names from 2 on.
    pub names: Vec<NameEntry>,
    /// The declared types.
    pub types: Vec<TypeEntry>,
    /// The host values.
    pub values: Vec<ValueEntry>,
    /// The expressions.
    pub exprs: Vec<ExprEntry>,
    /// How many names (without 0 and 1), types, host values and expressions there are.
    pub counts: [u64; 4],
    /// The operand of 21.
    pub rights: u64,
}

/// The sections that are tables, in the order of the counts.
pub const TABLES: [Section; 4] =
    [Section::Names, Section::Types, Section::Hosts, Section::Expressions];

impl Fields {
    /// The fields of a job; those that are no operand are zero.
    pub fn of(job: &Job) -> Self {
        let names = (2..job.names.count() as u8).map(|name| {
            let host = job.names.host() >> name & 1 == 1;
            Entry::new(if host { 0x01 } else { 0x02 }, [job.names.upper(name).into()])
        });
        let value = |host: &HostValue| Entry::new(0x20, [host.ty.into(), host.number.into()]);
        let fields = Fields {
            names: names.collect(),
            types: job.types.iter().map(TypeEntry::of).collect(),
            values: job.hosts.iter().map(value).collect(),
            exprs: job.exprs.iter().map(ExprEntry::of).collect(),
            counts: [0; 4],
            rights: job.rights,
        };
        Fields { counts: fields.lengths().map(|length| length as u64), ..fields }
    }

    /// How many entries each table has, used or not.
    pub fn lengths(&self) -> [usize; 4] {
        [self.names.len(), self.types.len(), self.values.len(), self.exprs.len()]
    }

    /// The command and the fields of an entry of a table, by the table's place in [`TABLES`].
    pub fn entry(&self, table: usize, number: usize) -> (u64, &[u64]) {
        fn at<const N: usize>(entries: &[Entry<N>], number: usize) -> (u64, &[u64]) {
            entries.get(number).map_or((0, &[0; N]), |entry| (entry.command, &entry.fields))
        }
        match table {
            0 => at(&self.names, number),
            1 => at(&self.types, number),
            2 => at(&self.values, number),
            _ => at(&self.exprs, number),
        }
    }

    /// The same to be changed, of an entry that is there.
    pub fn entry_mut(&mut self, table: usize, number: usize) -> (&mut u64, &mut [u64]) {
        fn at<const N: usize>(entry: &mut Entry<N>) -> (&mut u64, &mut [u64]) {
            (&mut entry.command, &mut entry.fields)
        }
        match table {
            0 => at(&mut self.names[number]),
            1 => at(&mut self.types[number]),
            2 => at(&mut self.values[number]),
            _ => at(&mut self.exprs[number]),
        }
    }

    /// The same entries with so many in each table: those that are there no more are left out, and
    /// new ones are zeros.
    pub fn resize(&mut self, lengths: [usize; 4]) {
        self.names.resize(lengths[0], Entry::default());
        self.types.resize(lengths[1], Entry::default());
        self.values.resize(lengths[2], Entry::default());
        self.exprs.resize(lengths[3], Entry::default());
    }
}

impl TypeEntry {
    /// The fields of a type.
    pub fn of(ty: &Type) -> Self {
        let key = ty.key.into();
        match ty.shape {
            Shape::Number => Entry::new(0x10, [key, 0, 0, 0]),
            Shape::Pair(first, second) => Entry::new(0x11, [key, first.into(), second.into(), 0]),
            Shape::Cell(content) => Entry::new(0x12, [key, content.into(), 0, 0]),
            Shape::Function(from, to, effect) => {
                Entry::new(0x13, [key, from.into(), to.into(), effect])
            }
            Shape::Limit(name) => Entry::new(0x14, [key, name.into(), 0, 0]),
            Shape::Grant(name) => Entry::new(0x15, [key, name.into(), 0, 0]),
        }
    }
}

impl ExprEntry {
    /// The fields of an expression.
    pub fn of(expr: &Expr) -> Self {
        let (command, head) = head(expr);
        let mut fields = [0; 7];
        fields[0] = head;
        if let Expr::NewKey(_, name, ..) = *expr {
            fields[1] = name.into();
        }
        if let Expr::Limit(_, [a, b, c, d], body) = *expr {
            fields[PLACES..].copy_from_slice(&[a, b, c, d, body].map(u64::from));
            return Entry::new(command, fields);
        }
        let mut place = PLACES;
        expr.each_operand(|&operand| {
            fields[place] = operand.into();
            place += 1;
        });
        fields[place] = expr.type_operand().unwrap_or(0).into();
        Entry::new(command, fields)
    }
}

/// The command of an expression, and its first operand of one byte or four.
fn head(expr: &Expr) -> (u8, u64) {
    match *expr {
        Expr::Number(n) => (0x30, n.into()),
        Expr::Top => (0x31, 0),
        Expr::Variable(v) => (0x32, v.into()),
        Expr::Pair(..) => (0x33, 0),
        Expr::Part(_, part) => (0x34, part.into()),
        Expr::Function(v, ..) => (0x35, v.into()),
        Expr::Apply(..) => (0x36, 0),
        Expr::NewCell(..) => (0x37, 0),
        Expr::Assign(..) => (0x38, 0),
        Expr::Read(_) => (0x39, 0),
        Expr::Sum(..) => (0x3A, 0),
        Expr::Difference(..) => (0x3A, 1),
        Expr::Test(..) => (0x3B, 0),
        Expr::Limit(count, ..) => (0x3C, count.into()),
        Expr::Grant(..) => (0x3D, 0),
        Expr::NewKey(v, ..) => (0x3E, v.into()),
        Expr::Associate(..) => (0x3F, 0),
        Expr::Look(..) => (0x40, 0),
        Expr::Divide(..) => (0x41, 0),
        Expr::Spawn(_) => (0x42, 0),
    }
}
