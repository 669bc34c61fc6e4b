//! Reading: bytes to tables, refusals 2 to 7.

use crate::job::*;
use crate::widths::{NO, WIDTHS};

/// The sections of a job, in order.
#[derive(Clone, Copy, Debug, PartialEq, Eq, PartialOrd, Ord)]
pub enum Section {
    /// 01 and 02.
    Names,
    /// 10 to 15.
    Types,
    /// 20: host values.
    Hosts,
    /// 21.
    Rights,
    /// 30 to 42.
    Expressions,
    /// FF.
    End,
}

impl Section {
    /// The section of a command. Most are expressions, so these are asked for first.
    #[inline(always)]
    fn of(command: u8) -> Section {
        match command {
            0x30..=0x42 => Section::Expressions,
            0x01 | 0x02 => Section::Names,
            0x10..=0x15 => Section::Types,
            0x20 => Section::Hosts,
            0x21 => Section::Rights,
            _ => Section::End,
        }
    }

    /// Whether a command of this section may come after one of another.
    #[inline(always)]
    fn follows(self, last: Section) -> bool {
        match self {
            Section::Names | Section::Types | Section::Hosts => last <= self,
            Section::Rights => last < self,
            Section::Expressions => last >= Section::Rights,
            Section::End => last == Section::Expressions,
        }
    }
}

/// A command's section and the width of its operands.
#[inline(always)]
pub fn command(byte: u8) -> Option<(Section, usize)> {
    let width = WIDTHS[byte as usize];
    (width != NO).then(|| (Section::of(byte), width as usize))
}

/// The width of a command with its operands.
pub fn width(byte: u8) -> Option<usize> {
    command(byte).map(|(_, operands)| 1 + operands)
}

/// Reads a job.
pub fn read(bytes: &[u8]) -> Result<Job, Refusal> {
    let mut reader = Reader::default();
    let mut section = Section::Names;
    let mut at = 0;
    loop {
        let refused = |number| Err(Refusal::at(number, at));
        let Some(&byte) = bytes.get(at) else {
            return refused(4);
        };
        let Some((own, width)) = command(byte) else {
            return refused(2);
        };
        let end = at + 1 + width;
        if !own.follows(section) {
            return refused(3);
        }
        let Some(operands) = bytes.get(at + 1..end) else {
            return refused(4);
        };
        if own == Section::End {
            return if end < bytes.len() { Err(Refusal::at(7, end)) } else { Ok(reader.0) };
        }
        if reader.is_full(own) {
            return refused(5);
        }
        if reader.take(byte, Operands(operands)).is_none() {
            return refused(6);
        }
        section = own;
        at = end;
    }
}

/// The operands of one command, taken from the front.
pub struct Operands<'a>(pub &'a [u8]);

impl Operands<'_> {
    fn bytes<const N: usize>(&mut self) -> [u8; N] {
        let (front, rest) = self.0.split_first_chunk().expect("operands of fixed width");
        self.0 = rest;
        *front
    }

    fn byte(&mut self) -> u8 {
        self.bytes::<1>()[0]
    }

    fn reference(&mut self) -> u16 {
        u16::from_le_bytes(self.bytes())
    }

    fn number(&mut self) -> u32 {
        u32::from_le_bytes(self.bytes())
    }

    fn set(&mut self) -> u64 {
        u64::from_le_bytes(self.bytes())
    }
}

/// The job as far as it is read.
#[derive(Default)]
pub struct Reader(Job);

/// Each method gives nothing where refusal 6 is due.
impl Reader {
    /// Whether one more entry of a section is one more than its limit.
    #[inline(always)]
    pub fn is_full(&self, section: Section) -> bool {
        match section {
            Section::Names => self.0.names.is_full(),
            Section::Types => self.0.types.len() == TYPES,
            Section::Hosts => self.0.hosts.len() == VARIABLES,
            Section::Expressions => self.0.exprs.len() == EXPRESSIONS,
            Section::Rights | Section::End => false,
        }
    }

    /// Takes in a command of a section that is not full, with operands of its width.
    #[inline(always)]
    pub fn take(&mut self, command: u8, operands: Operands) -> Option<()> {
        match Section::of(command) {
            Section::Names => self.declare(command == 0x01, operands),
            Section::Types => self.add_type(command, operands),
            Section::Hosts => self.add_host(operands),
            Section::Rights => self.set_rights(operands),
            Section::Expressions => self.add_expr(command, operands),
            Section::End => None,
        }
    }

    #[inline(always)]
    fn declare(&mut self, host: bool, mut operands: Operands) -> Option<()> {
        let upper = self.some_name(operands.byte())?;
        let names = &mut self.0.names;
        let open = names.host() | 1 << 1;
        if host && open >> upper & 1 == 0 {
            return None;
        }
        names.declare(upper, host);
        Some(())
    }

    #[inline(always)]
    fn add_type(&mut self, command: u8, mut operands: Operands) -> Option<()> {
        let key = self.name(operands.byte())?;
        let shape = match command {
            0x10 => Shape::Number,
            0x11 => Shape::Pair(self.ty(operands.reference())?, self.ty(operands.reference())?),
            0x12 => Shape::Cell(self.ty(operands.reference())?),
            0x13 => Shape::Function(
                self.ty(operands.reference())?,
                self.ty(operands.reference())?,
                self.set(operands.set())?,
            ),
            0x14 => Shape::Limit(self.some_name(operands.byte())?),
            _ => Shape::Grant(self.some_name(operands.byte())?),
        };
        let job = &mut self.0;
        let part = |entry: u16| (job.depths[entry as usize], job.type_names[entry as usize]);
        let (below, names) = match shape {
            Shape::Number => (0, 0),
            Shape::Limit(name) | Shape::Grant(name) => (0, 1 << name),
            Shape::Cell(content) => part(content),
            Shape::Pair(first, second) => join(part(first), part(second)),
            Shape::Function(from, to, effect) => join((0, effect), join(part(from), part(to))),
        };
        if below >= DEPTH {
            return None;
        }
        job.types.push(Type { key, shape });
        job.type_names.push(names | 1 << key);
        job.depths.push(below + 1);
        Some(())
    }

    #[inline(always)]
    fn add_host(&mut self, mut operands: Operands) -> Option<()> {
        let ty = self.ty(operands.reference())?;
        let number = operands.number();
        let job = &mut self.0;
        let unkeyed = Type::unkeyed(Shape::Number);
        let lent = match job.types[ty as usize].shape {
            Shape::Cell(content) => job.types[content as usize] == unkeyed,
            Shape::Limit(_) | Shape::Grant(_) => number == 0,
            _ => false,
        };
        let known = job.type_names[ty as usize] & job.names.local() == 0;
        if !lent || !known {
            return None;
        }
        job.hosts.push(HostValue { ty, number });
        Some(())
    }

    #[inline(always)]
    fn set_rights(&mut self, mut operands: Operands) -> Option<()> {
        let rights = self.set(operands.set())?;
        if rights & self.0.names.local() != 0 {
            return None;
        }
        self.0.rights = rights;
        Some(())
    }

    #[inline(always)]
    fn add_expr(&mut self, command: u8, mut operands: Operands) -> Option<()> {
        let o = &mut operands;
        let expr = match command {
            0x30 => Expr::Number(o.number()),
            0x31 => Expr::Top,
            0x32 => Expr::Variable(variable(o.byte())?),
            0x33 => Expr::Pair(self.expr(o)?, self.expr(o)?),
            0x34 => Expr::Part(self.expr(o)?, Some(o.byte()).filter(|i| (1..=2).contains(i))?),
            0x35 => Expr::Function(self.bound(o.byte())?, self.ty(o.reference())?, self.expr(o)?),
            0x36 => Expr::Apply(self.expr(o)?, self.expr(o)?),
            0x37 => Expr::NewCell(self.ty(o.reference())?, self.expr(o)?),
            0x38 => Expr::Assign(self.expr(o)?, self.expr(o)?),
            0x39 => Expr::Read(self.expr(o)?),
            0x3A => match o.byte() {
                0 => Expr::Sum(self.expr(o)?, self.expr(o)?),
                1 => Expr::Difference(self.expr(o)?, self.expr(o)?),
                _ => return None,
            },
            0x3B => {
                Expr::Test(self.expr(o)?, self.expr(o)?, self.expr(o)?, self.ty(o.reference())?)
            }
            0x3C => {
                let count = Some(o.byte()).filter(|&count| count <= 4)?;
                Expr::Limit(count, self.keys(count, o)?, self.expr(o)?)
            }
            0x3D => Expr::Grant(self.expr(o)?, self.expr(o)?),
            0x3E => self.new_key(o)?,
            0x3F => Expr::Associate(self.expr(o)?, self.expr(o)?),
            0x40 => {
                Expr::Look(self.expr(o)?, self.expr(o)?, self.expr(o)?, self.ty(o.reference())?)
            }
            0x41 => Expr::Divide(self.expr(o)?, self.expr(o)?),
            _ => Expr::Spawn(self.expr(o)?),
        };
        self.0.exprs.push(expr);
        Some(())
    }

    #[inline(always)]
    fn new_key(&self, o: &mut Operands) -> Option<Expr> {
        let (variable, name) = (self.bound(o.byte())?, self.local(o.byte())?);
        let (key, body) = (self.expr(o)?, self.expr(o)?);
        Some(Expr::NewKey(variable, name, key, body, self.ty(o.reference())?))
    }

    /// Four places for the keys of a limit, of which the first so many are used.
    #[inline(always)]
    fn keys(&self, count: u8, operands: &mut Operands) -> Option<[u16; 4]> {
        let mut keys = [UNUSED; 4];
        for (place, key) in keys.iter_mut().enumerate() {
            if place < count as usize {
                *key = self.expr(operands)?;
            } else if operands.reference() != UNUSED {
                return None;
            }
        }
        Some(keys)
    }

    /// A declared name, or 0 or 1.
    fn name(&self, name: u8) -> Option<u8> {
        ((name as usize) < self.0.names.count()).then_some(name)
    }

    /// A declared name other than 0.
    #[inline(always)]
    fn some_name(&self, name: u8) -> Option<u8> {
        self.name(name).filter(|&name| name != 0)
    }

    /// A local name.
    fn local(&self, name: u8) -> Option<u8> {
        self.name(name).filter(|&name| self.0.names.local() >> name & 1 == 1)
    }

    /// A reduced set of declared names, without 0.
    fn set(&self, set: u64) -> Option<u64> {
        let names = &self.0.names;
        (set & !names.all() == 0 && names.reduce(set) == set).then_some(set)
    }

    /// A declared type.
    fn ty(&self, ty: u16) -> Option<u16> {
        ((ty as usize) < self.0.types.len()).then_some(ty)
    }

    /// An earlier expression.
    #[inline(always)]
    fn expr(&self, operands: &mut Operands) -> Option<u16> {
        let expr = operands.reference();
        ((expr as usize) < self.0.exprs.len()).then_some(expr)
    }

    /// A variable that an expression may bind.
    fn bound(&self, v: u8) -> Option<u8> {
        variable(v).filter(|&v| v as usize >= self.0.hosts.len())
    }
}

fn variable(v: u8) -> Option<u8> {
    ((v as usize) < VARIABLES).then_some(v)
}

fn join(a: (u8, u64), b: (u8, u64)) -> (u8, u64) {
    (a.0.max(b.0), a.1 | b.1)
}
