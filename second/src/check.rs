//! The check: least types and effects, refusals 11 to 14 and 16.

use crate::job::*;
use crate::names::Names;
use crate::read::read;
use crate::tree::tree;

pub use crate::verdict::{Accepted, Typed};

/// Checks a job.
pub fn check(job: &[u8]) -> Result<Accepted, Refusal> {
    let job = read(job)?;
    tree(&job)?;
    check_job(&job)
}

/// Checks a job that is free of refusals 2 to 10.
pub fn check_job(job: &Job) -> Result<Accepted, Refusal> {
    Checker::new(job).run()
}

/// How an entry is compared with a declared type.
#[derive(Clone, Copy, PartialEq, Eq)]
enum Relation {
    Below,
    Above,
    Equal,
}

impl Relation {
    fn turned(self) -> Self {
        match self {
            Relation::Below => Relation::Above,
            Relation::Above => Relation::Below,
            Relation::Equal => Relation::Equal,
        }
    }

    /// Whether it holds of two names.
    #[inline(always)]
    fn of_names(self, names: &Names, a: u8, b: u8) -> bool {
        match self {
            Relation::Below => names.below(a, b),
            Relation::Above => names.below(b, a),
            Relation::Equal => a == b,
        }
    }

    /// Whether it holds of two effects.
    #[inline(always)]
    fn of_effects(self, names: &Names, a: u64, b: u64) -> bool {
        match self {
            Relation::Below => names.set_below(a, b),
            Relation::Above => names.set_below(b, a),
            Relation::Equal => a == b,
        }
    }
}

struct Checker<'a> {
    job: &'a Job,
    table: Vec<Type>,
    typed: Vec<Typed>,
    variables: [u16; VARIABLES],
    /// For each entry and each declared type two bits a relation: known, and whether it holds.
    known: Vec<u8>,
}

/// All expressions in order.
impl<'a> Checker<'a> {
    fn new(job: &'a Job) -> Self {
        let mut table = job.types.clone();
        let mut variables = [0; VARIABLES];
        for (variable, host) in job.hosts.iter().enumerate() {
            variables[variable] = host.ty;
        }
        for expr in &job.exprs {
            match *expr {
                Expr::Function(variable, ty, _) => variables[variable as usize] = ty,
                Expr::NewKey(variable, name, ..) => {
                    let limit = table.len() as u16;
                    table.extend([Shape::Limit(name), Shape::Grant(name)].map(Type::unkeyed));
                    table.push(Type::unkeyed(Shape::Pair(limit, limit + 1)));
                    variables[variable as usize] = limit + 2;
                }
                _ => {}
            }
        }
        let entries = table.len() + job.exprs.iter().map(types_made).sum::<usize>();
        Checker {
            job,
            table,
            typed: Vec::with_capacity(job.exprs.len()),
            variables,
            known: vec![0; entries * job.types.len()],
        }
    }

    fn run(mut self) -> Result<Accepted, Refusal> {
        for (number, expr) in self.job.exprs.iter().enumerate() {
            let typed = match self.expr(expr) {
                Ok(typed) => typed,
                Err(refusal) => return Err(Refusal::at(refusal, number)),
            };
            self.typed.push(typed);
        }
        let last = self.job.last();
        let Typed { entry, effect } = self.typed[last];
        if !self.names().set_below(effect, self.job.rights) {
            return Err(Refusal::at(14, last));
        }
        let kind = self.table[entry as usize].kind();
        Ok(Accepted { entry, kind, effect, types: self.table, exprs: self.typed })
    }

    fn names(&self) -> &'a Names {
        &self.job.names
    }

    /// What was worked out for an earlier expression.
    fn of(&self, expr: u16) -> Typed {
        self.typed[expr as usize]
    }

    /// The effect of an expression with its value's key touched, and the value's shape.
    fn touch(&self, expr: u16) -> (u64, Shape) {
        let Typed { entry, effect } = self.of(expr);
        let Type { key, shape } = self.table[entry as usize];
        (effect | 1 << key, shape)
    }

    /// An expression of a type that is there already.
    fn point(&self, entry: u16, effect: u64) -> Typed {
        Typed { entry, effect: self.names().reduce(effect) }
    }

    /// An expression that makes an unkeyed type.
    fn make(&mut self, shape: Shape, effect: u64) -> Typed {
        let entry = self.table.len() as u16;
        self.table.push(Type::unkeyed(shape));
        self.point(entry, effect)
    }
}

/// One expression: its type and effect, or the number of a refusal.
impl Checker<'_> {
    fn expr(&mut self, expr: &Expr) -> Result<Typed, u32> {
        Ok(match *expr {
            Expr::Number(_) => self.make(Shape::Number, 0),
            Expr::Top => self.make(Shape::Limit(1), 0),
            Expr::Variable(v) => Typed { entry: self.variables[v as usize], effect: 0 },
            Expr::Pair(first, second) => {
                let (first, second) = (self.of(first), self.of(second));
                self.make(Shape::Pair(first.entry, second.entry), first.effect | second.effect)
            }
            Expr::Part(pair, part) => return self.part(pair, part),
            Expr::Function(_, from, body) => {
                let body = self.of(body);
                self.make(Shape::Function(from, body.entry, body.effect), 0)
            }
            Expr::Apply(function, argument) => return self.apply(function, argument),
            Expr::NewCell(ty, content) => {
                let effect = self.subtype(content, ty)?;
                self.make(Shape::Cell(ty), effect)
            }
            Expr::Assign(cell, value) => return self.assign(cell, value),
            Expr::Read(cell) => {
                let (touched, Shape::Cell(content)) = self.touch(cell) else {
                    return Err(11);
                };
                self.point(content, touched)
            }
            Expr::Sum(a, b) | Expr::Difference(a, b) => return self.arithmetic(a, b),
            Expr::Test(number, a, b, ty) => return self.test(number, a, b, ty),
            Expr::Limit(count, keys, body) => return self.limit(&keys[..count as usize], body),
            Expr::Grant(key, body) => return self.grant(key, body),
            Expr::NewKey(_, name, key, body, ty) => return self.new_key(name, key, body, ty),
            Expr::Associate(value, key) => return self.associate(value, key),
            Expr::Look(key, a, b, ty) => return self.look(key, a, b, ty),
            Expr::Divide(dividend, divisor) => return self.divide(dividend, divisor),
            Expr::Spawn(body) => return self.spawn(body),
        })
    }

    #[inline(always)]
    fn part(&self, pair: u16, part: u8) -> Result<Typed, u32> {
        let (touched, Shape::Pair(first, second)) = self.touch(pair) else {
            return Err(11);
        };
        Ok(self.point(if part == 1 { first } else { second }, touched))
    }

    #[inline(always)]
    fn apply(&mut self, function: u16, argument: u16) -> Result<Typed, u32> {
        let (touched, Shape::Function(from, to, latent)) = self.touch(function) else {
            return Err(11);
        };
        let argument = self.subtype(argument, from)?;
        Ok(self.point(to, touched | latent | argument))
    }

    #[inline(always)]
    fn assign(&mut self, cell: u16, value: u16) -> Result<Typed, u32> {
        let (touched, Shape::Cell(content)) = self.touch(cell) else {
            return Err(11);
        };
        let effect = self.subtype(value, content)?;
        Ok(self.point(content, touched | effect))
    }

    #[inline(always)]
    fn arithmetic(&mut self, first: u16, second: u16) -> Result<Typed, u32> {
        let (left, Shape::Number) = self.touch(first) else {
            return Err(11);
        };
        let (right, Shape::Number) = self.touch(second) else {
            return Err(11);
        };
        Ok(self.make(Shape::Number, left | right))
    }

    #[inline(always)]
    fn test(&mut self, number: u16, nonzero: u16, zero: u16, ty: u16) -> Result<Typed, u32> {
        let (touched, Shape::Number) = self.touch(number) else {
            return Err(11);
        };
        let nonzero = self.subtype(nonzero, ty)?;
        let zero = self.subtype(zero, ty)?;
        Ok(self.point(ty, touched | nonzero | zero))
    }

    #[inline(always)]
    fn limit(&mut self, keys: &[u16], body: u16) -> Result<Typed, u32> {
        let (mut effect, mut allowed) = (0, 0);
        for &key in keys {
            let (touched, Shape::Limit(name)) = self.touch(key) else {
                return Err(11);
            };
            effect |= touched;
            allowed |= 1 << name;
        }
        let body = self.of(body);
        if !self.names().set_below(body.effect, allowed) {
            return Err(13);
        }
        Ok(self.point(body.entry, effect | body.effect))
    }

    #[inline(always)]
    fn grant(&mut self, key: u16, body: u16) -> Result<Typed, u32> {
        let names = self.names();
        let (touched, Shape::Grant(name)) = self.touch(key) else {
            return Err(11);
        };
        let body = self.of(body);
        let effect = touched | names.without(body.effect, name);
        Ok(self.point(body.entry, effect))
    }

    #[inline(always)]
    fn new_key(&mut self, name: u8, key: u16, body: u16, ty: u16) -> Result<Typed, u32> {
        let names = self.names();
        let (touched, Shape::Limit(above)) = self.touch(key) else {
            return Err(11);
        };
        if above != names.upper(name) {
            return Err(11);
        }
        let body = self.subtype(body, ty)?;
        Ok(self.point(ty, touched | names.raise(body, name)))
    }

    #[inline(always)]
    fn associate(&mut self, value: u16, key: u16) -> Result<Typed, u32> {
        let (left, shape) = self.touch(value);
        let (right, Shape::Limit(name)) = self.touch(key) else {
            return Err(11);
        };
        let typed = self.make(shape, left | right);
        self.table[typed.entry as usize].key = name;
        Ok(typed)
    }

    /// What lies below the key's name is free in the first branch alone.
    #[inline(always)]
    fn look(&mut self, key: u16, enabled: u16, other: u16, ty: u16) -> Result<Typed, u32> {
        let names = self.names();
        let (touched, Shape::Limit(name)) = self.touch(key) else {
            return Err(11);
        };
        let first = self.subtype(enabled, ty)?;
        let second = self.subtype(other, ty)?;
        Ok(self.point(ty, touched | names.without(first, name) | second))
    }

    /// Makes the type of both parts, then that of the pair.
    #[inline(always)]
    fn divide(&mut self, dividend: u16, divisor: u16) -> Result<Typed, u32> {
        let (divided, Shape::Number) = self.touch(dividend) else {
            return Err(11);
        };
        let (dividing, Shape::Number) = self.touch(divisor) else {
            return Err(11);
        };
        let part = self.make(Shape::Number, 0).entry;
        Ok(self.make(Shape::Pair(part, part), divided | dividing))
    }

    /// A thread has no keys, so its body must need none. Its value is dropped.
    #[inline(always)]
    fn spawn(&mut self, body: u16) -> Result<Typed, u32> {
        if self.of(body).effect != 0 {
            return Err(16);
        }
        Ok(self.make(Shape::Number, 0))
    }
}

/// Subtypes.
impl Checker<'_> {
    /// The effect of an expression whose type must be a subtype of a declared one.
    fn subtype(&mut self, expr: u16, ty: u16) -> Result<u64, u32> {
        let Typed { entry, effect } = self.of(expr);
        match self.holds(Relation::Below, entry, ty) {
            true => Ok(effect),
            false => Err(12),
        }
    }

    /// Whether an entry stands in a relation to a declared type. Each question is worked out once.
    fn holds(&mut self, relation: Relation, entry: u16, declared: u16) -> bool {
        if entry == declared {
            return true;
        }
        let at = entry as usize * self.job.types.len() + declared as usize;
        let shift = relation as u8 * 2;
        match self.known[at] >> shift & 3 {
            0 => {
                let holds = self.work_out(relation, entry, declared);
                self.known[at] |= (2 | holds as u8) << shift;
                holds
            }
            known => known == 3,
        }
    }

    fn work_out(&mut self, relation: Relation, entry: u16, declared: u16) -> bool {
        let names = self.names();
        let (a, b) = (self.table[entry as usize], self.table[declared as usize]);
        let keys = relation.of_names(names, a.key, b.key);
        keys && match (a.shape, b.shape) {
            (Shape::Number, Shape::Number) => true,
            (Shape::Pair(a1, a2), Shape::Pair(b1, b2)) => {
                self.holds(relation, a1, b1) && self.holds(relation, a2, b2)
            }
            (Shape::Cell(a), Shape::Cell(b)) => self.holds(Relation::Equal, a, b),
            (Shape::Function(a1, a2, ae), Shape::Function(b1, b2, be)) => {
                let effects = relation.of_effects(names, ae, be);
                effects && self.holds(relation.turned(), a1, b1) && self.holds(relation, a2, b2)
            }
            (Shape::Limit(a), Shape::Limit(b)) | (Shape::Grant(a), Shape::Grant(b)) => a == b,
            _ => false,
        }
    }
}

/// How many entries of its own an expression has in the type table.
fn types_made(expr: &Expr) -> usize {
    match expr {
        Expr::Number(_)
        | Expr::Top
        | Expr::Pair(..)
        | Expr::Function(..)
        | Expr::NewCell(..)
        | Expr::Sum(..)
        | Expr::Difference(..)
        | Expr::Associate(..)
        | Expr::Spawn(_) => 1,
        Expr::Divide(..) => 2,
        _ => 0,
    }
}
