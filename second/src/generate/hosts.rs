//! Jobs with many host names and host values, of which some are used; and the longest jobs.

use super::Rng;
use super::limits::largest;
use crate::check::check;
use crate::job::*;
use crate::names::{Names, bits};
use crate::write::bytes_of;

/// A job; the rights are mostly what it needs or more.
pub fn job(rng: &mut Rng) -> Vec<u8> {
    if rng.chance(8) {
        return at_the_end(rng);
    }
    let names = names(rng);
    let types = types(rng, &names);
    let hosts = hosts(rng, &types);
    let mut uses = Uses { rng, types: &types, hosts: &hosts, exprs: Vec::new(), bound: 0 };
    uses.all();
    let exprs = uses.exprs;
    let mut job = Job { names, types, hosts, rights: 2, exprs, ..Job::default() };
    if let Ok(accepted) = check(&bytes_of(&job)) {
        job.rights = rights(rng, &job.names, accepted.effect);
    }
    bytes_of(&job)
}

/// Host names, some with local ones among them, one or none, or as many as there may be.
fn names(rng: &mut Rng) -> Names {
    let mut names = Names::default();
    let mut open = vec![1];
    let count = rng.pick(&[0, 1, 1, 2, 3, 4, 7, 9, 12, 20, 40, 62, 62]);
    let local = rng.pick(&[0, 0, 0, 20, 50, 100]);
    let deep = rng.pick(&[20, 50, 90]);
    for _ in 0..count {
        if rng.chance(local) {
            let upper = 1 + rng.below(names.count() - 1) as u8;
            names.declare(upper, false);
            continue;
        }
        let upper = if rng.chance(deep) { open[open.len() - 1] } else { rng.pick(&open) };
        open.push(names.declare(upper, true));
    }
    names
}

/// Numbers, then cells and keys of a few names that are often near each other.
fn types(rng: &mut Rng, names: &Names) -> Vec<Type> {
    let open: Vec<u8> = bits(names.host() | 2).collect();
    let mut few = vec![0, 1];
    for _ in 0..1 + rng.below(3) {
        let name = rng.pick(&open);
        few.push(name);
        if name > 1 && rng.chance(50) {
            few.push(names.upper(name));
        }
    }
    let mut types = vec![Type::unkeyed(Shape::Number)];
    for _ in 0..1 + rng.below(8) {
        let (key, name) = (rng.pick(&few), rng.pick(&few).max(1));
        let shape = match rng.below(5) {
            0..3 => Shape::Cell(0),
            3 => Shape::Limit(name),
            _ => Shape::Grant(name),
        };
        types.push(Type { key, shape });
    }
    types
}

/// Host values of these types, often most of them of one, a cell that carries a host name.
fn hosts(rng: &mut Rng, types: &[Type]) -> Vec<HostValue> {
    let some = |rng: &mut Rng| 1 + rng.below(types.len() - 1) as u16;
    let count = rng.pick(&[0, 1, 3, 8, 12, 20, 64, 64]);
    let keyed = types.iter().position(|ty| ty.key > 1 && ty.kind() == Kind::Cell);
    let most = keyed.filter(|_| rng.chance(70)).map_or_else(|| some(rng), |ty| ty as u16);
    let often = rng.pick(&[0, 70, 95, 100]);
    let value = |_| HostValue { ty: if rng.chance(often) { most } else { some(rng) }, number: 0 };
    (0..count).map(value).collect()
}

/// The effect, or what lies above it.
fn rights(rng: &mut Rng, names: &Names, effect: u64) -> u64 {
    let open: Vec<u8> = bits(names.host() | 2).collect();
    match rng.below(6) {
        0 | 1 => effect,
        2 => 2,
        3 => names.reduce(effect | 1 << rng.pick(&open)),
        4 => names.reduce(bits(effect).fold(0, |set, name| set | 1 << names.upper(name).max(1))),
        _ => 1 << rng.pick(&open),
    }
}

/// The expressions of a job being written down.
struct Uses<'a> {
    rng: &'a mut Rng,
    types: &'a [Type],
    hosts: &'a [HostValue],
    exprs: Vec<Expr>,
    /// How many variables are bound.
    bound: usize,
}

impl Uses<'_> {
    fn add(&mut self, expr: Expr) -> u16 {
        self.exprs.push(expr);
        self.exprs.len() as u16 - 1
    }

    fn number(&mut self) -> u16 {
        self.add(Expr::Number(1))
    }

    /// The sum of some uses.
    fn all(&mut self) {
        let mut sum = self.number();
        let count = self.hosts.len().min(self.rng.below(5));
        for _ in 0..count {
            let v = self.rng.below(self.hosts.len());
            let used = self.used(v);
            sum = self.add(Expr::Sum(sum, used));
        }
    }

    fn shape(&self, v: usize) -> Shape {
        self.types[self.hosts[v].ty as usize].shape
    }

    /// A number that comes of a host value.
    fn used(&mut self, v: usize) -> u16 {
        let value = self.add(Expr::Variable(v as u8));
        match self.shape(v) {
            Shape::Limit(_) => {
                let (enabled, other) = (self.number(), self.number());
                self.add(Expr::Look(value, enabled, other, 0))
            }
            Shape::Grant(_) => {
                let body = self.number();
                self.add(Expr::Grant(value, body))
            }
            _ => {
                let read = self.add(Expr::Read(value));
                self.wrapped(read)
            }
        }
    }

    /// The number, or one that drops its effect or holds it back, if there is a key for that.
    fn wrapped(&mut self, read: u16) -> u16 {
        let around = self.rng.below(6);
        let fit: Vec<usize> = (0..self.hosts.len())
            .filter(|&v| match self.shape(v) {
                Shape::Grant(_) => around == 0,
                Shape::Limit(_) => around == 1,
                _ => false,
            })
            .collect();
        match around {
            0 | 1 if !fit.is_empty() => {
                let v = self.rng.pick(&fit) as u8;
                let key = self.add(Expr::Variable(v));
                let other = if around == 1 { self.number() } else { 0 };
                let looks = Expr::Look(key, read, other, 0);
                self.add(if around == 0 { Expr::Grant(key, read) } else { looks })
            }
            2 if self.hosts.len() + self.bound < VARIABLES => {
                let v = (self.hosts.len() + self.bound) as u8;
                self.bound += 1;
                let function = self.add(Expr::Function(v, 0, read));
                let number = self.number();
                let pair = self.add(Expr::Pair(function, number));
                self.add(Expr::Part(pair, 2))
            }
            _ => read,
        }
    }
}

/// A job nearly as long as any, with something else where its last command or its end is due.
fn at_the_end(rng: &mut Rng) -> Vec<u8> {
    let mut bytes = bytes_of(&largest());
    let end = bytes.len() - 1;
    // The last command has twelve bytes.
    let last = end - 12;
    match rng.below(8) {
        0 => bytes.push(0xFF),
        1 => bytes.truncate(end),
        2 => bytes.truncate(last + 1 + rng.below(11)),
        3 => bytes[last] = 0x41,
        4 => bytes[last] = 0x10,
        5 => bytes[last + 1] = 5,
        6 => {
            let again = bytes[last..end].to_vec();
            bytes.splice(end..end, again);
        }
        _ => {}
    }
    bytes
}
