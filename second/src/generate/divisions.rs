//! Jobs of divisions: operands with keys on either side, operands of wrong kinds, divisors of 0,
//! and something that uses the parts.

use super::Rng;
use super::setting::{self, RIGHTS};
use crate::check::check;
use crate::job::*;
use crate::write::bytes_of;

/// The types of unkeyed numbers, of those with key 3, and of pairs of either in each order.
const PLAIN: u16 = 0;
const KEYED: u16 = 1;
const PAIRS: u16 = 2;
/// The first variables: cells of keys 0, 2, 3, 4, then limit keys and grant keys of names 1 to 4.
const CELLS: u8 = 0;
const LIMITS: u8 = 4;
const GRANTS: u8 = 8;
const HOSTS: u8 = 12;

/// The expressions of a job being written down, and the next variable.
struct Divisions<'r> {
    rng: &'r mut Rng,
    exprs: Vec<Expr>,
    variable: u8,
}

/// A job; the rights are often those it needs.
pub fn job(rng: &mut Rng) -> Job {
    let names = setting::names(0);
    let types = types(rng);
    let number = |v: u8| if v < LIMITS { some_word(rng) } else { 0 };
    let hosts = setting::hosts(&types, HOSTS, number);
    let mut divisions = Divisions { rng, exprs: Vec::new(), variable: HOSTS };
    if divisions.rng.chance(4) {
        // One that nothing uses.
        divisions.divide(0);
    }
    let depth = divisions.rng.below(4);
    divisions.whole(depth);
    let exprs = divisions.exprs;
    let mut job = Job { names, types, hosts, rights: 2, exprs, ..Job::default() };
    job.rights = match check(&bytes_of(&job)) {
        Ok(accepted) if rng.chance(70) => accepted.effect,
        _ => rng.pick(&RIGHTS),
    };
    job
}

/// Numbers and pairs of them, then a type for each host value.
fn types(rng: &mut Rng) -> Vec<Type> {
    let mut types = vec![Type::unkeyed(Shape::Number), Type { key: 3, shape: Shape::Number }];
    for parts in [(PLAIN, PLAIN), (KEYED, PLAIN), (PLAIN, KEYED)] {
        types.push(Type { key: rng.pick(&[0, 0, 0, 2]), shape: Shape::Pair(parts.0, parts.1) });
    }
    types.extend([0, 2, 3, 4].map(|key| Type { key, shape: Shape::Cell(PLAIN) }));
    types.extend(setting::keys(rng, &[0, 0, 0, 1, 2, 3, 4]));
    types
}

/// A number at an end of the numbers or near it, at their middle, small, or any.
fn some_word(rng: &mut Rng) -> u32 {
    match rng.below(10) {
        0 | 1 => 0,
        2 => u32::MAX - rng.below(3) as u32,
        3 => (i32::MAX as u32 - 1).wrapping_add(rng.below(4) as u32),
        4 => rng.word() as u32,
        5 => rng.below(1 << 16) as u32,
        _ => 1 + rng.below(12) as u32,
    }
}

impl Divisions<'_> {
    fn add(&mut self, expr: Expr) -> u16 {
        self.exprs.push(expr);
        self.exprs.len() as u16 - 1
    }

    /// One of `count` variables from `first` on.
    fn host(&mut self, first: u8, count: usize) -> u16 {
        let v = first + self.rng.below(count) as u8;
        self.add(Expr::Variable(v))
    }

    fn bound(&mut self) -> u8 {
        self.variable = (self.variable + 1).min(VARIABLES as u8);
        self.variable - 1
    }

    fn literal(&mut self) -> u16 {
        let number = some_word(self.rng);
        self.add(Expr::Number(number))
    }

    /// A number, often with a key; seldom something else.
    fn operand(&mut self, depth: usize) -> u16 {
        match self.rng.below(if depth == 0 { 14 } else { 18 }) {
            0..5 => self.literal(),
            5 | 6 => {
                let cell = self.host(CELLS, 4);
                self.add(Expr::Read(cell))
            }
            7..11 => self.keyed(),
            11 => {
                let (key, body) = (self.host(GRANTS, 4), self.literal());
                self.add(Expr::Grant(key, body))
            }
            12 => {
                let body = self.literal();
                self.add(Expr::Limit(0, [UNUSED; 4], body))
            }
            13 if self.rng.chance(40) => self.other_kind(),
            13 => self.literal(),
            14..17 => self.number(depth - 1),
            _ => self.around(depth - 1),
        }
    }

    fn keyed(&mut self) -> u16 {
        let (value, key) = (self.literal(), self.host(LIMITS, 4));
        self.add(Expr::Associate(value, key))
    }

    /// Something that is no number, often with a key.
    fn other_kind(&mut self) -> u16 {
        let value = match self.rng.below(6) {
            0 => self.add(Expr::Top),
            1 => self.host(CELLS, 4),
            2 => self.host(GRANTS, 4),
            3 => {
                let (v, body) = (self.bound(), self.literal());
                self.add(Expr::Function(v, PLAIN, body))
            }
            4 => {
                let (a, b) = (self.literal(), self.literal());
                self.add(Expr::Pair(a, b))
            }
            _ => self.divide(0),
        };
        if self.rng.chance(50) {
            return value;
        }
        let key = self.host(LIMITS, 4);
        self.add(Expr::Associate(value, key))
    }

    /// A pair.
    fn divide(&mut self, depth: usize) -> u16 {
        let (dividend, divisor) = match self.rng.below(50) {
            // One expression for both.
            0 => {
                let both = self.operand(depth);
                (both, both)
            }
            1 | 2 => (self.keyed(), self.other_kind()),
            3 => (self.other_kind(), self.keyed()),
            _ => (self.operand(depth), self.operand(depth)),
        };
        self.add(Expr::Divide(dividend, divisor))
    }

    /// A number that a division comes to.
    fn number(&mut self, depth: usize) -> u16 {
        let pair = self.divide(depth);
        match self.rng.below(6) {
            0..3 => {
                let part = 1 + self.rng.below(2) as u8;
                self.add(Expr::Part(pair, part))
            }
            3 => {
                let key = self.host(LIMITS, 4);
                let keyed = self.add(Expr::Associate(pair, key));
                let part = 1 + self.rng.below(2) as u8;
                self.add(Expr::Part(keyed, part))
            }
            _ => self.both_parts(pair),
        }
    }

    /// The sum or difference of the parts, by a function that takes the pair.
    fn both_parts(&mut self, pair: u16) -> u16 {
        let v = self.bound();
        let parts = [1, 2].map(|part| {
            let pair = self.add(Expr::Variable(v));
            self.add(Expr::Part(pair, part))
        });
        let body = match self.rng.below(3) {
            0 => self.add(Expr::Sum(parts[0], parts[1])),
            1 => self.add(Expr::Difference(parts[0], parts[1])),
            _ => self.add(Expr::Difference(parts[1], parts[0])),
        };
        let ty = PAIRS + self.rng.below(3) as u16;
        let function = self.add(Expr::Function(v, ty, body));
        self.add(Expr::Apply(function, pair))
    }

    /// A number with something around it that changes what is enabled.
    fn around(&mut self, depth: usize) -> u16 {
        match self.rng.below(3) {
            0 => {
                let count = self.rng.below(3);
                let mut keys = [UNUSED; 4];
                keys[..count].fill_with(|| self.host(LIMITS, 4));
                let body = self.whole(depth);
                self.add(Expr::Limit(count as u8, keys, body))
            }
            1 => {
                let (key, body) = (self.host(GRANTS, 4), self.whole(depth));
                self.add(Expr::Grant(key, body))
            }
            _ => {
                let (key, a, b) = (self.host(LIMITS, 4), self.number(depth), self.literal());
                self.add(Expr::Look(key, a, b, PLAIN))
            }
        }
    }

    /// A division, one of its parts, or one of them in something.
    fn whole(&mut self, depth: usize) -> u16 {
        match self.rng.below(8) {
            0 | 1 => self.divide(depth),
            2..5 => self.number(depth),
            5 => {
                let (pair, ty) = (self.divide(depth), PAIRS + self.rng.below(3) as u16);
                let cell = self.add(Expr::NewCell(ty, pair));
                self.add(Expr::Read(cell))
            }
            _ if depth > 0 => self.around(depth - 1),
            _ => self.number(0),
        }
    }
}
