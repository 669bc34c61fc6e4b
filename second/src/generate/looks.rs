//! Jobs of looks at keys: under limits, grants, new keys and functions, with something in the
//! branches that needs what was looked at.

use super::Rng;
use super::setting::{self, RIGHTS};
use crate::check::check;
use crate::job::*;
use crate::write::bytes_of;

/// The type of unkeyed numbers, and of those with key 3.
const PLAIN: u16 = 0;
const KEYED: u16 = 1;
/// The first variables: cells of keys 2, 3, 4, then limit keys and grant keys of names 1 to 4.
const CELLS: u8 = 0;
const LIMITS: u8 = 3;
const GRANTS: u8 = 7;
const HOSTS: u8 = 11;
/// Host names 2 under 1, and 3 and 4 under 2; then local names under 2.
const LOCAL: u8 = 5;
const LOCALS: u8 = 3;

/// The expressions of a job being written down, what is bound next and what is in scope.
struct Looks<'r> {
    rng: &'r mut Rng,
    exprs: Vec<Expr>,
    variable: u8,
    name: u8,
    /// Variables of numbers, and of the pairs of new keys.
    numbers: Vec<u8>,
    pairs: Vec<u8>,
}

/// A job; the rights are often those it needs.
pub fn job(rng: &mut Rng) -> Job {
    let names = setting::names(LOCALS);
    let types = types(rng);
    let number = |v: u8| if v < LIMITS { 6 + v as u32 } else { 0 };
    let hosts = setting::hosts(&types, HOSTS, number);
    let (exprs, variable) = (Vec::new(), HOSTS);
    let (numbers, pairs) = (Vec::new(), Vec::new());
    let mut looks = Looks { rng, exprs, variable, name: LOCAL, numbers, pairs };
    if looks.rng.chance(4) {
        // One that nothing uses.
        looks.look(0);
    }
    let depth = 1 + looks.rng.below(3);
    if looks.rng.chance(40) {
        looks.look(depth)
    } else {
        looks.around(depth)
    };
    let exprs = looks.exprs;
    let mut job = Job { names, types, hosts, rights: 2, exprs, ..Job::default() };
    job.rights = match check(&bytes_of(&job)) {
        Ok(accepted) if rng.chance(50) => accepted.effect,
        Ok(accepted) if rng.chance(50) => job.names.reduce(accepted.effect | rng.pick(&RIGHTS)),
        _ => rng.pick(&RIGHTS),
    };
    job
}

/// Numbers, then a type for each host value.
fn types(rng: &mut Rng) -> Vec<Type> {
    let mut types = vec![Type::unkeyed(Shape::Number), Type { key: 3, shape: Shape::Number }];
    types.extend([2, 3, 4].map(|key| Type { key, shape: Shape::Cell(PLAIN) }));
    types.extend(setting::keys(rng, &[0, 0, 0, 1, 2, 3, 4]));
    types
}

impl Looks<'_> {
    fn add(&mut self, expr: Expr) -> u16 {
        self.exprs.push(expr);
        self.exprs.len() as u16 - 1
    }

    /// One of `count` variables from `first` on.
    fn host(&mut self, first: u8, count: usize) -> u16 {
        let v = first + self.rng.below(count) as u8;
        self.add(Expr::Variable(v))
    }

    fn limit_key(&mut self) -> u16 {
        self.host(LIMITS, 4)
    }

    fn literal(&mut self) -> u16 {
        let number = self.rng.below(3) as u32;
        self.add(Expr::Number(number))
    }

    /// The next variable; now and then one that is bound already.
    fn bound(&mut self) -> u8 {
        if self.variable == HOSTS || !self.rng.chance(2) {
            self.variable = (self.variable + 1).min(VARIABLES as u8);
        }
        self.variable - 1
    }

    /// An unkeyed number.
    fn number(&mut self, depth: usize) -> u16 {
        match self.rng.below(if depth == 0 { 6 } else { 12 }) {
            0 => self.literal(),
            1..4 => {
                let cell = self.host(CELLS, 3);
                self.add(Expr::Read(cell))
            }
            4 if !self.numbers.is_empty() => {
                let v = self.rng.pick(&self.numbers);
                self.add(Expr::Variable(v))
            }
            4 | 5 => self.keyed(),
            6..10 => self.look(depth - 1),
            _ => self.around(depth - 1),
        }
    }

    /// A number that gets a key and is then reckoned with.
    fn keyed(&mut self) -> u16 {
        let value = self.literal();
        let key = self.own_key().unwrap_or_else(|| self.limit_key());
        let keyed = self.add(Expr::Associate(value, key));
        let other = self.literal();
        self.add(Expr::Sum(keyed, other))
    }

    /// The limit key of a new key in scope.
    fn own_key(&mut self) -> Option<u16> {
        if self.pairs.is_empty() {
            return None;
        }
        let pair = self.rng.pick(&self.pairs);
        let pair = self.add(Expr::Variable(pair));
        Some(self.add(Expr::Part(pair, 1)))
    }

    /// A key to look at, or seldom something else.
    fn key(&mut self) -> u16 {
        match self.rng.below(24) {
            0 => self.add(Expr::Top),
            1 => self.host(GRANTS, 4),
            2 => self.host(CELLS, 3),
            3 if self.rng.chance(50) => self.literal(),
            3 | 4 => {
                let (grant, key) = (self.host(GRANTS, 4), self.limit_key());
                self.add(Expr::Grant(grant, key))
            }
            5 => {
                let key = self.limit_key();
                self.add(Expr::Limit(0, [UNUSED; 4], key))
            }
            6 => {
                let v = self.bound();
                let (key, argument) = (self.limit_key(), self.literal());
                let function = self.add(Expr::Function(v, PLAIN, key));
                self.add(Expr::Apply(function, argument))
            }
            7 => {
                let (key, other) = (self.limit_key(), self.limit_key());
                self.add(Expr::Associate(key, other))
            }
            8..16 => self.own_key().unwrap_or_else(|| self.limit_key()),
            _ => self.limit_key(),
        }
    }

    /// A number for a branch, now and then with a key.
    fn branch(&mut self, depth: usize) -> u16 {
        let number = self.number(depth);
        if !self.rng.chance(8) {
            return number;
        }
        let key = self.limit_key();
        self.add(Expr::Associate(number, key))
    }

    fn look(&mut self, depth: usize) -> u16 {
        let key = self.key();
        let enabled = self.branch(depth);
        // Seldom one expression for both branches.
        let other = if self.rng.chance(2) { enabled } else { self.branch(depth) };
        if self.rng.chance(80) {
            return self.add(Expr::Look(key, enabled, other, PLAIN));
        }
        let look = self.add(Expr::Look(key, enabled, other, KEYED));
        let zero = self.literal();
        self.add(Expr::Sum(look, zero))
    }

    /// A number with something around it that changes what is enabled, or what is bound.
    fn around(&mut self, depth: usize) -> u16 {
        match self.rng.below(9) {
            0 | 1 => {
                let count = self.rng.below(3);
                let mut keys = [UNUSED; 4];
                keys[..count].fill_with(|| self.limit_key());
                let body = self.number(depth);
                self.add(Expr::Limit(count as u8, keys, body))
            }
            2..4 => {
                let (key, body) = (self.host(GRANTS, 4), self.number(depth));
                self.add(Expr::Grant(key, body))
            }
            4 | 5 if self.name < LOCAL + LOCALS => self.new_key(depth),
            _ => self.called(depth),
        }
    }

    fn new_key(&mut self, depth: usize) -> u16 {
        let (v, name) = (self.bound(), self.name);
        self.name += 1;
        let key = self.add(Expr::Variable(LIMITS + 1));
        self.pairs.push(v);
        let mut body = self.number(depth);
        if self.rng.chance(40) {
            let pair = self.add(Expr::Variable(v));
            let grant = self.add(Expr::Part(pair, 2));
            body = self.add(Expr::Grant(grant, body));
        }
        self.pairs.retain(|&known| known != v);
        self.add(Expr::NewKey(v, name, key, body, PLAIN))
    }

    /// A function, at times made under a grant, and called outside it.
    fn called(&mut self, depth: usize) -> u16 {
        let v = self.bound();
        self.numbers.push(v);
        let body = self.number(depth);
        self.numbers.retain(|&known| known != v);
        let mut function = self.add(Expr::Function(v, PLAIN, body));
        if self.rng.chance(40) {
            let key = self.host(GRANTS, 4);
            function = self.add(Expr::Grant(key, function));
        }
        let argument = self.literal();
        self.add(Expr::Apply(function, argument))
    }
}
