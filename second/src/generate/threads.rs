//! Jobs of threads: many or few, with short and long work, that share cells and room; under limits,
//! grants, new keys, functions and loops; with what a thread has no key for.

use super::Rng;
use super::setting::{self, RIGHTS};
use crate::check::check;
use crate::job::*;
use crate::write::bytes_of;

/// The types of unkeyed numbers, of functions of them without effect, and of cells of such.
const PLAIN: u16 = 0;
const FUNCTION: u16 = 1;
const HOLDER: u16 = 2;
/// The first variables: two cells without a key and cells of keys 2 and 3, then limit keys and grant
/// keys of names 1 to 4.
const CELLS: u8 = 0;
const LIMITS: u8 = 4;
const GRANTS: u8 = 8;
const HOSTS: u8 = 12;
/// Host names 2 under 1, and 3 and 4 under 2; then local names under 2.
const LOCAL: u8 = 5;
const LOCALS: u8 = 3;

/// The expressions of a job being written down, what is bound next and what is in scope.
struct Threads<'r> {
    rng: &'r mut Rng,
    exprs: Vec<Expr>,
    variable: u8,
    name: u8,
    /// Variables of numbers, of the pairs of new keys, and of cells that hold a function.
    numbers: Vec<u8>,
    pairs: Vec<u8>,
    holders: Vec<u8>,
}

/// A job; the rights are often those it needs.
pub fn job(rng: &mut Rng) -> Job {
    let names = setting::names(LOCALS);
    let types = types(rng);
    let number = |v: u8| if v < LIMITS { v as u32 } else { 0 };
    let hosts = setting::hosts(&types, HOSTS, number);
    let exprs = exprs(rng);
    let mut job = Job { names, types, hosts, rights: 2, exprs, ..Job::default() };
    job.rights = match check(&bytes_of(&job)) {
        Ok(accepted) if rng.chance(40) => accepted.effect,
        Ok(accepted) => job.names.reduce(accepted.effect | rng.pick(&RIGHTS)),
        _ => rng.pick(&RIGHTS),
    };
    job
}

/// Numbers, functions and their cells, then a type for each host value.
fn types(rng: &mut Rng) -> Vec<Type> {
    let mut types = vec![Type::unkeyed(Shape::Number)];
    types.push(Type::unkeyed(Shape::Function(PLAIN, PLAIN, 0)));
    types.push(Type::unkeyed(Shape::Cell(FUNCTION)));
    types.extend([0, 0, 2, 3].map(|key| Type { key, shape: Shape::Cell(PLAIN) }));
    types.extend(setting::keys(rng, &[0, 0, 0, 0, 2, 3]));
    types
}

fn exprs(rng: &mut Rng) -> Vec<Expr> {
    let (numbers, pairs, holders) = (Vec::new(), Vec::new(), Vec::new());
    let (exprs, variable, name) = (Vec::new(), HOSTS, LOCAL);
    let mut threads = Threads { rng, exprs, variable, name, numbers, pairs, holders };
    if threads.rng.chance(3) {
        // One that nothing uses.
        threads.spawn(0);
    }
    match threads.rng.below(20) {
        0..7 => {
            let (count, depth) = (1 + threads.rng.below(3), 1 + threads.rng.below(3));
            threads.several(count, depth)
        }
        7 | 8 => {
            let (count, depth) = (6 + threads.rng.below(4), threads.rng.below(2));
            threads.several(count, depth)
        }
        9 => threads.spawn(2),
        10 => threads.tall(),
        _ => threads.looped(),
    };
    threads.exprs
}

impl Threads<'_> {
    fn add(&mut self, expr: Expr) -> u16 {
        self.exprs.push(expr);
        self.exprs.len() as u16 - 1
    }

    /// One of `count` variables from `first` on.
    fn host(&mut self, first: u8, count: usize) -> u16 {
        let v = first + self.rng.below(count) as u8;
        self.add(Expr::Variable(v))
    }

    /// The next variable; now and then one that is bound already.
    fn bound(&mut self) -> u8 {
        if self.variable == HOSTS || !self.rng.chance(3) {
            self.variable = (self.variable + 1).min(VARIABLES as u8);
        }
        self.variable - 1
    }

    fn number(&mut self, number: u32) -> u16 {
        self.add(Expr::Number(number))
    }

    fn literal(&mut self) -> u16 {
        let number = self.rng.below(4) as u32;
        self.number(number)
    }

    /// So many threads, one started after another, and then something else.
    fn several(&mut self, count: usize, depth: usize) -> u16 {
        let mut last = self.work(depth);
        for _ in 0..count {
            let thread = self.spawn(depth);
            last = self.after(thread, last);
        }
        last
    }

    /// A number after another, which is dropped; seldom that other is taken for something else, or
    /// twice.
    fn after(&mut self, first: u16, then: u16) -> u16 {
        match self.rng.below(90) {
            0 => self.add(Expr::Assign(first, then)),
            1 => {
                let v = self.bound();
                let function = self.add(Expr::Function(v, HOLDER, then));
                self.add(Expr::Apply(function, first))
            }
            2 => {
                let twice = self.add(Expr::Sum(first, first));
                self.add(Expr::Sum(twice, then))
            }
            3..30 => self.add(Expr::Sum(first, then)),
            30..60 => {
                let v = self.bound();
                let function = self.add(Expr::Function(v, PLAIN, then));
                self.add(Expr::Apply(function, first))
            }
            _ => {
                let pair = self.add(Expr::Pair(first, then));
                self.add(Expr::Part(pair, 2))
            }
        }
    }

    fn spawn(&mut self, depth: usize) -> u16 {
        let body = self.body(depth);
        self.add(Expr::Spawn(body))
    }

    /// What a thread comes to: mostly a number, or something of any kind.
    fn body(&mut self, depth: usize) -> u16 {
        match self.rng.below(20) {
            0 => self.add(Expr::Top),
            1 => self.host(GRANTS, 4),
            2 => self.host(CELLS, 4),
            3 => {
                let (a, b) = (self.work(depth), self.literal());
                self.add(Expr::Pair(a, b))
            }
            4 => {
                let (v, body) = (self.bound(), self.work(depth));
                self.add(Expr::Function(v, PLAIN, body))
            }
            5 => {
                let content = self.work(depth);
                self.add(Expr::NewCell(PLAIN, content))
            }
            6 if self.rng.chance(40) => self.wrong(),
            _ => self.work(depth),
        }
    }

    /// A sum with an operand of the wrong kind, after some work.
    fn wrong(&mut self) -> u16 {
        let (top, other) = (self.add(Expr::Top), self.work(0));
        self.add(Expr::Sum(top, other))
    }

    /// A number that some work comes to.
    fn work(&mut self, depth: usize) -> u16 {
        match self.rng.below(if depth == 0 { 11 } else { 22 }) {
            0..2 => self.literal(),
            2 => self.read(2),
            3 => {
                let (cell, value) = (self.host(CELLS, 2), self.literal());
                self.add(Expr::Assign(cell, value))
            }
            4 | 5 => self.counted(),
            6 => self.granted(),
            7 if self.rng.chance(25) => self.read(4),
            7 if self.rng.chance(10) => self.wrong(),
            7 | 8 => self.known(),
            9 => self.called(),
            10 => self.keyed(),
            11..13 => self.look(depth - 1),
            13..15 => {
                let (a, b) = (self.work(depth - 1), self.work(depth - 1));
                self.add(Expr::Sum(a, b))
            }
            15..18 => self.several(1, depth - 1),
            18 => {
                let (number, a, b) = (self.read(2), self.work(depth - 1), self.work(depth - 1));
                self.add(Expr::Test(number, a, b, PLAIN))
            }
            _ => self.around(depth - 1),
        }
    }

    /// What one of the first so many cells holds.
    fn read(&mut self, count: usize) -> u16 {
        let cell = self.host(CELLS, count);
        self.add(Expr::Read(cell))
    }

    /// One more in a cell that others may count in too.
    fn counted(&mut self) -> u16 {
        let cell = self.rng.below(2) as u8;
        let (target, source) = (self.add(Expr::Variable(cell)), self.add(Expr::Variable(cell)));
        let (held, one) = (self.add(Expr::Read(source)), self.number(1));
        let sum = self.add(Expr::Sum(held, one));
        self.add(Expr::Assign(target, sum))
    }

    /// The read of a cell with a key, under a grant of that key, of one above it, or seldom of
    /// another.
    fn granted(&mut self) -> u16 {
        let key = GRANTS + self.rng.pick(&[0, 1, 1, 1, 2]);
        let (key, body) = (self.add(Expr::Variable(key)), self.read(4));
        self.add(Expr::Grant(key, body))
    }

    /// A number in scope, or one that gets a new key and is reckoned with under its grant.
    fn known(&mut self) -> u16 {
        if !self.pairs.is_empty() && self.rng.chance(60) {
            return self.own();
        }
        if self.numbers.is_empty() {
            return self.literal();
        }
        let v = self.rng.pick(&self.numbers);
        self.add(Expr::Variable(v))
    }

    fn own(&mut self) -> u16 {
        let v = self.rng.pick(&self.pairs);
        let [limit, grant] = [1, 2].map(|part| {
            let pair = self.add(Expr::Variable(v));
            self.add(Expr::Part(pair, part))
        });
        let (value, other) = (self.literal(), self.literal());
        let keyed = self.add(Expr::Associate(value, limit));
        let sum = self.add(Expr::Sum(keyed, other));
        self.add(Expr::Grant(grant, sum))
    }

    /// A call of a function that is held in a cell.
    fn called(&mut self) -> u16 {
        if self.holders.is_empty() {
            return self.literal();
        }
        let v = self.rng.pick(&self.holders);
        let count = self.rng.below(3) as u32;
        self.call(v, count)
    }

    fn call(&mut self, holder: u8, count: u32) -> u16 {
        let held = self.add(Expr::Variable(holder));
        let (function, count) = (self.add(Expr::Read(held)), self.number(count));
        self.add(Expr::Apply(function, count))
    }

    /// A number that gets a key, and seldom is used.
    fn keyed(&mut self) -> u16 {
        let (value, key) = (self.literal(), self.host(LIMITS, 4));
        let keyed = self.add(Expr::Associate(value, key));
        if self.rng.chance(80) {
            let zero = self.literal();
            let pair = self.add(Expr::Pair(keyed, zero));
            return self.add(Expr::Part(pair, 2));
        }
        let one = self.number(1);
        self.add(Expr::Sum(keyed, one))
    }

    /// A look at a key that a thread mostly does not have.
    fn look(&mut self, depth: usize) -> u16 {
        let key = self.host(LIMITS, 4);
        let enabled = if self.rng.chance(40) { self.read(4) } else { self.work(depth) };
        let other = self.work(depth);
        self.add(Expr::Look(key, enabled, other, PLAIN))
    }

    /// Threads and work with something around them that changes what is enabled or bound.
    fn around(&mut self, depth: usize) -> u16 {
        match self.rng.below(6) {
            0 | 1 => {
                let count = self.rng.below(3);
                let mut keys = [UNUSED; 4];
                keys[..count].fill_with(|| self.host(LIMITS, 4));
                let body = self.several(1, depth);
                self.add(Expr::Limit(count as u8, keys, body))
            }
            2 => {
                let (key, body) = (self.host(GRANTS, 4), self.several(1, depth));
                self.add(Expr::Grant(key, body))
            }
            3 if self.name < LOCAL + LOCALS => {
                let (v, name) = (self.bound(), self.name);
                self.name += 1;
                let key = self.add(Expr::Variable(LIMITS + 1));
                self.pairs.push(v);
                let body = self.several(1, depth);
                self.pairs.retain(|&known| known != v);
                self.add(Expr::NewKey(v, name, key, body, PLAIN))
            }
            _ => {
                let v = self.bound();
                self.numbers.push(v);
                let body = self.several(1, depth);
                self.numbers.retain(|&known| known != v);
                let function = self.add(Expr::Function(v, PLAIN, body));
                let argument = self.work(0);
                self.add(Expr::Apply(function, argument))
            }
        }
    }

    /// A thread that is started with about as many frames as there may be.
    fn tall(&mut self) -> u16 {
        let mut top = self.spawn(0);
        for place in 0..253 + self.rng.below(6) {
            top = self.add(match place % 2 {
                0 => Expr::NewCell(PLAIN, top),
                _ => Expr::Read(top),
            });
        }
        top
    }
}

/// Loops: a cell holds a function that reads the cell and calls what it finds. Threads call it, too.
impl Threads<'_> {
    fn looped(&mut self) -> u16 {
        let (n, c, o) = (self.bound(), self.bound(), self.bound());
        let count = self.rng.pick(&[1, 1, 1, 2, 2, 3, 6, 7, 7, 8]);
        let kind = self.rng.below(9);
        self.holders.push(c);
        let tail = kind > 1 && self.rng.chance(80);
        let function = self.function((n, c), kind, tail);
        let calls = self.rng.chance(33);
        let sharers = count + calls as usize;
        let mut last = if calls {
            let turns = self.turns(kind, sharers);
            self.call(c, turns)
        } else if self.rng.chance(50) {
            self.work(1)
        } else {
            self.read(2)
        };
        for _ in 0..count {
            let turns = self.turns(kind, sharers);
            let body = self.call(c, turns);
            let thread = self.add(Expr::Spawn(body));
            last = self.after(thread, last);
        }
        self.holders.pop();
        let held = self.add(Expr::Variable(c));
        let assigned = self.add(Expr::Assign(held, function));
        let pair = self.add(Expr::Pair(assigned, last));
        let run = self.add(Expr::Part(pair, 2));
        let outer = self.add(Expr::Function(c, HOLDER, run));
        let nothing = self.number(0);
        let first = self.add(Expr::Function(o, PLAIN, nothing));
        let cell = self.add(Expr::NewCell(FUNCTION, first));
        self.add(Expr::Apply(outer, cell))
    }

    /// The function: the load, and where the counter is not zero a call with one less.
    fn function(&mut self, (n, c): (u8, u8), kind: usize, tail: bool) -> u16 {
        self.numbers.push(n);
        let load = self.load(kind);
        let base = if self.rng.chance(40) { self.spawn(0) } else { self.work(0) };
        self.numbers.retain(|&known| known != n);
        let (one, also_one) = (self.number(1), self.number(1));
        let step = self.add(Expr::Test(load, one, also_one, PLAIN));
        let counter = self.add(Expr::Variable(n));
        let less = self.add(Expr::Difference(counter, step));
        let held = self.add(Expr::Variable(c));
        let itself = self.add(Expr::Read(held));
        let mut again = self.add(Expr::Apply(itself, less));
        if !tail {
            let one = self.number(1);
            again = self.add(Expr::Sum(one, again));
        }
        let tested = self.add(Expr::Variable(n));
        let body = self.add(Expr::Test(tested, again, base, PLAIN));
        self.add(Expr::Function(n, PLAIN, body))
    }

    /// A number worked out in each turn; it mostly uses up one kind of room.
    fn load(&mut self, kind: usize) -> u16 {
        match kind {
            3 => {
                let content = self.number(1);
                let cell = self.add(Expr::NewCell(PLAIN, content));
                self.add(Expr::Read(cell))
            }
            4 => {
                let (a, b) = (self.number(1), self.literal());
                let pair = self.add(Expr::Pair(a, b));
                self.add(Expr::Part(pair, 2))
            }
            5 => {
                let (v, body) = (self.bound(), self.number(1));
                let function = self.add(Expr::Function(v, PLAIN, body));
                let argument = self.literal();
                self.add(Expr::Apply(function, argument))
            }
            6 if self.name < LOCAL + LOCALS => {
                let (v, name) = (self.bound(), self.name);
                self.name += 1;
                let (key, body) = (self.add(Expr::Variable(LIMITS + 1)), self.number(1));
                self.add(Expr::NewKey(v, name, key, body, PLAIN))
            }
            7 => self.spawn(0),
            8 => self.work(1),
            0 | 2 => self.literal(),
            _ => self.counted(),
        }
    }

    /// The turns of one of so many that share a kind of room, so that it just lasts or does not.
    fn turns(&mut self, kind: usize, sharers: usize) -> u32 {
        let room = match kind {
            // Frames are not shared.
            0 | 1 => return self.rng.pick(&[3, 120, 140, 245, 250]) + self.rng.below(14) as u32,
            2 => 1010,
            3 => 251,
            4 => 511,
            5 => 509,
            6 => 123,
            7 => 7,
            _ => return self.rng.below(12) as u32,
        };
        if self.rng.chance(30) {
            return self.rng.below(9) as u32;
        }
        (room / sharers + self.rng.below(5)).saturating_sub(1) as u32
    }
}
