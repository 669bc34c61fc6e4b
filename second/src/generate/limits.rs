//! Jobs near the limits and near single conditions.

use super::Rng;
use crate::job::*;
use crate::names::Names;
use crate::write::bytes_of;

/// A job at a limit, or one past it, or near a condition of the reader or of scopes.
pub fn job(rng: &mut Rng) -> Vec<u8> {
    let past = rng.below(2);
    match rng.below(34) {
        0 => repeated(rng, &[], &[0x01, 1], &[0x01, 0], 62 + past),
        1 => repeated(rng, &[], &[0x10, 0], &[0x10, 77], 256 + past),
        2 => {
            let cell = [0x10, 0, 0x12, 0, 0, 0];
            let (good, bad) = ([0x20, 1, 0, 7, 0, 0, 0], [0x20, 2, 0, 7, 0, 0, 0]);
            repeated(rng, &cell, &good, &bad, 64 + past)
        }
        3 | 30 => towering(rng, 511 + past),
        4 => bytes_of(&tower(240 + rng.below(40))),
        5 => {
            let depth = 15 + rng.below(3);
            bytes_of(&nested(rng, depth))
        }
        6 | 7 => sets(rng),
        8 => bytes_of(&ladder(8 + 8 * past, 1 + 20 * past, rng.below(3))),
        9 | 31 => bytes_of(&busy(rng)),
        10 => host_values(rng),
        11 => full(rng),
        12..18 => bytes_of(&brink(rng)),
        18..21 => misplaced(rng),
        21..28 => edited(rng),
        28 | 29 => bytes_of(&compared(rng)),
        _ => bytes_of(&scopes(rng)),
    }
}

const END: [u8; 15] = [0x21, 0, 0, 0, 0, 0, 0, 0, 0, 0x30, 5, 0, 0, 0, 0xFF];

/// One command many times, the last of them as it is, with a bad operand, or cut short.
fn repeated(rng: &mut Rng, before: &[u8], good: &[u8], bad: &[u8], count: usize) -> Vec<u8> {
    let mut bytes = before.to_vec();
    bytes.extend(good.repeat(count - 1));
    match rng.below(4) {
        0 => bytes.extend(bad),
        1 => bytes.extend(&good[..1 + rng.below(good.len() - 1)]),
        2 => {
            bytes.extend(good);
            bytes.extend(END);
        }
        _ => {
            bytes.extend(bad);
            bytes.extend(END);
        }
    }
    bytes
}

/// Expressions of a job being written down.
struct Exprs(Vec<Expr>);

impl Exprs {
    fn add(&mut self, expr: Expr) -> u16 {
        self.0.push(expr);
        self.0.len() as u16 - 1
    }

    fn number(&mut self, number: u32) -> u16 {
        self.add(Expr::Number(number))
    }

    fn variable(&mut self, v: u8) -> u16 {
        self.add(Expr::Variable(v))
    }
}

fn number(key: u8) -> Type {
    Type { key, shape: Shape::Number }
}

/// A job of that many expressions, each but the first the operand of the next.
pub fn tower(count: usize) -> Job {
    let mut exprs = Exprs(Vec::new());
    let mut top = exprs.number(9);
    for place in 1..count {
        top = exprs.add(match place % 2 {
            1 => Expr::NewCell(0, top),
            _ => Expr::Read(top),
        });
    }
    Job { types: vec![number(0)], exprs: exprs.0, ..Job::default() }
}

/// The same, at times with one more expression, whole or cut short, that refers to no earlier one.
fn towering(rng: &mut Rng, count: usize) -> Vec<u8> {
    let mut bytes = bytes_of(&tower(count));
    if rng.chance(70) {
        let more: &[u8] = match rng.below(4) {
            0 => &[0x39, 0xFF, 0x7F, 0xFF],
            1 => &[0x41, 0, 0, 0xFF, 0x7F, 0xFF],
            2 => &[0x42, 0xFF, 0x7F, 0xFF],
            _ => &[0x40, 0, 0, 1, 0, 0xFF, 0x7F, 0, 0, 0xFF],
        };
        let kept = if rng.chance(50) { more.len() } else { 1 + rng.below(more.len()) };
        bytes.pop();
        bytes.extend(&more[..kept]);
    }
    bytes
}

/// A job with a declared type of some depth.
fn nested(rng: &mut Rng, depth: usize) -> Job {
    let mut types = vec![number(0)];
    while types.len() < depth {
        let last = types.len() as u16 - 1;
        let other = rng.below(types.len()) as u16;
        types.push(Type::unkeyed(match rng.below(4) {
            0 => Shape::Pair(last, other),
            1 => Shape::Cell(last),
            2 => Shape::Function(last, other, 0),
            _ => Shape::Function(other, last, 2),
        }));
    }
    let mut exprs = Exprs(Vec::new());
    let body = exprs.number(1);
    exprs.add(Expr::Function(5, depth as u16 - 1, body));
    Job { types, exprs: exprs.0, ..Job::default() }
}

/// Two chains of types of some depth, compared by many applies.
///
/// `shape` 0 is pairs, 1 functions, 2 cells.
pub fn ladder(depth: usize, applies: usize, shape: usize) -> Job {
    let mut types = vec![number(0), number((shape < 2) as u8)];
    while types.len() < 2 * depth.min(DEPTH as usize - 1) {
        let below = types.len() as u16 - 2;
        types.push(Type::unkeyed(match shape {
            0 => Shape::Pair(below, below),
            // Both ways round at every step.
            1 => Shape::Function(below ^ 1, below, 0),
            _ if below < 2 => Shape::Cell(below),
            _ => Shape::Pair(below, below),
        }));
    }
    let high = types.len() as u16 - 1;
    let taker = types.len() as u16;
    types.push(Type::unkeyed(Shape::Function(high, 0, 0)));
    let mut exprs = Exprs(Vec::new());
    let mut sum = exprs.number(0);
    for _ in 0..applies.min(120) {
        let (function, argument) = (exprs.variable(0), exprs.variable(1));
        let one = exprs.add(Expr::Apply(function, argument));
        sum = exprs.add(Expr::Sum(sum, one));
    }
    let inner = exprs.add(Expr::Function(1, high - 1, sum));
    exprs.add(Expr::Function(0, taker, inner));
    Job { types, exprs: exprs.0, ..Job::default() }
}

/// A type that must be a subtype of another, mostly much like it.
fn compared(rng: &mut Rng) -> Job {
    let mut names = Names::default();
    names.declare(1, true);
    names.declare(2, true);
    let mut types = Vec::new();
    let (own, wanted) = twins(rng, &mut types, 3);
    let mut e = Exprs(Vec::new());
    let result = e.number(1);
    let function = e.add(Expr::Function(1, wanted, result));
    let argument = e.variable(0);
    let apply = e.add(Expr::Apply(function, argument));
    e.add(Expr::Function(0, own, apply));
    Job { names, types, exprs: e.0, ..Job::default() }
}

/// Two types of one make whose keys, names and effects may differ; the first is mostly a subtype.
fn twins(rng: &mut Rng, types: &mut Vec<Type>, depth: usize) -> (u16, u16) {
    let sort = if depth == 0 { rng.below(2) } else { rng.below(6) };
    let keys = rng.pick(&[(0, 0), (0, 0), (0, 0), (2, 2), (0, 2), (3, 2), (3, 1), (2, 3), (2, 0)]);
    let name = 1 + rng.below(3) as u8;
    let (own, wanted) = match sort {
        0 => (Shape::Number, Shape::Number),
        1 => {
            let other = if rng.chance(85) { name } else { 2 };
            let limits = (Shape::Limit(name), Shape::Limit(other));
            if rng.chance(50) { limits } else { (Shape::Grant(name), Shape::Grant(other)) }
        }
        2 | 3 => {
            let (a, b) = twins(rng, types, depth - 1);
            (Shape::Cell(a), Shape::Cell(b))
        }
        4 => {
            let (a, b) = (twins(rng, types, depth - 1), twins(rng, types, depth - 1));
            (Shape::Pair(a.0, b.0), Shape::Pair(a.1, b.1))
        }
        _ => {
            // The argument the other way round.
            let (a, b) = (twins(rng, types, depth - 1), twins(rng, types, depth - 1));
            let effects = rng.pick(&[(0, 0), (0, 4), (8, 4), (8, 2), (4, 8), (4, 0)]);
            (Shape::Function(a.1, b.0, effects.0), Shape::Function(a.0, b.1, effects.1))
        }
    };
    types.push(Type { key: keys.0, shape: own });
    types.push(Type { key: keys.1, shape: wanted });
    (types.len() as u16 - 2, types.len() as u16 - 1)
}

/// The variables of a loop: its counter, the cell that holds it, and one more.
const COUNTER: u8 = 1;
const HOLDER: u8 = 2;
const OTHER: u8 = 3;

/// The first types of a loop's job.
fn loop_types() -> Vec<Type> {
    vec![number(0), Type::unkeyed(Shape::Function(0, 0, 0)), Type::unkeyed(Shape::Cell(1))]
}

/// A cell holds a function that reads the cell and calls what it finds there, some turns long. The
/// expression `load`, a number, is worked out in each turn.
fn looped(e: &mut Exprs, load: u16, turns: u32) -> u16 {
    let assigned = assigned(e, load);
    let turns = e.number(turns);
    let run = e.add(Expr::Apply(assigned, turns));
    held(e, run)
}

/// The function of a loop, put into its cell.
fn assigned(e: &mut Exprs, load: u16) -> u16 {
    let (one, also_one) = (e.number(1), e.number(1));
    let step = e.add(Expr::Test(load, one, also_one, 0));
    let counter = e.variable(COUNTER);
    let less = e.add(Expr::Difference(counter, step));
    let held = e.variable(HOLDER);
    let itself = e.add(Expr::Read(held));
    let again = e.add(Expr::Apply(itself, less));
    let (tested, base) = (e.variable(COUNTER), e.number(3));
    let body = e.add(Expr::Test(tested, again, base, 0));
    let function = e.add(Expr::Function(COUNTER, 0, body));
    let held = e.variable(HOLDER);
    e.add(Expr::Assign(held, function))
}

/// A run with the cell of its loop, in which there is a function that does nothing.
fn held(e: &mut Exprs, run: u16) -> u16 {
    let outer = e.add(Expr::Function(HOLDER, 2, run));
    let nothing = e.number(0);
    let first = e.add(Expr::Function(OTHER, 0, nothing));
    let cell = e.add(Expr::NewCell(1, first));
    e.add(Expr::Apply(outer, cell))
}

/// A loop that works out a number of differences in each turn.
pub fn heavy(differences: usize) -> Job {
    let mut e = Exprs(Vec::new());
    let load = reckoning(&mut e, differences);
    looped(&mut e, load, 5000);
    Job { types: loop_types(), exprs: e.0, ..Job::default() }
}

/// The same loop, run by so many threads at once.
pub fn heavy_threads(differences: usize, threads: usize) -> Job {
    let mut e = Exprs(Vec::new());
    let load = reckoning(&mut e, differences);
    let assigned = assigned(&mut e, load);
    let mut run = called(&mut e, 5000);
    for _ in 1..threads {
        let body = called(&mut e, 5000);
        let thread = e.add(Expr::Spawn(body));
        run = e.add(Expr::Sum(thread, run));
    }
    let pair = e.add(Expr::Pair(assigned, run));
    let last = e.add(Expr::Part(pair, 2));
    held(&mut e, last);
    Job { types: loop_types(), exprs: e.0, ..Job::default() }
}

/// A loop of about as many steps as the desk allows: in thread 0, by itself or beside a thread that
/// ends soon, in another thread, or in two or three.
fn busy(rng: &mut Rng) -> Job {
    let mut job = heavy(40);
    let last = job.last() as u16;
    match rng.below(6) {
        0 => {}
        1 => job.exprs.push(Expr::Spawn(last)),
        2 => job.exprs.extend([Expr::Number(1), Expr::Spawn(last + 1), Expr::Sum(last + 2, last)]),
        3 => job = heavy_threads(80, 2),
        _ => job = heavy_threads(40, 2 + rng.below(2)),
    }
    job
}

/// A number of differences.
fn reckoning(e: &mut Exprs, differences: usize) -> u16 {
    let mut load = e.number(7);
    for _ in 0..differences {
        let other = e.variable(COUNTER);
        load = e.add(Expr::Difference(load, other));
    }
    load
}

/// A call of a loop's function, some turns long.
fn called(e: &mut Exprs, turns: u32) -> u16 {
    let held = e.variable(HOLDER);
    let (itself, turns) = (e.add(Expr::Read(held)), e.number(turns));
    e.add(Expr::Apply(itself, turns))
}

/// A loop that leaves one kind of room nearly or just full, and then an act that needs room or a
/// key.
fn brink(rng: &mut Rng) -> Job {
    let mut names = Names::default();
    names.declare(1, true);
    names.declare(1, false);
    names.declare(2, false);
    let mut types = loop_types();
    types.push(Type { key: 2, shape: Shape::Limit(2) });
    let mut e = Exprs(Vec::new());
    let room = rng.pick(&[0, 1, 2, 2, 3, 4]);
    let (load, turns) = filling(rng, &mut e, room);
    let short = rng.pick(&[0, 0, 0, 1, 2]);
    let mut run = looped(&mut e, load, turns - short);
    if rng.chance(60) {
        let part = dividing(rng, &mut e);
        run = e.add(Expr::Sum(run, part));
    }
    if rng.chance(25) {
        let body = e.number(1);
        let thread = e.add(Expr::Spawn(body));
        run = e.add(Expr::Sum(run, thread));
    }
    let needed = if rng.chance(60) { room } else { rng.below(5) };
    let act = needing(rng, &mut e, needed);
    e.add(Expr::Sum(run, act));
    Job {
        names,
        types,
        hosts: vec![HostValue { ty: 3, number: 0 }],
        rights: rng.pick(&[0, 2, 2, 4]),
        exprs: e.0,
        ..Job::default()
    }
}

/// A load that uses up a kind of room, and the turns that fill it.
fn filling(rng: &mut Rng, e: &mut Exprs, room: usize) -> (u16, u32) {
    match room {
        0 => (e.number(0), 1020),
        1 => {
            let content = e.number(1);
            let cell = e.add(Expr::NewCell(0, content));
            (e.add(Expr::Read(cell)), 255)
        }
        2 => {
            let (a, b) = (e.number(1), e.number(0));
            let divide = rng.chance(50);
            let pair = e.add(if divide { Expr::Divide(a, b) } else { Expr::Pair(a, b) });
            (e.add(Expr::Part(pair, 2)), 512)
        }
        3 => {
            let body = e.number(1);
            let function = e.add(Expr::Function(4, 0, body));
            let argument = e.number(2);
            (e.add(Expr::Apply(function, argument)), 509)
        }
        _ => {
            let (top, body) = (e.add(Expr::Top), e.number(1));
            (e.add(Expr::NewKey(5, 3, top, body, 0)), 125)
        }
    }
}

/// An act that needs a kind of room.
fn needing(rng: &mut Rng, e: &mut Exprs, room: usize) -> u16 {
    match room {
        1 => {
            let content = e.number(1);
            let cell = e.add(Expr::NewCell(0, content));
            e.add(Expr::Read(cell))
        }
        2 if rng.chance(75) => dividing(rng, e),
        2 => {
            let (a, b) = (e.number(1), e.number(0));
            let pair = e.add(Expr::Pair(a, b));
            e.add(Expr::Part(pair, 1))
        }
        0 | 3 => {
            let body = e.number(1);
            let function = e.add(Expr::Function(6, 0, body));
            let top = e.add(Expr::Top);
            let keyed = e.add(Expr::Associate(function, top));
            let argument = e.number(2);
            e.add(Expr::Apply(keyed, argument))
        }
        _ => {
            let (key, body) = (e.variable(0), e.number(1));
            e.add(Expr::NewKey(7, 4, key, body, 0))
        }
    }
}

/// A part of a division, of which one operand may have a key and one be of another kind.
fn dividing(rng: &mut Rng, e: &mut Exprs) -> u16 {
    let mut operands = [9, 4].map(|number| e.number(number));
    if rng.chance(25) {
        let place = rng.below(2);
        operands[place] = e.add(Expr::NewCell(0, operands[place]));
    }
    if rng.chance(50) {
        let (place, top) = (rng.below(2), e.add(Expr::Top));
        operands[place] = e.add(Expr::Associate(operands[place], top));
    }
    let pair = e.add(Expr::Divide(operands[0], operands[1]));
    e.add(Expr::Part(pair, 1 + rng.below(2) as u8))
}

/// A function type's effect and rights, drawn from few names.
fn sets(rng: &mut Rng) -> Vec<u8> {
    let mut bytes = vec![0x01, 1, 0x01, 2, 0x01, 2, 0x02, 2, 0x10, 0, 0x13, 0, 0, 0, 0, 0];
    let mut set = |bits: u32| (0..bits).fold(0u8, |set, bit| set | (rng.chance(20) as u8) << bit);
    let (effect, mut rights) = (set(7), set(7));
    if rng.chance(40) {
        rights = 1 << rng.below(7);
    }
    bytes.extend([effect, 0, 0, 0, 0, 0, 0, 0]);
    bytes.extend([0x21, rights, 0, 0, 0, 0, 0, 0, 0]);
    bytes.extend(&END[9..]);
    bytes
}

/// Host values of good and bad types.
fn host_values(rng: &mut Rng) -> Vec<u8> {
    // Names 2 and 3: host and local.
    let mut bytes = vec![0x01, 1, 0x02, 1];
    let mut name = |least: usize| (least + rng.below(4 - least)) as u8;
    bytes.extend([0x10, name(0) & 2, 0x12, name(0), 0, 0]);
    let least = name(0).min(1) as usize;
    bytes.extend([0x14, name(0), name(least), 0x15, name(0), name(1)]);
    bytes.extend([0x11, 0, 0, 0, 0, 0]);
    for _ in 0..1 + rng.below(2) {
        let ty = if rng.chance(90) { 1 + rng.below(3) } else { rng.below(6) } as u8;
        let number = if rng.chance(70) { 0 } else { 4 };
        bytes.extend([0x20, ty, 0, number, 0, 0, 0]);
    }
    bytes.extend(END);
    bytes
}

/// Each section as full as may be, or nearly.
fn full(rng: &mut Rng) -> Vec<u8> {
    let mut names = Names::default();
    for _ in 0..62 {
        let upper = names.count() as u8 - 1;
        let upper = if rng.chance(50) { upper } else { 1 };
        names.declare(upper, true);
    }
    let mut types = vec![number(0)];
    while types.len() < TYPES {
        let key = rng.below(64) as u8;
        let shape = match rng.below(3) {
            0 => Shape::Cell(0),
            1 => Shape::Limit(key.max(1)),
            _ => Shape::Grant(key.max(1)),
        };
        types.push(Type { key, shape });
    }
    let hosts: Vec<HostValue> = (0..VARIABLES)
        .map(|_| HostValue { ty: 1 + rng.below(TYPES - 1) as u16, number: 0 })
        .collect();
    let exprs = full_of_uses(rng, &types, &hosts);
    let rights = if rng.chance(60) { 2 } else { 4 };
    bytes_of(&Job { names, types, hosts, rights, exprs, ..Job::default() })
}

/// Every section full of the longest commands that can stand there together.
pub fn largest() -> Job {
    let mut names = Names::default();
    while !names.is_full() {
        names.declare(names.count() as u8 - 1, true);
    }
    let mut types = vec![number(0), Type::unkeyed(Shape::Cell(0))];
    for ty in 0..TYPES as u64 - 2 {
        let key = (ty % 64) as u8;
        types.push(Type { key, shape: Shape::Function(0, 1, 1 << (1 + ty % 63)) });
    }
    let hosts = vec![HostValue { ty: 1, number: 7 }; VARIABLES];
    let mut exprs = vec![Expr::Number(9)];
    for body in 0..EXPRESSIONS as u16 - 1 {
        exprs.push(Expr::Limit(0, [UNUSED; 4], body));
    }
    Job { names, types, hosts, rights: 2, exprs, ..Job::default() }
}

/// As many expressions as there may be, or nearly, that use host values.
fn full_of_uses(rng: &mut Rng, types: &[Type], hosts: &[HostValue]) -> Vec<Expr> {
    let mut e = Exprs(Vec::new());
    let mut body = e.number(1);
    while e.0.len() < EXPRESSIONS - 6 {
        let v = rng.below(VARIABLES);
        let one = e.variable(v as u8);
        body = match types[hosts[v].ty as usize].shape {
            Shape::Cell(_) => {
                let read = e.add(Expr::Read(one));
                e.add(Expr::Sum(read, body))
            }
            Shape::Limit(_) => {
                let top = e.add(Expr::Top);
                e.add(Expr::Limit(2, [one, top, UNUSED, UNUSED], body))
            }
            _ => e.add(Expr::Grant(one, body)),
        };
    }
    e.0
}

/// A job of most commands.
const MOST: [&[u8]; 34] = [
    &[0x01, 1],
    &[0x02, 2],
    &[0x10, 0],
    &[0x12, 2, 0, 0],
    &[0x14, 0, 2],
    &[0x15, 0, 2],
    &[0x11, 0, 0, 0, 0, 0],
    &[0x13, 0, 0, 0, 0, 0, 4, 0, 0, 0, 0, 0, 0, 0],
    &[0x20, 1, 0, 7, 0, 0, 0],
    &[0x20, 2, 0, 0, 0, 0, 0],
    &[0x20, 3, 0, 0, 0, 0, 0],
    &[0x21, 4, 0, 0, 0, 0, 0, 0, 0],
    &[0x32, 1],
    &[0x30, 5, 0, 0, 0],
    &[0x3E, 10, 3, 0, 0, 1, 0, 0, 0],
    &[0x32, 1],
    &[0x31],
    &[0x3C, 2, 3, 0, 4, 0, 0xFF, 0xFF, 0xFF, 0xFF, 2, 0],
    &[0x30, 6, 0, 0, 0],
    &[0x3A, 0, 5, 0, 6, 0],
    &[0x31],
    &[0x33, 7, 0, 8, 0],
    &[0x34, 9, 0, 1],
    &[0x35, 11, 0, 0, 10, 0],
    &[0x32, 1],
    &[0x30, 7, 0, 0, 0],
    &[0x35, 12, 0, 0, 13, 0],
    &[0x40, 12, 0, 11, 0, 14, 0, 5, 0],
    &[0x30, 8, 0, 0, 0],
    &[0x36, 15, 0, 16, 0],
    &[0x30, 9, 0, 0, 0],
    &[0x42, 18, 0],
    &[0x41, 17, 0, 19, 0],
    &[0xFF],
];

/// Bytes of it on the edge of a condition: command, byte, value.
#[rustfmt::skip]
const EDGES: [(usize, usize, u8); 124] = [
    (0, 1, 0), (0, 1, 2), (1, 1, 0), (1, 1, 3), (1, 0, 1), (2, 1, 4), (2, 1, 3), (3, 1, 0),
    (3, 1, 3), (3, 2, 1), (4, 2, 0), (4, 2, 3), (4, 2, 4), (5, 2, 0), (5, 2, 1), (6, 2, 4),
    (6, 3, 1), (7, 4, 5), (7, 6, 1), (7, 6, 2), (7, 6, 6), (7, 6, 12), (7, 6, 8), (7, 6, 16),
    (7, 13, 128), (8, 1, 0), (8, 1, 4), (8, 1, 6), (9, 3, 1), (10, 6, 1), (11, 1, 0),
    (11, 1, 1), (11, 1, 2), (11, 1, 5), (11, 1, 6), (11, 1, 8), (11, 1, 16), (12, 1, 0),
    (12, 1, 2), (12, 1, 10), (12, 1, 63), (12, 1, 64), (14, 1, 2), (14, 1, 3), (14, 1, 11),
    (14, 1, 63), (14, 1, 64), (14, 2, 2), (14, 2, 1), (14, 2, 4), (14, 3, 2), (14, 7, 6),
    (17, 1, 0), (17, 1, 1), (17, 1, 3), (17, 1, 4), (17, 1, 5), (17, 2, 5), (17, 6, 0),
    (17, 7, 0), (17, 9, 0xFE), (19, 1, 1), (19, 1, 2), (19, 2, 7), (22, 3, 0), (22, 3, 2),
    (22, 3, 3), (23, 1, 2), (23, 1, 10), (23, 1, 64), (23, 2, 1), (33, 0, 0xFE),
    (27, 0, 0x3B), (27, 0, 0x41), (27, 0, 0x43), (27, 1, 15), (27, 2, 1), (27, 1, 13),
    (27, 1, 14), (27, 3, 15), (27, 4, 1), (27, 3, 12), (27, 3, 10), (27, 5, 15), (27, 5, 16),
    (27, 6, 1), (27, 5, 11), (27, 7, 6), (27, 7, 0), (27, 7, 2), (27, 7, 4), (27, 8, 1),
    (24, 1, 2), (24, 1, 0), (26, 2, 4), (26, 1, 11), (29, 1, 16), (29, 3, 15),
    (27, 3, 14), (27, 0, 0x43), (32, 0, 0x41), (32, 0, 0x43), (32, 0, 0x33), (32, 0, 0x40),
    (32, 1, 18), (32, 1, 20), (32, 2, 1), (32, 3, 17), (32, 3, 20), (32, 3, 21), (32, 4, 1),
    (30, 0, 0x31), (27, 7, 6), (27, 8, 1), (31, 0, 0x39), (31, 0, 0x42), (31, 0, 0x43),
    (31, 0, 0x44), (31, 0, 0x41), (31, 1, 17), (31, 1, 19), (31, 1, 20), (31, 2, 1), (32, 0, 0x42),
];

/// A job of most commands with one byte on the edge of a condition, or a command more.
fn edited(rng: &mut Rng) -> Vec<u8> {
    let mut commands: Vec<Vec<u8>> = MOST.map(<[u8]>::to_vec).into();
    match rng.below(10) {
        0 => {
            let (at, again) = (rng.below(MOST.len()), rng.below(MOST.len()));
            let again = commands[again].clone();
            commands.insert(at, again);
        }
        1 => {
            // A second 21 at once.
            let again = commands[11].clone();
            commands.insert(11, again);
        }
        _ => {
            let (command, byte, value) = rng.pick(&EDGES);
            commands[command][byte] = value;
        }
    }
    commands.concat()
}

/// A job cut off within or after a command that may stand out of its section.
fn misplaced(rng: &mut Rng) -> Vec<u8> {
    let commands: [&[u8]; 9] = [
        &[0x01, 1],
        &[0x10, 0],
        &[0x20, 1, 0, 7, 0, 0, 0],
        &END[..9],
        &END[9..14],
        &END[14..],
        &[0x40, 0, 0, 1, 0, 2, 0, 0, 0],
        &[0x41, 0, 0, 1, 0],
        &[0x42, 0, 0],
    ];
    let mut bytes = vec![0x01, 1, 0x10, 0, 0x12, 2, 0, 0];
    for command in &commands[2..2 + rng.below(4)] {
        bytes.extend(*command);
    }
    let command = rng.pick(&commands);
    bytes.extend(&command[..1 + rng.below(command.len())]);
    if rng.chance(30) {
        bytes.extend(END);
    }
    bytes
}

/// Local names and variables in and out of their scopes.
fn scopes(rng: &mut Rng) -> Job {
    let mut names = Names::default();
    names.declare(1, false);
    let upper = 1 + rng.below(2) as u8;
    names.declare(upper, false);
    let types = vec![
        number(0),
        number(2),
        Type::unkeyed(Shape::Limit(2)),
        Type::unkeyed(Shape::Cell(1)),
        Type::unkeyed(Shape::Function(0, 0, 4)),
        Type::unkeyed(Shape::Function(0, 0, 2)),
        number(3),
    ];
    let mut e = Exprs(Vec::new());
    let mut next = 2;
    let twice = rng.chance(40);
    let mut sum = None;
    for turn in 0..1 + twice as u8 {
        let made = scoped_key(rng, &mut e, &mut next, turn);
        sum = Some(match sum {
            Some(sum) => e.add(Expr::Sum(sum, made)),
            None => made,
        });
    }
    Job { names, types, rights: 2, exprs: e.0, ..Job::default() }
}

/// A new key, with functions and looks beside its operands whose types may name it.
fn scoped_key(rng: &mut Rng, e: &mut Exprs, next: &mut u8, turn: u8) -> u16 {
    let top = e.add(Expr::Top);
    let key = beside(rng, e, next, top, 60);
    let one = e.number(1);
    let body = beside(rng, e, next, one, 30);
    let own = if rng.chance(60) { 0 } else { rng.below(7) as u16 };
    let name = if rng.chance(80) { 2 + turn } else { 2 };
    let made = e.add(Expr::NewKey(turn, name, key, body, own));
    if rng.chance(40) { beside(rng, e, next, made, 50) } else { made }
}

/// An expression, with a function or a look beside it that is dropped. `next` is the last variable
/// bound; the type is that of numbers `plain` times in a hundred.
fn beside(rng: &mut Rng, e: &mut Exprs, next: &mut u8, inner: u16, plain: usize) -> u16 {
    let ty = if rng.chance(plain) { 0 } else { rng.below(7) as u16 };
    let body = match rng.below(4) {
        0 => e.variable(rng.below(3) as u8),
        _ => e.number(1),
    };
    if rng.chance(85) {
        *next += 1;
    }
    let function = match rng.below(4) {
        0 => {
            let (top, other) = (e.add(Expr::Top), e.number(2));
            e.add(Expr::Look(top, body, other, ty))
        }
        _ => e.add(Expr::Function(*next, ty, body)),
    };
    let pair = e.add(Expr::Pair(function, inner));
    e.add(Expr::Part(pair, 2))
}
