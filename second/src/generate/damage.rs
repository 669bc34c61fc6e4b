//! Changes to jobs: in their tables, where most of the form is kept, and in their bytes.

use super::Rng;
use crate::job::*;
use crate::names::Names;
use crate::read::width;

/// Changes one thing in a job's tables.
pub fn tables(rng: &mut Rng, job: &mut Job) {
    let names = job.names.count();
    let name = rng.below(names) as u8;
    let expr = rng.below(job.exprs.len());
    match rng.below(15) {
        0 | 1 => swap_operands(rng, job),
        2 => {
            if let Some(ty) = some(rng, &mut job.types) {
                ty.key = name;
            }
        }
        3 => other_name(rng, job, name),
        4 => {
            let open = job.names.host() | 2;
            job.rights = job.names.reduce(rng.word() & rng.word() & open);
        }
        5 => job.rights = 0,
        6 => other_type(rng, job, expr),
        7 => {
            let (a, b) = (rng.below(64) as u8, rng.below(names.max(3)) as u8);
            let only_name = rng.chance(50);
            match &mut job.exprs[expr] {
                Expr::NewKey(_, name, ..) if only_name => *name = b,
                Expr::Variable(v) | Expr::Function(v, ..) | Expr::NewKey(v, ..) => *v = a,
                _ => {}
            }
        }
        8 => job.exprs[expr] = other_command(rng, job.exprs[expr]),
        9 => take_over_binder(rng, job),
        10 => job.names = other_upper(rng, &job.names),
        11 => other_variable(rng, job),
        12 => match &mut job.exprs[expr] {
            Expr::Part(_, part) => *part = 3 - *part,
            number @ Expr::Number(_) => *number = Expr::Top,
            _ => {}
        },
        13 => share_operand(rng, job, expr),
        _ => other_parts(rng, job),
    }
}

/// Another name in a key type or in a function's effect.
fn other_name(rng: &mut Rng, job: &mut Job, name: u8) {
    if let Some(ty) = some(rng, &mut job.types) {
        match &mut ty.shape {
            Shape::Limit(own) | Shape::Grant(own) => *own = name.max(1),
            Shape::Function(_, _, effect) => {
                *effect = job.names.reduce(*effect ^ 1 << name.max(1));
            }
            _ => ty.key = 0,
        }
    }
}

/// Another type operand.
fn other_type(rng: &mut Rng, job: &mut Job, expr: usize) {
    let ty = rng.below(job.types.len().max(1)) as u16;
    match &mut job.exprs[expr] {
        Expr::Function(_, own, _)
        | Expr::NewCell(own, _)
        | Expr::Test(_, _, _, own)
        | Expr::Look(_, _, _, own)
        | Expr::NewKey(_, _, _, _, own) => *own = ty,
        _ => {}
    }
}

/// One binder takes over what another binds.
fn take_over_binder(rng: &mut Rng, job: &mut Job) {
    let binders: Vec<usize> =
        (0..job.exprs.len()).filter(|&e| job.exprs[e].binder().is_some()).collect();
    if binders.is_empty() {
        return;
    }
    let (from, to) = (rng.pick(&binders), rng.pick(&binders));
    let Some(binder) = job.exprs[from].binder() else {
        return;
    };
    match &mut job.exprs[to] {
        Expr::NewKey(_, name, ..) if binder.name.is_some() && rng.chance(60) => {
            *name = binder.name.unwrap_or(*name);
        }
        Expr::Function(v, ..) | Expr::NewKey(v, ..) => *v = binder.variable,
        _ => {}
    }
}

/// A variable for another one, often of another kind.
fn other_variable(rng: &mut Rng, job: &mut Job) {
    let v = variables(job);
    if !v.is_empty() {
        let (a, b) = (rng.pick(&v), rng.pick(&v));
        job.exprs[a] = job.exprs[b];
    }
}

/// An operand that another expression may use too.
fn share_operand(rng: &mut Rng, job: &mut Job, expr: usize) {
    if let Some(operand) = some(rng, &mut references(&mut job.exprs[expr])) {
        **operand = rng.below(expr) as u16;
    }
}

/// The parts of a type in the other order, or another part.
fn other_parts(rng: &mut Rng, job: &mut Job) {
    let count = job.types.len();
    if let Some(ty) = some(rng, &mut job.types) {
        let other = rng.below(count) as u16;
        match &mut ty.shape {
            Shape::Pair(a, b) | Shape::Function(a, b, _) => std::mem::swap(a, b),
            Shape::Cell(a) if other < *a => *a = other,
            _ => {}
        }
    }
}

fn some<'a, T>(rng: &mut Rng, list: &'a mut [T]) -> Option<&'a mut T> {
    let count = list.len();
    (count > 0).then(|| &mut list[rng.below(count)])
}

/// The operands of an expression, to be changed.
fn references(expr: &mut Expr) -> Vec<&mut u16> {
    let mut references = Vec::new();
    expr.each_operand_mut(|operand| references.push(operand));
    references
}

fn variables(job: &Job) -> Vec<usize> {
    (0..job.exprs.len()).filter(|&expr| matches!(job.exprs[expr], Expr::Variable(_))).collect()
}

/// Exchanges two operands that may stand in each other's place.
fn swap_operands(rng: &mut Rng, job: &mut Job) {
    let mut uses = Vec::new();
    for (number, expr) in job.exprs.iter_mut().enumerate() {
        for (place, operand) in references(expr).into_iter().enumerate() {
            uses.push((number, place, *operand));
        }
    }
    for _ in 0..20 {
        if uses.len() < 2 {
            return;
        }
        let (a, b) = (rng.pick(&uses), rng.pick(&uses));
        if a.2 != b.2 && (a.2 as usize) < b.0 && (b.2 as usize) < a.0 {
            *references(&mut job.exprs[a.0])[a.1] = b.2;
            *references(&mut job.exprs[b.0])[b.1] = a.2;
            return;
        }
    }
}

fn other_command(rng: &mut Rng, mut expr: Expr) -> Expr {
    match expr {
        Expr::Part(a, _) => Expr::Read(a),
        Expr::Read(a) | Expr::Spawn(a) => match rng.below(4) {
            0 => Expr::Part(a, 1),
            1 => Expr::Read(a),
            2 => Expr::Spawn(a),
            _ => Expr::Limit(0, [UNUSED; 4], a),
        },
        Expr::Limit(count, mut keys, body) if count > 0 => {
            keys[..count as usize].rotate_left(1);
            Expr::Limit(count, keys, body)
        }
        Expr::Test(a, b, c, ty) | Expr::Look(a, b, c, ty) => match rng.below(3) {
            0 => Expr::Test(a, c, b, ty),
            1 => Expr::Look(a, c, b, ty),
            _ => Expr::Look(a, b, c, ty),
        },
        // The commands of two operands and no type can take each other's place.
        _ => match (expr.type_operand(), &references(&mut expr)[..]) {
            (None, &[&mut a, &mut b]) => match rng.below(8) {
                0 => Expr::Pair(a, b),
                1 => Expr::Apply(a, b),
                2 => Expr::Assign(b, a),
                3 => Expr::Sum(a, b),
                4 => Expr::Difference(b, a),
                5 => Expr::Limit(1, [a, UNUSED, UNUSED, UNUSED], b),
                6 => Expr::Divide(a, b),
                _ => Expr::Associate(a, b),
            },
            _ => expr,
        },
    }
}

fn other_upper(rng: &mut Rng, names: &Names) -> Names {
    let mut changed = Names::default();
    let which = rng.below(names.count());
    for name in 2..names.count() {
        let host = names.host() >> name & 1 == 1;
        let mut upper = names.upper(name as u8);
        if name == which {
            upper = 1 + rng.below(name - 1) as u8;
        }
        changed.declare(upper, host);
    }
    changed
}

/// Changes something in a job's bytes.
pub fn bytes(rng: &mut Rng, bytes: &mut Vec<u8>) {
    let mut commands = split(bytes);
    if commands.is_empty() {
        return bytes.push(rng.word() as u8);
    }
    let at = rng.below(commands.len());
    match rng.below(12) {
        0..4 => change_byte(rng, &mut commands[at]),
        4 => commands[at][0] = rng.word() as u8,
        5 => {
            let other = rng.below(commands.len());
            commands.swap(at, other);
        }
        6 => {
            let again = commands[at].clone();
            commands.insert(at, again);
        }
        7 => {
            commands.remove(at);
        }
        8 => {
            let length = commands[at].len();
            commands[at].truncate(rng.below(length));
            commands.truncate(at + 1);
        }
        9 => {
            for _ in 0..1 + rng.below(3) {
                commands.push(vec![rng.word() as u8]);
            }
        }
        10 => {
            // A section in another's place.
            let cut = rng.below(commands.len());
            commands[..].rotate_left(cut);
        }
        _ => repeat(&mut commands, at),
    }
    *bytes = commands.concat();
}

/// Changes one byte of a command, mostly of its operands.
fn change_byte(rng: &mut Rng, command: &mut [u8]) {
    let edges = [0, 1, 2, 3, 4, 5, 63, 64, 0xFE, 0xFF];
    let place = rng.below(command.len()).max(command.len().min(2) - 1);
    command[place] = match rng.below(4) {
        0 => rng.pick(&edges),
        1 => command[place].wrapping_add(1),
        2 => command[place] ^ 1 << rng.below(8),
        _ => rng.word() as u8,
    };
}

/// Repeats a command until its limit is passed.
fn repeat(commands: &mut Vec<Vec<u8>>, at: usize) {
    let limit = match commands[at][0] {
        0x01 | 0x02 => 63,
        0x10..=0x15 => 257,
        0x20 => 65,
        _ => 513,
    };
    let again = commands[at].clone();
    commands.splice(at..at, std::iter::repeat_n(again, limit));
}

/// The commands of a job; a rest that is none is one piece.
fn split(mut bytes: &[u8]) -> Vec<Vec<u8>> {
    let mut commands = Vec::new();
    while let Some(&first) = bytes.first() {
        let length = width(first).unwrap_or(bytes.len()).min(bytes.len());
        let (command, rest) = bytes.split_at(length);
        commands.push(command.to_vec());
        bytes = rest;
    }
    commands
}
