//! The jobs that are measured. Each is accepted.

use second::bytes_of;
use second::generate::{example, heavy, heavy_threads, ladder, largest};
use second::job::{Expr, HostValue, Job, Shape, Type, UNUSED};
use second::names::Names;

/// The most threads there can be.
const THREADS: usize = 8;

/// The job of a name.
pub fn job(name: &str) -> Option<Vec<u8>> {
    Some(match name {
        "small" => example(4),
        "medium" => bytes_of(&medium()),
        "largest" => bytes_of(&largest()),
        "ladder" => bytes_of(&ladder(16, 120, 1)),
        "loop" => bytes_of(&heavy(40)),
        "threads" => bytes_of(&heavy_threads(40, THREADS)),
        _ => return None,
    })
}

/// So many host names, each below the last.
fn chain(count: usize) -> Names {
    let mut names = Names::default();
    for _ in 0..count {
        names.declare(names.count() as u8 - 1, true);
    }
    names
}

/// The turns of the medium job.
const TURNS: u8 = 28;

/// About 3 KB of expressions of all kinds: turns of reads, sums, pairs, functions, tests, limits
/// and new cells around keyed host cells.
fn medium() -> Job {
    let names = chain(8);
    // Number; cells and limit keys of each name; for each turn a function with an effect.
    let mut types = vec![Type::unkeyed(Shape::Number)];
    for name in 2..10 {
        types.push(Type { key: name, shape: Shape::Cell(0) });
        types.push(Type::unkeyed(Shape::Limit(name)));
    }
    let functions = types.len() as u16;
    for turn in 0..TURNS {
        types.push(Type::unkeyed(Shape::Function(0, 0, 1 << (2 + turn % 8 / 2))));
    }
    let hosts = (1..17).map(|ty| HostValue { ty, number: 0 }).collect();
    let mut exprs = vec![Expr::Number(1)];
    let mut sum = 0;
    for number in 0..TURNS {
        sum = turn(&mut exprs, number, functions + number as u16, sum);
    }
    Job { names, types, hosts, rights: 1 << 2, exprs, ..Job::default() }
}

/// One turn of the medium job, after a sum of the last one; gives the new sum. The type is that of
/// the function that it puts into a cell.
fn turn(exprs: &mut Vec<Expr>, turn: u8, function: u16, sum: u16) -> u16 {
    let mut add = |expr| {
        exprs.push(expr);
        exprs.len() as u16 - 1
    };
    let name = turn % 8;
    // A limit around the read of a keyed cell.
    let key = add(Expr::Variable(2 * name + 1));
    let cell = add(Expr::Variable(2 * name));
    let read = add(Expr::Read(cell));
    let limited = add(Expr::Limit(1, [key, UNUSED, UNUSED, UNUSED], read));
    // A cell that holds a function with less effect than its type allows, read and called.
    let variable = 16 + turn;
    let own = add(Expr::Variable(variable));
    let host = add(Expr::Variable(2 * name));
    let assigned = add(Expr::Assign(host, own));
    let made = add(Expr::Function(variable, 0, assigned));
    let held = add(Expr::NewCell(function, made));
    let found = add(Expr::Read(held));
    let called = add(Expr::Apply(found, limited));
    // A pair and its part, and a test.
    let pair = add(Expr::Pair(called, sum));
    let part = add(Expr::Part(pair, 2));
    let (yes, no) = (add(Expr::Number(2)), add(Expr::Number(3)));
    let tested = add(Expr::Test(part, yes, no, 0));
    let one = add(Expr::Number(1));
    add(Expr::Difference(tested, one))
}
