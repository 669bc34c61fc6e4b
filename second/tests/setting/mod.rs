//! Jobs of threads: their tables around some expressions, and expressions of many frames.

use second::job::HostValue;
use second::names::Names;
use second::{Expr, Job, Machine, Shape, Type, bytes_of};

/// Host names 2 under 1, and 3 under 2; local name 4 under 2. Types: 0 number, 1 cell of key 3, 2
/// cell without a key, 3 limit key of 2, 4 grant key of 3, 5 function from numbers to numbers, 6 cell
/// of it, 7 number of key 3. Variables 0 to 3 are of the types 1 to 4; the cells hold 7 and 8.
pub fn job(rights: u64, exprs: &[Expr]) -> Vec<u8> {
    let mut names = Names::default();
    names.declare(1, true);
    names.declare(2, true);
    names.declare(2, false);
    let number = Type::unkeyed(Shape::Number);
    let types = vec![
        number,
        Type { key: 3, shape: Shape::Cell(0) },
        Type::unkeyed(Shape::Cell(0)),
        Type::unkeyed(Shape::Limit(2)),
        Type::unkeyed(Shape::Grant(3)),
        Type::unkeyed(Shape::Function(0, 0, 0)),
        Type::unkeyed(Shape::Cell(5)),
        Type { key: 3, shape: Shape::Number },
    ];
    let host = |(ty, number)| HostValue { ty, number };
    let hosts = [(1, 7), (2, 8), (3, 0), (4, 0)].map(host).to_vec();
    bytes_of(&Job { names, types, hosts, rights, exprs: exprs.to_vec(), ..Job::default() })
}

pub fn machine(exprs: &[Expr]) -> Machine {
    Machine::start(&job(0, exprs)).expect("a job that starts")
}

/// So many reads of new cells, one in another, around an expression.
pub fn tower(exprs: &mut Vec<Expr>, count: usize) {
    for place in 0..count {
        let last = exprs.len() as u16 - 1;
        exprs.push(if place % 2 == 0 { Expr::NewCell(0, last) } else { Expr::Read(last) });
    }
}
