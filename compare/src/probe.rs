//! Jobs that use what another job's run ends with.
//!
//! A run's answers and rooms do not show the value at its end. A job that goes on to use the value
//! does: it is stuck on another kind, denied on another key, and takes other steps with another
//! number.

use second::generate::Rng;
use second::job::{EXPRESSIONS, Expr, Job, Shape, TYPES, Type, UNUSED, VARIABLES};
use second::{Kind, Value, bytes_of};

/// The most expressions that a use of a value takes.
const USE: usize = 16;

/// The job followed by a use of its value, where there is room for that.
pub fn probe(job: &Job, value: Value, rng: &mut Rng) -> Option<Vec<u8>> {
    if job.exprs.len() + USE > EXPRESSIONS || job.types.len() == TYPES {
        return None;
    }
    let variable = free_variable(job)?;
    let mut job = job.clone();
    let number = job.types.len() as u16;
    job.types.push(Type::unkeyed(Shape::Number));
    let last = job.last() as u16;
    let exprs = &mut job.exprs;
    let mut add = |expr| {
        exprs.push(expr);
        exprs.len() as u16 - 1
    };
    match value.kind() {
        Kind::Number => compare_number(&mut add, last, value.data(), (variable, number)),
        Kind::Pair => add(Expr::Part(last, 1 + rng.below(2) as u8)),
        Kind::Cell => add(Expr::Read(last)),
        Kind::Function => {
            let argument = add(Expr::Number(3));
            add(Expr::Apply(last, argument))
        }
        Kind::Limit => {
            let body = add(Expr::Number(4));
            add(Expr::Limit(1, [last, UNUSED, UNUSED, UNUSED], body))
        }
        Kind::Grant => {
            let body = add(Expr::Number(5));
            add(Expr::Grant(last, body))
        }
    };
    Some(bytes_of(&job))
}

/// A variable that nothing binds.
fn free_variable(job: &Job) -> Option<u8> {
    let binds = |v| job.exprs.iter().any(|expr| expr.binder().is_some_and(|b| b.variable == v));
    (job.hosts.len() as u8..VARIABLES as u8).find(|&v| !binds(v))
}

/// Takes more steps if the value is not this number: then its difference from the number is not 0,
/// or the number's from it. The value is bound to a variable; `number` is the type of numbers.
fn compare_number(
    add: &mut impl FnMut(Expr) -> u16,
    value: u16,
    expected: u32,
    (variable, number): (u8, u16),
) -> u16 {
    let zero = add(Expr::Number(0));
    let unkeyed = add(Expr::Sum(value, zero));
    let (found, same) = (add(Expr::Variable(variable)), add(Expr::Number(expected)));
    let above = add(Expr::Difference(found, same));
    let (same, found) = (add(Expr::Number(expected)), add(Expr::Variable(variable)));
    let below = add(Expr::Difference(same, found));
    let apart = add(Expr::Sum(above, below));
    let content = add(Expr::Number(0));
    let cell = add(Expr::NewCell(number, content));
    let other = add(Expr::Read(cell));
    let equal = add(Expr::Number(1));
    let test = add(Expr::Test(apart, other, equal, number));
    let function = add(Expr::Function(variable, number, test));
    add(Expr::Apply(function, unkeyed))
}
