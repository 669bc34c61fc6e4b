//! The machine's code: the expressions without their types, with every variable found beforehand.

use crate::job::{EXPRESSIONS, Expr, Job, VARIABLES};

/// An expression as the machine runs it. Operands stand as in [`Expr`].
#[derive(Clone, Copy, Debug, PartialEq, Eq)]
pub enum Code {
    /// A number.
    Number(u32),
    /// The limit key of the top.
    Top,
    /// A host value, by its binding.
    Host(u16),
    /// A variable, by the number of bindings between.
    Local(u16),
    /// A new pair.
    Pair(u16, u16),
    /// A part of a pair.
    Part(u16, u8),
    /// A new function, by its body.
    Function(u16),
    /// A call of a function.
    Apply(u16, u16),
    /// A new cell.
    NewCell(u16),
    /// A cell gets a value.
    Assign(u16, u16),
    /// What a cell holds.
    Read(u16),
    /// The sum of two numbers.
    Sum(u16, u16),
    /// Their difference.
    Difference(u16, u16),
    /// Tested number, branch if not zero, branch if zero.
    Test(u16, u16, u16),
    /// Number of keys, at least one; the keys; body.
    Limit(u8, [u16; 4], u16),
    /// A limit without keys.
    Shut(u16),
    /// Grant key, body.
    Grant(u16, u16),
    /// Limit key above, body.
    NewKey(u16, u16),
    /// A value gets a key.
    Associate(u16, u16),
    /// Limit key, branch if its key is enabled, branch if not.
    Look(u16, u16, u16),
    /// Quotient and rest of two numbers.
    Divide(u16, u16),
    /// A new thread, by its body.
    Spawn(u16),
}

/// The code of a job: each variable becomes the binding of a host value or the number of bindings
/// between it and its binder, which is the same in every run.
pub fn resolve(job: &Job, first_host: u16) -> Vec<Code> {
    let mut depths = [0u16; EXPRESSIONS];
    let mut bound_at = [0u16; VARIABLES];
    let mut code = vec![Code::Top; job.exprs.len()];
    for (number, expr) in job.exprs.iter().enumerate().rev() {
        let depth = depths[number];
        expr.each_operand(|&operand| depths[operand as usize] = depth);
        if let Some(binder) = expr.binder() {
            bound_at[binder.variable as usize] = depth + 1;
            depths[binder.body as usize] = depth + 1;
        }
        code[number] = match *expr {
            Expr::Variable(v) => match bound_at[v as usize] {
                0 => Code::Host(first_host + v as u16),
                at => Code::Local(depth.saturating_sub(at)),
            },
            _ => untyped(expr),
        };
    }
    code
}

/// The code of an expression that is no variable.
#[inline(always)]
fn untyped(expr: &Expr) -> Code {
    match *expr {
        Expr::Number(number) => Code::Number(number),
        Expr::Top | Expr::Variable(_) => Code::Top,
        Expr::Pair(a, b) => Code::Pair(a, b),
        Expr::Part(a, part) => Code::Part(a, part),
        Expr::Function(_, _, body) => Code::Function(body),
        Expr::Apply(a, b) => Code::Apply(a, b),
        Expr::NewCell(_, a) => Code::NewCell(a),
        Expr::Assign(a, b) => Code::Assign(a, b),
        Expr::Read(a) => Code::Read(a),
        Expr::Sum(a, b) => Code::Sum(a, b),
        Expr::Difference(a, b) => Code::Difference(a, b),
        Expr::Test(a, b, c, _) => Code::Test(a, b, c),
        Expr::Limit(0, _, body) => Code::Shut(body),
        Expr::Limit(count, keys, body) => Code::Limit(count, keys, body),
        Expr::Grant(key, body) => Code::Grant(key, body),
        Expr::NewKey(_, _, key, body, _) => Code::NewKey(key, body),
        Expr::Associate(a, b) => Code::Associate(a, b),
        Expr::Look(a, b, c, _) => Code::Look(a, b, c),
        Expr::Divide(a, b) => Code::Divide(a, b),
        Expr::Spawn(body) => Code::Spawn(body),
    }
}
