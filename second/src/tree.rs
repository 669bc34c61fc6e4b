//! The tree of expressions: refusals 8 to 10.

use crate::job::*;

/// Whether each expression is used once, each binder binds something new, and each variable and
/// name is in scope.
pub fn tree(job: &Job) -> Result<(), Refusal> {
    uses(job)?;
    binders(job)?;
    scopes(job)
}

/// Refusal 8: every expression but the last is an operand once.
fn uses(job: &Job) -> Result<(), Refusal> {
    let mut uses = [0u16; EXPRESSIONS];
    for expr in &job.exprs {
        expr.each_operand(|&operand| uses[operand as usize] += 1);
    }
    // No reference is to the last one, so it is never used.
    let uses = &uses[..job.last()];
    if uses.iter().fold(true, |once, &count| once & (count == 1)) {
        return Ok(());
    }
    let wrong = uses.iter().position(|&count| count != 1);
    wrong.map_or(Ok(()), |wrong| Err(Refusal::at(8, wrong)))
}

/// Refusal 9: no variable and no name is bound twice.
fn binders(job: &Job) -> Result<(), Refusal> {
    let (mut variables, mut names) = (0u64, 0u64);
    for (number, expr) in job.exprs.iter().enumerate() {
        let Some(binder) = expr.binder() else {
            continue;
        };
        let name = binder.name.map_or(0, |name| 1 << name);
        let variable = 1 << binder.variable;
        if variables & variable != 0 || names & name != 0 {
            return Err(Refusal::at(9, number));
        }
        variables |= variable;
        names |= name;
    }
    Ok(())
}

/// The variables and the names that an expression can use.
#[derive(Clone, Copy)]
struct Scope {
    variables: u64,
    names: u64,
}

/// Refusal 10: every variable, and every name in a type operand, is in scope.
///
/// Users have higher numbers than what they use, so one pass downwards hands every scope on.
fn scopes(job: &Job) -> Result<(), Refusal> {
    let outer = Scope {
        variables: (1u64.checked_shl(job.hosts.len() as u32).unwrap_or(0)).wrapping_sub(1),
        names: job.names.host() | 0b11,
    };
    // Every other expression gets its scope from the one that uses it.
    let mut scopes = [Scope { variables: 0, names: 0 }; EXPRESSIONS];
    scopes[job.last()] = outer;
    let mut lowest = None;
    for (number, expr) in job.exprs.iter().enumerate().rev() {
        let own = scopes[number];
        expr.each_operand(|&operand| scopes[operand as usize] = own);
        if let Some(binder) = expr.binder() {
            let mut inner = own;
            inner.variables |= 1 << binder.variable;
            inner.names |= binder.name.map_or(0, |name| 1 << name);
            scopes[binder.body as usize] = inner;
        }
        if hidden(job, expr, own) {
            lowest = Some(number);
        }
    }
    lowest.map_or(Ok(()), |number| Err(Refusal::at(10, number)))
}

/// Whether an expression is a variable that is out of scope, or its type operand has a name that is.
#[inline(always)]
fn hidden(job: &Job, expr: &Expr, scope: Scope) -> bool {
    match *expr {
        Expr::Variable(v) => scope.variables >> v & 1 == 0,
        _ => expr.type_operand().is_some_and(|ty| job.type_names[ty as usize] & !scope.names != 0),
    }
}
