//! What is out of scope at an expression (refusal 10).

use second::Job;

use crate::commands::Operand;
use crate::decode::Command;

/// What is out of scope.
#[derive(Clone, Copy, Debug, PartialEq, Eq)]
pub enum Hidden {
    Variable(u8),
    /// Names of the type operand.
    Names(u64),
}

/// What is out of scope at an expression of a job that is free of refusals 8 and 9.
pub fn hidden(job: &Job, exprs: &[Command], number: usize) -> Hidden {
    let expr = &exprs[number];
    if let Some(v) = expr.first(|operand| operand == Operand::Variable) {
        return Hidden::Variable(v as u8);
    }
    let mut known = job.names.host() | 0b11;
    let mut inner = number;
    while let Some(user) = user_of(exprs, inner) {
        let body = exprs[user].exprs().last().copied();
        if body == Some(inner as u16)
            && let Some(name) = exprs[user].local()
        {
            known |= 1 << name;
        }
        inner = user;
    }
    let ty = expr.first(|operand| operand == Operand::Type).unwrap_or(0) as usize;
    Hidden::Names(job.type_names.get(ty).map_or(0, |names| names & !known))
}

/// The expression that uses another.
fn user_of(exprs: &[Command], number: usize) -> Option<usize> {
    exprs.iter().position(|expr| expr.exprs().contains(&(number as u16)))
}
