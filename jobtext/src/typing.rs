//! Types and effects by the rules of the rows, with the reason of a refusal (11 to 14 and 16).

use second::job::VARIABLES;
use second::names::Names;
use second::{Job, Kind, Shape, Type, Typed};

use crate::commands::{Effect, Gives, Operand, Target, Want};
use crate::decode::Command;
use crate::subtype::{Compare, Gap};

/// Why an expression is refused. Operands are numbers of expressions.
#[derive(Clone, Debug)]
pub enum Fault {
    /// 11: the operand's role, the operand, the kind that is wanted.
    Kind(&'static str, u16, Kind),
    /// 11 at 3E: the operand, the name that its limit key must be of.
    LimitOf(u16, u8),
    /// 12: the operand's role, the operand, the entry that it must be below, where they part.
    Subtype(&'static str, u16, u16, Gap),
    /// 13: the body, the names of the keys.
    Within(u16, u64),
    /// 14
    Rights,
    /// 16: the body.
    Thread(u16),
}

impl Fault {
    pub fn number(&self) -> u32 {
        match self {
            Fault::Kind(..) | Fault::LimitOf(..) => 11,
            Fault::Subtype(..) => 12,
            Fault::Within(..) => 13,
            Fault::Rights => 14,
            Fault::Thread(..) => 16,
        }
    }
}

/// What was worked out, up to the first fault.
pub struct Typing {
    pub table: Vec<Type>,
    pub typed: Vec<Typed>,
    /// The expression at fault, and why.
    pub fault: Option<(usize, Fault)>,
}

impl Typing {
    /// The type of an expression.
    pub fn of(&self, expr: u16) -> Type {
        self.table[self.typed[expr as usize].entry as usize]
    }

    pub fn effect_of(&self, expr: u16) -> u64 {
        self.typed[expr as usize].effect
    }

    /// The name that a limit or grant key stands for, as a set.
    pub fn stands_for(&self, key: u16) -> u64 {
        match self.of(key).shape {
            Shape::Limit(name) | Shape::Grant(name) => 1 << name,
            _ => 0,
        }
    }
}

/// Works out the types and effects of a job that is free of refusals 2 to 10.
pub fn work_out(job: &Job, exprs: &[Command]) -> Typing {
    let mut worker = Worker::new(job, exprs);
    for (number, expr) in exprs.iter().enumerate() {
        match worker.expr(expr) {
            Ok(typed) => worker.typing.typed.push(typed),
            Err(fault) => return worker.done(Some((number, fault))),
        }
    }
    let effect = worker.typing.typed.last().map_or(0, |typed| typed.effect);
    match job.names.set_below(effect, job.rights) {
        true => worker.done(None),
        false => worker.done(Some((exprs.len() - 1, Fault::Rights))),
    }
}

struct Worker<'a> {
    names: &'a Names,
    typing: Typing,
    variables: [u16; VARIABLES],
    compare: Compare<'a>,
}

impl<'a> Worker<'a> {
    /// The table with the declared types, and the limit key, grant key and pair of each new key.
    fn new(job: &'a Job, exprs: &[Command]) -> Self {
        let mut table = job.types.clone();
        let mut variables = [0; VARIABLES];
        for (place, host) in variables.iter_mut().zip(&job.hosts) {
            *place = host.ty;
        }
        for expr in exprs {
            let Some(v) = expr.bound() else {
                continue;
            };
            variables[v as usize] = match expr.local() {
                None => expr.first(|operand| operand == Operand::Type).unwrap_or(0) as u16,
                Some(name) => {
                    let limit = table.len() as u16;
                    let shapes =
                        [Shape::Limit(name), Shape::Grant(name), Shape::Pair(limit, limit + 1)];
                    table.extend(shapes.map(Type::unkeyed));
                    limit + 2
                }
            };
        }
        let names = &job.names;
        let typing = Typing { table, typed: vec![], fault: None };
        Worker { names, typing, variables, compare: Compare::new(names) }
    }

    fn done(self, fault: Option<(usize, Fault)>) -> Typing {
        Typing { fault, ..self.typing }
    }

    fn expr(&mut self, expr: &Command) -> Result<Typed, Fault> {
        let touched = self.touched(expr)?;
        for &(place, target) in expr.row.rule.need {
            self.needed(expr, place, target)?;
        }
        let effect = self.names.reduce(touched | self.effect(expr)?);
        Ok(Typed { entry: self.entry(expr), effect })
    }

    /// The names of the touched keys, or 11.
    fn touched(&self, expr: &Command) -> Result<u64, Fault> {
        let mut touched = 0;
        for &(place, want) in expr.row.rule.touch {
            for operand in expr.args[place].exprs(expr.row.operands[place]) {
                let ty = self.typing.of(operand);
                let role = role(expr, place);
                match want {
                    Want::Kind(kind) if ty.kind() != kind => {
                        return Err(Fault::Kind(role, operand, kind));
                    }
                    Want::LimitOfUpper(name) => {
                        let upper = self.names.upper(expr.args[name].one() as u8);
                        if ty.shape != Shape::Limit(upper) {
                            return Err(Fault::LimitOf(operand, upper));
                        }
                    }
                    _ => {}
                }
                touched |= 1 << ty.key;
            }
        }
        Ok(touched)
    }

    /// Nothing, or 12.
    fn needed(&mut self, expr: &Command, place: usize, target: Target) -> Result<(), Fault> {
        let operand = expr.args[place].one() as u16;
        let wanted = match target {
            Target::Declared(ty) => expr.args[ty].one() as u16,
            Target::Content(cell) | Target::Argument(cell) => {
                match self.typing.of(expr.args[cell].one() as u16).shape {
                    Shape::Cell(content) => content,
                    Shape::Function(argument, ..) => argument,
                    _ => 0,
                }
            }
        };
        let entry = self.typing.typed[operand as usize].entry;
        match self.compare.below(&self.typing.table, entry, wanted) {
            None => Ok(()),
            Some(gap) => Err(Fault::Subtype(role(expr, place), operand, wanted, gap)),
        }
    }

    /// The effect beside what is touched, or 13 or 16.
    fn effect(&self, expr: &Command) -> Result<u64, Fault> {
        let at = |place: usize| expr.args[place].one() as u16;
        let all = expr.exprs();
        let but = |body: u16| all.iter().filter(move |&&expr| expr != body);
        let join = |exprs: &mut dyn Iterator<Item = &u16>| {
            exprs.fold(0, |effect, &expr| effect | self.typing.effect_of(expr))
        };
        Ok(match expr.row.rule.effect {
            Effect::Join => join(&mut all.iter()),
            Effect::Later => 0,
            Effect::Calls(function) => match self.typing.of(at(function)).shape {
                Shape::Function(_, _, latent) => latent | join(&mut all.iter()),
                _ => join(&mut all.iter()),
            },
            Effect::Within(keys, body) => {
                let keys = expr.args[keys].exprs(expr.row.operands[keys]);
                let allowed = keys.iter().fold(0, |set, &key| set | self.typing.stands_for(key));
                if !self.names.set_below(self.typing.effect_of(at(body)), allowed) {
                    return Err(Fault::Within(at(body), allowed));
                }
                join(&mut all.iter())
            }
            Effect::Drop(key, body) => {
                let name = self.typing.stands_for(at(key)).trailing_zeros() as u8;
                let kept = self.names.without(self.typing.effect_of(at(body)), name);
                kept | join(&mut but(at(body)))
            }
            Effect::Raise(name, body) => {
                let raised = self.names.raise(self.typing.effect_of(at(body)), at(name) as u8);
                raised | join(&mut but(at(body)))
            }
            Effect::Thread(body) => match self.typing.effect_of(at(body)) {
                0 => 0,
                _ => return Err(Fault::Thread(at(body))),
            },
        })
    }

    /// The number of a new entry.
    fn make(&mut self, ty: Type) -> u16 {
        self.typing.table.push(ty);
        self.typing.table.len() as u16 - 1
    }

    /// The entry of the expression's type; a new one where it makes a type, after those of its parts.
    fn entry(&mut self, expr: &Command) -> u16 {
        let at = |place: usize| expr.args[place].one() as u16;
        let typed = |place: usize| self.typing.typed[at(place) as usize];
        let made = match expr.row.rule.gives {
            Gives::Number => Type::unkeyed(Shape::Number),
            Gives::TopKey => Type::unkeyed(Shape::Limit(1)),
            Gives::Pair(a, b) => Type::unkeyed(Shape::Pair(typed(a).entry, typed(b).entry)),
            Gives::Cell(ty) => Type::unkeyed(Shape::Cell(at(ty))),
            Gives::Function(from, body) => {
                let Typed { entry, effect } = typed(body);
                Type::unkeyed(Shape::Function(at(from), entry, effect))
            }
            Gives::Rekeyed(value, key) => {
                let key = self.typing.stands_for(at(key)).trailing_zeros() as u8;
                Type { key, shape: self.typing.of(at(value)).shape }
            }
            Gives::TwoNumbers => {
                let number = self.make(Type::unkeyed(Shape::Number));
                Type::unkeyed(Shape::Pair(number, number))
            }
            Gives::Variable(v) => return self.variables[at(v) as usize],
            Gives::Declared(ty) => return at(ty),
            Gives::Same(body) => return typed(body).entry,
            Gives::Part(of, _) | Gives::Result(of) | Gives::Content(of) => {
                return match (self.typing.of(at(of)).shape, expr.row.rule.gives) {
                    (Shape::Pair(first, _), Gives::Part(_, 1)) => first,
                    (Shape::Pair(_, part) | Shape::Function(_, part, _) | Shape::Cell(part), _) => {
                        part
                    }
                    _ => 0,
                };
            }
        };
        self.make(made)
    }
}

/// What an operand is to its command.
fn role(expr: &Command, place: usize) -> &'static str {
    match expr.row.operands[place] {
        Operand::Expr(role) => role,
        _ => "limit key",
    }
}
