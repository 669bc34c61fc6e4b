//! Refusals in words, 2 to 14 and 16: the command or expression, what was wanted, what was found.

use second::Refusal;
use second::names::bits;

use super::View;
use crate::commands::{Effect, Operand, Section};
use crate::conditions::reasons;
use crate::decode::{Command, command_at};
use crate::scope::{Hidden, hidden};
use crate::subtype::{Apart, Gap, Relation};
use crate::typing::{Fault, Typing};
use crate::words::{count, kind_words, type_words};

impl View<'_> {
    /// Refusals 2 to 7: the command at the place, as far as it can be shown.
    pub(super) fn reading(&mut self, bytes: &[u8], refusal: Refusal) {
        let place = refusal.place as usize;
        let rest = bytes.get(place..).unwrap_or_default();
        let command = command_at(bytes, place);
        let length = match &command {
            Some(command) if refusal.number != 7 => 1 + command.row.width(),
            _ => 16,
        };
        let digits: Vec<String> = rest.iter().take(length).map(|b| format!("{b:02X}")).collect();
        let more = if rest.len() > length && command.is_none() { " .." } else { "" };
        let before = count(self.listing.commands.len(), "command");
        self.line(format!("offset {place}, after {before}:"));
        match rest.is_empty() {
            true => self.line("    the end of the input"),
            false => self.line(format!("    {}{more}", digits.join(" "))),
        }
        if let Some(command) = &command
            && refusal.number != 7
        {
            self.unread(command);
        }
        for reason in reasons(bytes, self.listing, self.symbols) {
            self.line(format!("found: {reason}"));
        }
    }

    /// A command that does not read, in text.
    fn unread(&mut self, command: &Command) {
        let row = command.row;
        let mut words = vec![row.word.to_string()];
        for place in row.written() {
            let value = command.args[place].one();
            words.push(match row.operands[place] {
                Operand::Key if value == 0 => continue,
                Operand::Key => format!("@{}", self.symbols.name(value)),
                Operand::Upper => format!(".. under {}", self.symbols.name(value)),
                Operand::Type if row.section == Section::Types => self.symbols.ty(value),
                Operand::Type => format!(":{}", self.symbols.ty(value)),
                Operand::Set => self.symbols.set(value),
                Operand::Number => value.to_string(),
                Operand::Bound | Operand::Variable => self.symbols.variable(value),
                operand @ (Operand::Expr(_) | Operand::Keys) => {
                    let exprs = command.args[place].exprs(operand);
                    let exprs: Vec<String> = exprs.iter().map(|&e| self.symbols.expr(e)).collect();
                    let bare = operand != Operand::Keys;
                    if bare { exprs.join(" ") } else { format!("[{}]", exprs.join(" ")) }
                }
                _ => self.symbols.name(value),
            });
        }
        let nested = [Section::Types, Section::Expressions].contains(&row.section);
        let text = words.join(" ");
        self.line(if nested { format!("    ({text})") } else { format!("    {text}") });
    }

    /// Refusals 8 to 10.
    pub(super) fn in_tree(&mut self, refusal: Refusal) {
        let number = refusal.place as usize;
        self.expr(number);
        match refusal.number {
            8 => self.uses(number),
            9 => self.bound_before(number),
            _ => self.out_of_scope(number),
        }
    }

    fn uses(&mut self, number: usize) {
        self.line("wanted: one use (the last expression: none)");
        let users: Vec<usize> = self.exprs.iter().enumerate().fold(vec![], |mut all, (user, e)| {
            all.extend(e.exprs().iter().filter(|&&expr| expr as usize == number).map(|_| user));
            all
        });
        self.line(format!("found:  {}", count(users.len(), "use")));
        for user in users {
            self.line(format!("    in {}", self.short(user)));
        }
    }

    fn bound_before(&mut self, number: usize) {
        let (v, name) = (self.exprs[number].bound(), self.exprs[number].local());
        self.line("wanted: a variable and a name that no expression before binds");
        for before in 0..number {
            let expr = &self.exprs[before];
            let again = [
                expr.bound().filter(|&w| Some(w) == v).map(|w| self.symbols.variable(w as u64)),
                expr.local().filter(|&r| Some(r) == name).map(|r| self.symbols.name(r as u64)),
            ];
            for symbol in again.into_iter().flatten() {
                self.line(format!("found:  {symbol}, bound by {}", self.short(before)));
            }
        }
    }

    fn out_of_scope(&mut self, number: usize) {
        match hidden(&self.listing.job, &self.exprs, number) {
            Hidden::Variable(v) => {
                let symbol = self.symbols.variable(v as u64);
                self.line(format!("wanted: a host value, or a place inside what binds {symbol}"));
                let binder = self.exprs.iter().position(|expr| expr.bound() == Some(v));
                let found = match binder {
                    Some(binder) => format!(
                        "{symbol} is bound by {}, and this is not in its body",
                        self.short(binder)
                    ),
                    None => format!("nothing binds {symbol}"),
                };
                self.line(format!("found:  {found}"));
            }
            Hidden::Names(set) => {
                self.line("wanted: a type of host names, and of local names bound around it");
                let found = self.symbols.list(set);
                self.line(format!("found:  its type names {found}, which is local and not bound"));
                let name = bits(set).next();
                let binder = self.exprs.iter().position(|expr| expr.local() == name);
                if let Some(binder) = binder {
                    self.line(format!("    it is bound in the body of {}", self.short(binder)));
                }
            }
        }
    }

    /// Refusals 11 to 14, and 16.
    pub(super) fn fault(&mut self, typing: &Typing, number: usize, fault: &Fault) {
        self.expr(number);
        match fault {
            Fault::Kind(role, operand, kind) => {
                self.found(typing, role, *operand, &kind_words(*kind));
            }
            Fault::LimitOf(operand, upper) => {
                let upper = self.symbols.name(*upper as u64);
                let wanted = format!("(limit-key {upper}), of the new name's upper name");
                self.found(typing, "limit key above", *operand, &wanted);
            }
            Fault::Subtype(role, operand, wanted, gap) => {
                let wanted = type_words(&typing.table, self.symbols, *wanted);
                self.found(typing, role, *operand, &format!("a subtype of {wanted}"));
                self.line(self.gap(gap));
            }
            Fault::Within(body, allowed) => {
                let effect = typing.typed[*body as usize].effect;
                self.line(format!("wanted: an effect below {}", self.symbols.set(*allowed)));
                self.beyond(typing, *body as usize, effect, *allowed);
            }
            Fault::Rights => {
                let rights = self.listing.job.rights;
                let set = self.symbols.set(rights);
                self.line(format!("wanted: an effect below the rights, {set}"));
                self.beyond(typing, number, typing.typed[number].effect, rights);
            }
            Fault::Thread(body) => {
                self.line("wanted: an effect below {}, since a new thread has no key enabled");
                self.beyond(typing, *body as usize, typing.effect_of(*body), 0);
            }
        }
    }

    /// An operand, what was wanted of it, and the type that it has.
    fn found(&mut self, typing: &Typing, role: &str, operand: u16, wanted: &str) {
        let entry = typing.typed[operand as usize].entry;
        let found = type_words(&typing.table, self.symbols, entry);
        let words = self.short(operand as usize);
        self.line(format!("{role}: {words}"));
        self.line(format!("wanted: {wanted}"));
        self.line(format!("found:  {found}"));
    }

    /// The names of an effect that are not below a set, and where each comes from.
    fn beyond(&mut self, typing: &Typing, root: usize, effect: u64, allowed: u64) {
        self.line(format!("found:  {}", self.symbols.set(effect)));
        let names = &self.listing.job.names;
        for name in bits(effect).filter(|&name| !names.set_below(1 << name, allowed)) {
            let source = self.source(typing, root, name);
            let line = self.symbols.line(names, name);
            self.line(format!("not below: {line}"));
            self.line(format!("    touched in {}", self.short(source)));
        }
    }

    /// The innermost expression that brings a name into an effect.
    fn source(&self, typing: &Typing, root: usize, name: u8) -> usize {
        let expr = &self.exprs[root];
        let from = |inner: u16| self.brings(typing, expr, inner, name).map(|name| (inner, name));
        let inner = expr.exprs().into_iter().find_map(from);
        // The body of a function that is written where it is applied.
        let applied = || match expr.row.rule.effect {
            Effect::Calls(function) => {
                let function = &self.exprs[expr.args[function].one() as usize];
                let body = function.exprs().last().copied()?;
                let written = matches!(function.row.rule.effect, Effect::Later);
                (written && has(typing, body, name)).then_some((body, name))
            }
            _ => None,
        };
        match inner.or_else(applied) {
            Some((inner, name)) => self.source(typing, inner as usize, name),
            None => root,
        }
    }

    /// The name in an operand's effect by which the operand brings a name into an effect.
    fn brings(&self, typing: &Typing, expr: &Command, inner: u16, name: u8) -> Option<u8> {
        let names = &self.listing.job.names;
        let is = |place: usize| expr.args[place].one() as u16 == inner;
        let from = match expr.row.rule.effect {
            Effect::Later => return None,
            Effect::Drop(key, body) if is(body) => {
                let key = typing.stands_for(expr.args[key].one() as u16);
                (!names.set_below(1 << name, key)).then_some(name)?
            }
            Effect::Raise(local, body) if is(body) && !has(typing, inner, name) => {
                let local = expr.args[local].one() as u8;
                (names.upper(local) == name).then_some(local)?
            }
            _ => name,
        };
        has(typing, inner, from).then_some(from)
    }

    /// Where two types differ, and how.
    fn gap(&self, gap: &Gap) -> String {
        let steps: Vec<String> = gap.path.iter().rev().map(|step| format!("the {step}")).collect();
        let at = match steps.is_empty() {
            true => String::new(),
            false => format!(" in {}", steps.join(" of ")),
        };
        format!("differ{at}: {}", self.apart(gap.relation, gap.apart))
    }

    fn apart(&self, relation: Relation, apart: Apart) -> String {
        let name = |name: u8| self.symbols.name(name as u64);
        let how = match relation {
            Relation::Below => "must be below",
            Relation::Above => "must be above",
            Relation::Equal => "must equal",
        };
        match apart {
            Apart::Keys(a, b) => format!("key {} {how} key {}", name(a), name(b)),
            Apart::Kinds(a, b) => format!("{} is not {}", kind_words(a), kind_words(b)),
            Apart::Names(a, b) => format!("a key of {} is no key of {}", name(a), name(b)),
            Apart::Effects(a, b) => {
                let beyond = |set: u64, other: u64| {
                    let outside = |&n: &u8| !self.listing.job.names.set_below(1 << n, other);
                    bits(set).filter(outside).fold(0, |found, n| found | 1 << n)
                };
                let fault = match relation {
                    Relation::Below => beyond(a, b),
                    Relation::Above => beyond(b, a),
                    Relation::Equal => a ^ b,
                };
                let (a, b) = (self.symbols.set(a), self.symbols.set(b));
                format!("effect {a} {how} effect {b}; at fault: {}", self.symbols.list(fault))
            }
        }
    }
}

/// Whether an expression's effect has a name.
fn has(typing: &Typing, expr: u16, name: u8) -> bool {
    typing.effect_of(expr) >> name & 1 == 1
}
