//! Which host cells a job can reach: by its effect, by a key that it asks for and is lent, by grant
//! keys that are lent, or because they carry no key; and what grant keys open to a thread.

use second::job::HostValue;
use second::names::bits;
use second::{Job, Shape};

use crate::commands::Effect;
use crate::decode::Command;
use crate::symbols::Symbols;
use crate::typing::Typing;
use crate::words::type_words;

/// Why a cell is open, the strongest reason first.
#[derive(Clone, Copy, Debug, PartialEq, Eq)]
pub enum Open {
    Unkeyed,
    ByEffect,
    /// A command asks for a key, and the rights lend it.
    ByAsking,
    ByGrant,
    Closed,
}

/// A key that a command asks for.
#[derive(Clone, Copy, Debug, PartialEq, Eq)]
struct Ask {
    word: &'static str,
    key: u8,
    /// What is used where it is enabled, beside the effect: of the top and the host names.
    uses: u64,
    /// Whether a thread asks, for which the rights enable nothing.
    by_thread: bool,
}

/// What an accepted job can reach.
pub struct Reach<'a> {
    job: &'a Job,
    effect: u64,
    asks: Vec<Ask>,
}

impl<'a> Reach<'a> {
    pub fn new(job: &'a Job, exprs: &[Command], typing: &Typing) -> Self {
        let effect = typing.typed.last().map_or(0, |typed| typed.effect);
        let mut reach = Reach { job, effect, asks: vec![] };
        for (expr, by_thread) in exprs.iter().zip(in_threads(exprs)) {
            if let Effect::Drop(key, body) = expr.row.rule.effect {
                let at = |place: usize| expr.args[place].one() as u16;
                // A grant key needs no right.
                if let Shape::Limit(key) = typing.of(at(key)).shape {
                    let uses = reach.beside(key, typing.effect_of(at(body)));
                    reach.ask(Ask { word: expr.row.word, key, uses, by_thread });
                }
            }
        }
        reach
    }

    /// What a branch of an effect, which is taken where a key is enabled, uses beside the effect.
    fn beside(&self, key: u8, branch: u64) -> u64 {
        let names = &self.job.names;
        let beside =
            |&name: &u8| names.below(name, key) && !names.set_below(1 << name, self.effect);
        bits(branch & !names.local()).filter(beside).fold(0, |set, name| set | 1 << name)
    }

    /// Notes that a key is asked for.
    fn ask(&mut self, ask: Ask) {
        let same = |other: &&mut Ask| Ask { uses: ask.uses, ..**other } == ask;
        match self.asks.iter_mut().find(same) {
            Some(other) => other.uses = self.job.names.reduce(other.uses | ask.uses),
            None => self.asks.push(ask),
        }
    }

    /// Whether the rights enable a key where it is asked for.
    fn lent(&self, ask: &Ask) -> bool {
        !ask.by_thread && self.job.names.set_below(1 << ask.key, self.job.rights)
    }

    /// The names of the grant keys lent. What is below these a thread can open too, which has no key
    /// by right.
    pub fn granted_names(&self) -> u64 {
        let grants = |host: &HostValue| match self.job.types[host.ty as usize].shape {
            Shape::Grant(name) => 1 << name,
            _ => 0,
        };
        self.job.names.reduce(self.job.hosts.iter().fold(0, |set, host| set | grants(host)))
    }

    fn granted(&self, key: u8) -> bool {
        self.job.names.set_below(1 << key, self.granted_names())
    }

    /// Whether a host cell of a key is open, and why.
    pub fn open(&self, key: u8) -> Open {
        let below = |set: u64| self.job.names.set_below(1 << key, set);
        match key {
            0 => Open::Unkeyed,
            _ if below(self.effect) => Open::ByEffect,
            _ if self.asks.iter().any(|ask| self.lent(ask) && below(ask.uses)) => Open::ByAsking,
            _ if self.granted(key) => Open::ByGrant,
            _ => Open::Closed,
        }
    }

    /// The keys that the job asks for, whether they are enabled, and what that opens; a line each.
    pub fn asked(&self, symbols: &Symbols) -> String {
        let line = |ask: &Ask| {
            let (place, closed, would) = match ask.by_thread {
                false => ("", "which the rights do not enable", ask.uses),
                // No rights would open anything to it.
                true => (" in a thread", "where the rights enable nothing", 0),
            };
            let (enabled, may, uses) = match (self.lent(ask), self.granted(ask.key)) {
                (true, _) => ("which the rights enable", "may", ask.uses),
                (_, true) => ("which a grant key lent may enable", "may", ask.uses),
                _ => (closed, "would", would),
            };
            let uses = match uses {
                0 => String::new(),
                uses => format!(": it {may} use {} beside the effect", symbols.list(uses)),
            };
            let key = symbols.name(ask.key as u64);
            format!("    `{}` asks for {key}{place}, {enabled}{uses}\n", ask.word)
        };
        self.asks.iter().map(line).collect()
    }

    /// The host cells by why they are open, a line each.
    pub fn cells(&self, symbols: &Symbols) -> String {
        let groups = [
            (Open::ByEffect, "cells that the effect opens:"),
            (
                Open::ByAsking,
                "cells that the rights open by way of `if-enabled`, beside the effect:",
            ),
            (Open::ByGrant, "cells that a grant key lent to the job opens, beside the effect:"),
            (Open::Unkeyed, "cells without a key, open to every job:"),
            (Open::Closed, "cells closed to the job:"),
        ];
        let mut out = String::new();
        for (why, title) in groups {
            let lines = self.group(symbols, why);
            match (lines.is_empty(), why) {
                (true, Open::ByEffect) => out.push_str(&format!("{title} none\n")),
                (true, _) => {}
                (false, _) => out.push_str(&format!("{title}\n{lines}")),
            }
        }
        out
    }

    /// The host cells that are open for one reason.
    fn group(&self, symbols: &Symbols, why: Open) -> String {
        let types = &self.job.types;
        let of = |ty: u16| types[ty as usize];
        let is_one = |host: &HostValue| {
            matches!(of(host.ty).shape, Shape::Cell(_)) && self.open(of(host.ty).key) == why
        };
        let line = |(v, host): (usize, &HostValue)| {
            let words = type_words(types, symbols, host.ty);
            format!("    {} : {words}\n", symbols.variable(v as u64))
        };
        let hosts = self.job.hosts.iter().enumerate();
        hosts.filter(|(_, host)| is_one(host)).map(line).collect()
    }
}

/// Of each expression, whether it runs in a thread alone. What stands in a function may run wherever
/// that is applied, unless it is applied where it is written.
fn in_threads(exprs: &[Command]) -> Vec<bool> {
    let (mut inside, mut applied) = (vec![false; exprs.len()], vec![false; exprs.len()]);
    for (number, expr) in exprs.iter().enumerate().rev() {
        let runs_inside = match expr.row.rule.effect {
            Effect::Thread(_) => true,
            Effect::Later => inside[number] && applied[number],
            _ => inside[number],
        };
        for operand in expr.exprs() {
            inside[operand as usize] = runs_inside;
        }
        if let Effect::Calls(function) = expr.row.rule.effect {
            applied[expr.args[function].one() as usize] = true;
        }
    }
    inside
}
