//! Why a command does not read: refusals 2 to 7 in words.

use second::job::{DEPTH, EXPRESSIONS, TYPES, UNUSED, VARIABLES};
use second::names::{NAMES, Names, bits};
use second::{Job, Shape, Type};

use crate::commands::{Operand, Row, Section, by_byte};
use crate::decode::{Arg, Command, Listing, arguments};
use crate::symbols::Symbols;
use crate::words::count;

/// Why reading stops where it does.
pub fn reasons(bytes: &[u8], listing: &Listing, symbols: &Symbols) -> Vec<String> {
    let Some(refusal) = listing.refusal else {
        return vec![];
    };
    let byte = bytes.get(refusal.place as usize).copied();
    let row = byte.and_then(|byte| by_byte(byte).next());
    let one = |words: String| vec![words];
    match (refusal.number, row) {
        (2, _) => one(format!("byte {:02X} is no command", byte.unwrap_or_default())),
        (3, Some(row)) => one(out_of_section(row, listing)),
        (4, Some(row)) => {
            let (due, there) = (row.width(), bytes.len() - refusal.place as usize - 1);
            one(format!("the input ends inside `{}`: {due} bytes are due, {there} there", row.word))
        }
        (4, None) => one("the input ends where a command is due".to_string()),
        (5, Some(row)) => one(one_too_many(row)),
        (6, Some(row)) => {
            let operands = &bytes[refusal.place as usize + 1..];
            match arguments(row, operands) {
                Some(args) => broken(listing, symbols, row, &args),
                None => vec![],
            }
        }
        _ => {
            let more = count(bytes.len() - refusal.place as usize, "byte");
            one(format!("{more} after the end of the job"))
        }
    }
}

/// How a section is called.
fn section_words(section: Section) -> &'static str {
    match section {
        Section::Names => "names",
        Section::Types => "types",
        Section::Values => "host values",
        Section::Rights => "rights",
        Section::Expressions => "expressions",
        Section::End => "end",
    }
}

fn out_of_section(row: &Row, listing: &Listing) -> String {
    let last = listing.commands.last().map(|command| command.row.section);
    let own = section_words(row.section);
    match (row.section, last) {
        (Section::Rights, Some(Section::Rights | Section::Expressions)) => {
            "a second `rights`".to_string()
        }
        (Section::Expressions, _) => "an expression before `rights`".to_string(),
        (Section::End, Some(Section::Rights)) => "`end` without an expression".to_string(),
        (Section::End, _) => "`end` before `rights`".to_string(),
        (_, Some(last)) => {
            format!(
                "`{}` is of the {own}, which stand before the {}",
                row.word,
                section_words(last)
            )
        }
        _ => format!("`{}` is out of its section, the {own}", row.word),
    }
}

fn one_too_many(row: &Row) -> String {
    let most = match row.section {
        Section::Names => NAMES - 2,
        Section::Types => TYPES,
        Section::Values => VARIABLES,
        _ => EXPRESSIONS,
    };
    format!("a job has at most {most} {}", section_words(row.section))
}

/// The conditions that a command's operands break (refusal 6).
pub fn broken(listing: &Listing, symbols: &Symbols, row: &Row, args: &[Arg]) -> Vec<String> {
    let test = Test { job: &listing.job, listing, symbols, row };
    let each = row.operands.iter().zip(args);
    let mut reasons: Vec<String> =
        each.filter_map(|(&operand, arg)| test.operand(operand, arg)).collect();
    if reasons.is_empty() {
        reasons.extend(test.whole(args));
    }
    reasons
}

/// The conditions that a command of a job breaks.
pub fn broken_by(listing: &Listing, symbols: &Symbols, command: &Command) -> Vec<String> {
    broken(listing, symbols, command.row, &command.args)
}

struct Test<'a> {
    job: &'a Job,
    listing: &'a Listing,
    symbols: &'a Symbols,
    row: &'a Row,
}

impl Test<'_> {
    fn names(&self) -> &Names {
        &self.job.names
    }

    fn count(&self, section: Section) -> u64 {
        self.listing.section(section).count() as u64
    }

    /// What is wrong with one operand.
    fn operand(&self, operand: Operand, arg: &Arg) -> Option<String> {
        let value = arg.one();
        match operand {
            Operand::Fixed(_) => self.fixed(operand, value),
            Operand::Upper | Operand::Name => self.name(value, false),
            Operand::Key => self.name(value, true),
            Operand::Local => self.name(value, false).or_else(|| {
                let local = self.names().local() >> value & 1 == 1;
                let name = self.symbols.name(value);
                (!local).then(|| format!("{name} is no local name, so no key can be made for it"))
            }),
            Operand::Type => self.earlier("type", value, self.count(Section::Types)),
            Operand::Expr(_) => self.earlier("expression", value, self.count(Section::Expressions)),
            Operand::Set => self.set(value),
            Operand::Variable if value >= VARIABLES as u64 => {
                Some(format!("variable {value}: variables are numbered from 0 to 63"))
            }
            Operand::Bound => self.bound(value),
            Operand::Keys => self.keys(arg),
            Operand::Variable | Operand::Number => None,
        }
    }

    fn name(&self, name: u64, none: bool) -> Option<String> {
        match name {
            0 if !none => Some("name 0 (none) cannot stand here".to_string()),
            _ if name >= self.names().count() as u64 => {
                Some(format!("name {name} is not declared"))
            }
            _ => None,
        }
    }

    fn earlier(&self, what: &str, number: u64, count: u64) -> Option<String> {
        (number >= count).then(|| match count {
            0 => format!("{what} {number} is not an earlier one; there is none before"),
            _ => format!("{what} {number} is not an earlier one; the last before is {}", count - 1),
        })
    }

    fn bound(&self, v: u64) -> Option<String> {
        match v {
            _ if v >= VARIABLES as u64 => {
                Some(format!("variable {v}: variables are numbered from 0 to 63"))
            }
            _ if v < self.count(Section::Values) => {
                Some(format!("{} is a host value and cannot be bound", self.symbols.variable(v)))
            }
            _ => None,
        }
    }

    /// A byte that tells commands apart, and is none of those.
    fn fixed(&self, operand: Operand, value: u64) -> Option<String> {
        let place = self.row.place(|other| other == operand)?;
        let rows = || by_byte(self.row.byte);
        let known = |row: &Row| row.operands[place] == Operand::Fixed(value as u8);
        if rows().any(known) {
            return None;
        }
        let allowed = rows().filter_map(|row| match row.operands[place] {
            Operand::Fixed(byte) => Some(format!("{byte} ({})", row.word)),
            _ => None,
        });
        let allowed: Vec<String> = allowed.collect();
        Some(format!("{value} is none of {}", allowed.join(", ")))
    }

    fn set(&self, set: u64) -> Option<String> {
        let names = self.names();
        let declared = if names.count() == NAMES { u64::MAX } else { (1 << names.count()) - 1 };
        if set & 1 != 0 {
            return Some("name 0 (none) stands in a set".to_string());
        }
        if set & !declared != 0 {
            let numbers: Vec<String> = bits(set & !declared).map(|n| n.to_string()).collect();
            return Some(format!("not declared in a set: name {}", numbers.join(", ")));
        }
        let below = set & !names.reduce(set);
        if below != 0 {
            let under = |name: u8| {
                let above = bits(set).find(|&other| other != name && names.below(name, other));
                let above = self.symbols.name(above.unwrap_or(1) as u64);
                format!("{} lies below {above}", self.symbols.name(name as u64))
            };
            let list: Vec<String> = bits(below).map(under).collect();
            return Some(format!("a set is not reduced: {}; leave it out", list.join(", ")));
        }
        let local = set & names.local();
        let open = self.row.section != Section::Rights || local == 0;
        (!open).then(|| format!("local in the rights: {}", self.symbols.list(local)))
    }

    fn keys(&self, arg: &Arg) -> Option<String> {
        let Arg::Keys(count, keys) = arg else {
            return None;
        };
        if *count > 4 {
            return Some(format!("{count} keys; a limit has at most 4"));
        }
        let (used, unused) = keys.split_at(*count as usize);
        let count = self.count(Section::Expressions);
        let late = used.iter().find_map(|&key| self.earlier("expression", key as u64, count));
        late.or_else(|| {
            let wrong = unused.iter().find(|&&key| key != UNUSED)?;
            Some(format!("a key operand that is not used is {wrong:04X}; it must be FFFF"))
        })
    }

    /// What is wrong with operands that are right one by one.
    fn whole(&self, args: &[Arg]) -> Option<String> {
        match self.row.section {
            Section::Names if self.row.word == "host" => {
                let upper = args[0].one();
                let open = upper == 1 || self.names().host() >> upper & 1 == 1;
                let name = self.symbols.name(upper);
                (!open).then(|| format!("a host name lies under {name}, which is a local name"))
            }
            Section::Types => self.depth(args),
            Section::Values => self.value(args[0].one(), args[1].one()),
            _ => None,
        }
    }

    fn depth(&self, args: &[Arg]) -> Option<String> {
        let types = self.row.operands.iter().zip(args);
        let parts = types.filter(|(operand, _)| **operand == Operand::Type);
        let deepest = parts.map(|(_, arg)| self.job.depths[arg.one() as usize]).max()?;
        (deepest >= DEPTH).then(|| format!("the type is {} deep; 16 is the most", deepest + 1))
    }

    fn value(&self, ty: u64, number: u64) -> Option<String> {
        let Type { shape, .. } = self.job.types[ty as usize];
        let local = self.job.type_names[ty as usize] & self.names().local();
        match shape {
            Shape::Cell(content)
                if self.job.types[content as usize] != Type::unkeyed(Shape::Number) =>
            {
                Some("a host value's cell holds unkeyed numbers, and this one does not".to_string())
            }
            Shape::Limit(_) | Shape::Grant(_) if number != 0 => {
                Some(format!("a key has no number, and {number} is given"))
            }
            Shape::Cell(_) | Shape::Limit(_) | Shape::Grant(_) => (local != 0).then(|| {
                format!("a host value's type names the local {}", self.symbols.list(local))
            }),
            _ => Some("a host value is a cell, a limit key or a grant key".to_string()),
        }
    }
}
