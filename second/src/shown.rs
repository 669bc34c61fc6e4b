//! What sheets show, in words, and what must be met of them.

use std::collections::BTreeSet;

use crate::check::check_job;
use crate::job::{Expr, HostValue, Job, Kind, Refusal, Shape, Type};
use crate::names::bits;
use crate::read::read;
use crate::sheet::{Row, rows};
use crate::tree::tree;
use crate::verdict::Accepted;

const SHEETS: [&str; 7] = [
    "sheet of no line",
    "sheet of no line, with a local name",
    "sheet of 1 line",
    "sheet of 62 lines",
    "sheet with a local name between host names",
    "sheet of a job that has a cell without a key",
    "sheet of a job that has a cell of name 1",
];
const NAMES: [&str; 2] = ["line of a name of one digit", "line of a name of two digits"];
const UPPERS: [&str; 3] = [
    "line under name 1",
    "line under a host name of one digit",
    "line under a host name of two digits",
];
const YES: [&str; 6] = [
    "yes, it is in the effect",
    "yes, its upper name is in the effect",
    "yes, a name further up is in the effect",
    "yes, name 1 is in the effect",
    "yes, a grant drops it and it is used besides",
    "yes, a look drops it and it is used besides",
];
const NO: [&str; 7] = [
    "no, the effect is empty",
    "no, a lower name is in the effect",
    "no, other names are in the effect",
    "no, it is below the rights",
    "no, a grant drops it",
    "no, a look drops it",
    "no, a function that is not called uses it",
];
const CELLS: [&str; 5] =
    ["line of no cell", "line of one cell", "line of 2 to 9", "line of 10 to 63", "line of 64"];
const BESIDE: [&str; 7] = [
    "line beside a cell of a lower name",
    "line beside a cell of a higher host name",
    "line beside a limit key of its name",
    "line beside a limit key that carries its name",
    "line beside a grant key of its name",
    "line beside a grant key that carries its name",
    "line beside a type of such cells that no host value has",
];

/// How many digits the place of a refusal has, from one on.
const PLACES: [&str; 5] = ["one digit", "two digits", "three digits", "four digits", "five digits"];

/// What must be met of sheets.
pub fn wanted() -> Vec<String> {
    let lines = [&NAMES[..], &UPPERS, &YES, &NO, &CELLS, &BESIDE].concat();
    let mut wanted: Vec<String> =
        SHEETS.iter().chain(&lines).map(|word| word.to_string()).collect();
    wanted.extend((2..=14).chain([16]).map(refused));
    wanted.extend(PLACES.map(place));
    wanted
}

fn refused(number: u32) -> String {
    format!("sheet refused {number:2}")
}

fn place(digits: &str) -> String {
    format!("sheet refused at a place of {digits}")
}

/// What the sheet of a job shows.
pub fn words(bytes: &[u8]) -> BTreeSet<String> {
    let shown = rows(bytes).and_then(|rows| {
        let job = read(bytes)?;
        tree(&job)?;
        let accepted = check_job(&job)?;
        Ok(Shown::of(&job, &accepted).words(&rows))
    });
    match shown {
        Ok(words) => words.into_iter().map(str::to_string).collect(),
        Err(Refusal { number, place: at }) => {
            let digits = PLACES[at.to_string().len() - 1];
            BTreeSet::from([refused(number), place(digits)])
        }
    }
}

/// The words of which it is said that they hold.
fn holding<const N: usize>(
    words: [&'static str; N],
    hold: [bool; N],
) -> impl Iterator<Item = &'static str> {
    words.into_iter().zip(hold).filter_map(|(word, holds)| holds.then_some(word))
}

/// An accepted job, its effect, and what else uses names.
struct Shown<'a> {
    job: &'a Job,
    effect: u64,
    /// What grants drop, what looks drop, and what the bodies of functions use.
    granted: u64,
    looked: u64,
    functions: u64,
}

impl<'a> Shown<'a> {
    fn of(job: &'a Job, accepted: &Accepted) -> Self {
        let effect_of = |expr: u16| accepted.exprs[expr as usize].effect;
        let key_of =
            |expr: u16| match accepted.types[accepted.exprs[expr as usize].entry as usize].shape {
                Shape::Limit(name) | Shape::Grant(name) => name,
                _ => 0,
            };
        let dropped = |key: u16, inside: u16| {
            let effect = effect_of(inside);
            effect & !job.names.without(effect, key_of(key))
        };
        let (mut granted, mut looked, mut functions) = (0, 0, 0);
        for expr in &job.exprs {
            match *expr {
                Expr::Grant(key, body) => granted |= dropped(key, body),
                Expr::Look(key, enabled, ..) => looked |= dropped(key, enabled),
                Expr::Function(_, _, body) => functions |= effect_of(body),
                _ => {}
            }
        }
        Shown { job, effect: accepted.effect, granted, looked, functions }
    }

    fn words(&self, rows: &[Row]) -> BTreeSet<&'static str> {
        let Job { names, .. } = self.job;
        let (host, local) = (names.host(), names.local());
        let between = |name: u8| host & !(u64::MAX << name) != 0 && host >> name != 0;
        let keys: Vec<u8> = self.cells().map(|ty| ty.key).collect();
        let sheet = [
            rows.is_empty(),
            rows.is_empty() && local != 0,
            rows.len() == 1,
            rows.len() == 62,
            bits(local).any(between),
            !rows.is_empty() && keys.contains(&0),
            !rows.is_empty() && keys.contains(&1),
        ];
        let mut words: BTreeSet<&str> = holding(SHEETS, sheet).collect();
        for row in rows {
            words.insert(NAMES[(row.name > 9) as usize]);
            words.insert(UPPERS[(row.upper > 1) as usize + (row.upper > 9) as usize]);
            let cells = [row.cells > 0, row.cells > 1, row.cells > 9, row.cells > 63];
            words.insert(CELLS[cells.into_iter().filter(|&more| more).count()]);
            words.extend(self.used(row));
            words.extend(self.beside(row.name));
        }
        words
    }

    /// Why a line says yes or no.
    fn used(&self, row: &Row) -> Vec<&'static str> {
        let (names, effect) = (&self.job.names, self.effect);
        let is_below = |set: u64| names.set_below(1 << row.name, set);
        let (granted, looked) = (is_below(self.granted), is_below(self.looked));
        if row.used {
            let itself = effect >> row.name & 1 == 1;
            let upper = row.upper > 1 && effect >> row.upper & 1 == 1;
            let all = effect == 2;
            let further = !itself && !upper && !all;
            holding(YES, [itself, upper, further, all, granted, looked]).collect()
        } else {
            let lower = bits(effect).any(|name| names.below(name, row.name));
            let other = effect != 0 && !lower;
            let (rights, functions) = (is_below(self.job.rights), is_below(self.functions));
            holding(NO, [effect == 0, lower, other, rights, granted, looked, functions]).collect()
        }
    }

    /// What there is beside the cells that count for a name.
    fn beside(&self, name: u8) -> Vec<&'static str> {
        let names = &self.job.names;
        let keyed = |kind: Kind| self.values().any(|ty| ty.key == name && ty.kind() == kind);
        let shaped = |shape: Shape| self.values().any(|ty| ty.shape == shape);
        let cell = |ty: &Type| ty.key == name && ty.kind() == Kind::Cell;
        let hold = [
            self.cells().any(|ty| ty.key > 1 && ty.key != name && names.below(ty.key, name)),
            self.cells().any(|ty| ty.key > 1 && ty.key != name && names.below(name, ty.key)),
            shaped(Shape::Limit(name)),
            keyed(Kind::Limit),
            shaped(Shape::Grant(name)),
            keyed(Kind::Grant),
            self.job.types.iter().any(|ty| cell(ty) && self.values().all(|own| own != *ty)),
        ];
        holding(BESIDE, hold).collect()
    }

    /// The types of the host values.
    fn values(&self) -> impl Iterator<Item = Type> {
        self.job.hosts.iter().map(|host: &HostValue| self.job.types[host.ty as usize])
    }

    /// Those that are cells.
    fn cells(&self) -> impl Iterator<Item = Type> {
        self.values().filter(|ty| ty.kind() == Kind::Cell)
    }
}
