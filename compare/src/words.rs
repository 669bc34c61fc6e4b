//! A job's tables as words, in the layout that the proved code's contracts give.

use second::fields::{Entry, ExprEntry, NameEntry, PLACES, TypeEntry, ValueEntry};
use second::generate::MOST;
use second::job::{Job, Type};
use second::{Fields, Kind, Typed};

use crate::proved::Tables;

/// The words of each table.
#[derive(Clone, Debug, Default, PartialEq, Eq)]
pub struct Words {
    pub names: Vec<u16>,
    pub types: Vec<u64>,
    pub sets: Vec<u64>,
    pub values: Vec<u64>,
    pub heads: Vec<u64>,
    pub slots: Vec<u16>,
    pub entries: Vec<u16>,
    pub effects: Vec<u64>,
}

/// The words of a job, of its type table and of what was worked out for its expressions.
pub fn words(job: &Job, types: &[Type], exprs: &[Typed]) -> Words {
    let mut fields = Fields::of(job);
    fields.types = types.iter().map(TypeEntry::of).collect();
    Words {
        entries: exprs.iter().map(|typed| typed.entry).collect(),
        effects: exprs.iter().map(|typed| typed.effect).collect(),
        ..words_of(&fields)
    }
}

/// The words of the first six tables. What is wider than its place in a word is cut.
pub fn words_of(fields: &Fields) -> Words {
    Words {
        names: [0, 0].into_iter().chain(fields.names.iter().map(name_word)).collect(),
        types: fields.types.iter().map(type_word).collect(),
        sets: fields.types.iter().map(set_word).collect(),
        values: fields.values.iter().map(value_word).collect(),
        heads: fields.exprs.iter().map(head_word).collect(),
        slots: fields.exprs.iter().flat_map(|e| &e.fields[PLACES..]).map(|&s| s as u16).collect(),
        ..Words::default()
    }
}

/// Upper name, command.
fn name_word(name: &NameEntry) -> u16 {
    (name.fields[0] & 0xFF | name.command << 8) as u16
}

/// Command, key, parts.
pub fn type_word(ty: &TypeEntry) -> u64 {
    let [key, first, second, _] = ty.fields;
    ty.command & 0xFF | (key & 0xFF) << 8 | (first & 0xFFFF) << 16 | second << 32
}

/// A function's effect.
pub fn set_word(ty: &TypeEntry) -> u64 {
    ty.fields[3]
}

/// Command, type, number.
fn value_word(value: &ValueEntry) -> u64 {
    let [ty, number] = value.fields;
    value.command & 0xFF | (ty & 0xFFFF) << 8 | number << 24
}

/// The command whose first word has two operands of one byte.
const NEW_KEY: u64 = 0x3E;

/// Command, and operands of one byte or four.
fn head_word(expr: &ExprEntry) -> u64 {
    let [first, second, ..] = expr.fields;
    let operands = if expr.command == NEW_KEY { first & 0xFF | second << 8 } else { first };
    expr.command & 0xFF | operands << 8
}

/// How many entries past those used are taken for fields.
const PAST: usize = 6;

/// The fields of words, with the counts and the rights; of entries that are not used only a few.
pub fn fields_of(words: &Words, counts: [u64; 5]) -> Fields {
    let [names, types, values, exprs, rights] = counts;
    let counts = [names, types, values, exprs];
    let mut some = MOST.map(|most| most + PAST);
    for (some, &count) in some.iter_mut().zip(&counts) {
        *some = (*some).min(usize::try_from(count).unwrap_or(usize::MAX).saturating_add(PAST));
    }
    let typed = words.types.iter().zip(&words.sets);
    let heads = words.heads.iter().zip(words.slots.chunks_exact(5));
    Fields {
        names: words.names.iter().skip(2).map(name_of).take(some[0]).collect(),
        types: typed.map(|(&word, &set)| type_of(word, set)).take(some[1]).collect(),
        values: words.values.iter().map(value_of).take(some[2]).collect(),
        exprs: heads.map(|(&head, slots)| expr_of(head, slots)).take(some[3]).collect(),
        counts,
        rights,
    }
}

fn name_of(word: &u16) -> NameEntry {
    Entry { command: u64::from(word >> 8), fields: [u64::from(word & 0xFF)] }
}

fn type_of(word: u64, set: u64) -> TypeEntry {
    Entry { command: word & 0xFF, fields: [word >> 8 & 0xFF, word >> 16 & 0xFFFF, word >> 32, set] }
}

fn value_of(word: &u64) -> ValueEntry {
    Entry { command: word & 0xFF, fields: [word >> 8 & 0xFFFF, word >> 24] }
}

fn expr_of(head: u64, slots: &[u16]) -> ExprEntry {
    let command = head & 0xFF;
    let mut fields = [0; 7];
    if command == NEW_KEY {
        (fields[0], fields[1]) = (head >> 8 & 0xFF, head >> 16);
    } else {
        fields[0] = head >> 8;
    }
    for (field, &slot) in fields[PLACES..].iter_mut().zip(slots) {
        *field = slot.into();
    }
    Entry { command, fields }
}

/// Whether a field's place in a word can hold what is too wide for the operand of a command.
pub fn can_be_wide(command: u8, field: usize) -> bool {
    match command {
        0x11 | 0x13 => field == 2,
        0x14 | 0x15 | 0x20 | 0x3E => field == 1,
        0x30..=0x41 => field == 0,
        _ => false,
    }
}

/// The kind of a type word.
pub fn kind(word: u64) -> Option<Kind> {
    Some(match word as u8 {
        0x10 => Kind::Number,
        0x11 => Kind::Pair,
        0x12 => Kind::Cell,
        0x13 => Kind::Function,
        0x14 => Kind::Limit,
        0x15 => Kind::Grant,
        _ => return None,
    })
}

/// Whether a table holds the words, then zeros to the end of what is lent, then what it held before.
fn holds<T>(table: &[T], before: &[T], lent: usize, words: &[T]) -> bool
where
    T: Copy + Default + PartialEq,
{
    table[..lent].split_at_checked(words.len()).is_some_and(|(used, rest)| {
        let cleared = rest.iter().all(|&word| word == T::default());
        used == words && cleared && table[lent..] == before[lent..]
    })
}

impl Tables {
    /// The name of the first table that is not as a call must leave it: the first `count` tables,
    /// which it was lent, hold the words, and the others are as before.
    pub fn differs(&self, before: &Tables, words: &Words, count: usize) -> Option<&'static str> {
        let (now, old) = (&self.words, &before.words);
        let mut lent = before.lent;
        lent[count..].fill(0);
        [
            ("names", holds(&now.names, &old.names, lent[0], &words.names)),
            ("types", holds(&now.types, &old.types, lent[1], &words.types)),
            ("sets", holds(&now.sets, &old.sets, lent[2], &words.sets)),
            ("values", holds(&now.values, &old.values, lent[3], &words.values)),
            ("heads", holds(&now.heads, &old.heads, lent[4], &words.heads)),
            ("slots", holds(&now.slots, &old.slots, lent[5], &words.slots)),
            ("entries", holds(&now.entries, &old.entries, lent[6], &words.entries)),
            ("effects", holds(&now.effects, &old.effects, lent[7], &words.effects)),
        ]
        .into_iter()
        .find_map(|(name, holds)| (!holds).then_some(name))
    }
}
