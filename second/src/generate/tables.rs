//! Tables to be written: those of a job, damaged field by field.

use super::{Rng, job};
use crate::fields::{Fields, TABLES};
use crate::job::{EXPRESSIONS, Job, TYPES, VARIABLES};
use crate::names::NAMES;
use crate::read::{Section, command, read};
use crate::write::{operands, write};

/// Tables, and the room that is lent for their bytes.
#[derive(Clone, Debug, PartialEq, Eq)]
pub struct Writing {
    /// The tables.
    pub fields: Fields,
    /// The bytes that there is room for.
    pub room: usize,
}

/// The most entries of each table, in the order of the counts.
pub const MOST: [usize; 4] = [NAMES - 2, TYPES, VARIABLES, EXPRESSIONS];
/// The entries past those used that are there, too.
const PAST: usize = 6;

/// The tables of a seed.
pub fn tables(seed: u64) -> Writing {
    let mut rng = Rng::new(seed);
    let mut rng = Rng::new(rng.word());
    let rng = &mut rng;
    let mut fields = Fields::of(&readable(rng));
    if rng.chance(25) {
        let table = rng.below(4);
        fields.resize(MOST);
        fill(rng, &mut fields, table);
    }
    fields.resize([0, 1, 2, 3].map(|table| used(&fields, table) + PAST));
    if rng.chance(60) {
        litter(rng, &mut fields);
    }
    for _ in 0..rng.pick(&[0, 0, 1, 1, 1, 1, 1, 2, 3]) {
        damage(rng, &mut fields);
    }
    let room = room(rng, &fields);
    Writing { fields, room }
}

/// Room for the bytes of tables: enough, just enough, or too little.
pub fn room(rng: &mut Rng, fields: &Fields) -> usize {
    let length = write(fields, usize::MAX).map_or(60, |bytes| bytes.len());
    match rng.below(10) {
        0 => length - 1,
        1 => rng.below(length),
        2 => 0,
        3 => length + 1,
        4 | 5 => length,
        _ => 20_000,
    }
}

/// A generated job that can be read.
fn readable(rng: &mut Rng) -> Job {
    loop {
        if let Ok(job) = read(&job(rng.word()).1) {
            return job;
        }
    }
}

/// How many entries of a table are used.
fn used(fields: &Fields, table: usize) -> usize {
    fields.counts[table].min(MOST[table] as u64) as usize
}

/// Fills a table with entries that can be read, up to the limit or near it. The count may be above
/// it then.
fn fill(rng: &mut Rng, fields: &mut Fields, table: usize) {
    let (most, next) = (MOST[table], fields.counts[table] as usize);
    let (byte, own): (u8, &[u64]) = match table {
        0 => (rng.pick(&[1, 2]), &[1]),
        1 => (0x10, &[0; 4]),
        2 => (0x20, &unkeyed_cell(fields)),
        _ => (0x31, &[0; 7]),
    };
    for number in next..most {
        let (command, fields) = fields.entry_mut(table, number);
        *command = byte.into();
        fields.copy_from_slice(own);
    }
    fields.counts[table] = match rng.below(4) {
        0 => most as u64 - 1,
        1 => most as u64,
        _ => above(rng, most as u64),
    };
}

/// The fields of a host value that is a cell, for which types are added.
fn unkeyed_cell(fields: &mut Fields) -> [u64; 2] {
    let number = (fields.counts[1]).min(TYPES as u64 - 2);
    fields.counts[1] = number + 2;
    let entries = [(0x10, [0; 4]), (0x12, [0, number, 0, 0])];
    for (place, (byte, own)) in entries.into_iter().enumerate() {
        let (command, fields) = fields.entry_mut(1, number as usize + place);
        *command = byte;
        fields.copy_from_slice(&own);
    }
    [number + 1, 7]
}

/// A count above a limit.
fn above(rng: &mut Rng, most: u64) -> u64 {
    let far = [most + 2, most + 256, 1 << 16, 1 << 32, (1 << 32) + most, u64::MAX, 1 << 63];
    if rng.chance(50) { most + 1 } else { rng.pick(&far) }
}

/// A word for a field that nobody should look at.
fn wild(rng: &mut Rng) -> u64 {
    match rng.below(4) {
        0 => rng.word(),
        1 => rng.word() as u32 as u64,
        2 => rng.below(600) as u64,
        _ => rng.pick(&[u64::MAX, 1 << 8, 1 << 16, 1 << 32, 0xFFFF]),
    }
}

/// Puts something into every entry that is not used, and into every field that is no operand.
fn litter(rng: &mut Rng, fields: &mut Fields) {
    for table in 0..4 {
        let used = used(fields, table);
        for number in 0..used + PAST {
            let kind = rng.below(3);
            let (command, own) = fields.entry_mut(table, number);
            let taken = if number < used { operands(*command as u8) } else { &[] };
            if number >= used {
                *command = match kind {
                    0 => wild(rng),
                    1 => rng.pick(&COMMANDS).into(),
                    _ => of_table(rng, table).into(),
                };
            }
            for (field, value) in own.iter_mut().enumerate() {
                if taken.iter().all(|&(operand, _)| operand != field) {
                    *value = wild(rng);
                }
            }
        }
    }
}

/// Every command.
#[rustfmt::skip]
pub const COMMANDS: [u8; 30] = [
    0x01, 0x02, 0x10, 0x11, 0x12, 0x13, 0x14, 0x15, 0x20, 0x21, 0x30, 0x31, 0x32, 0x33, 0x34,
    0x35, 0x36, 0x37, 0x38, 0x39, 0x3A, 0x3B, 0x3C, 0x3D, 0x3E, 0x3F, 0x40, 0x41, 0x42,
    0xFF,
];

/// A command of a table.
fn of_table(rng: &mut Rng, table: usize) -> u8 {
    let own: Vec<u8> = commands(TABLES[table]).collect();
    rng.pick(&own)
}

/// The commands of a section.
pub fn commands(section: Section) -> impl Iterator<Item = u8> {
    COMMANDS.into_iter().filter(move |&byte| command(byte).is_some_and(|(own, _)| own == section))
}

/// Changes one thing.
fn damage(rng: &mut Rng, fields: &mut Fields) {
    let used: Vec<usize> = (0..4).filter(|&table| fields.counts[table] > 0).collect();
    let kind = rng.below(20);
    if kind == 0 || used.is_empty() {
        let table = rng.below(4);
        let count = fields.counts[table];
        fields.counts[table] = match rng.below(4) {
            0 => 0,
            1 => count.saturating_sub(1),
            2 => count.saturating_add(1),
            _ => above(rng, MOST[table] as u64),
        };
        return;
    }
    if kind == 1 {
        fields.rights = other_set(rng, fields.rights);
        return;
    }
    // Expressions have the most commands.
    let table = if rng.chance(50) { used[used.len() - 1] } else { rng.pick(&used) };
    let number = some_entry(rng, fields, table);
    let (command, own) = fields.entry_mut(table, number);
    match kind {
        2..5 => *command = no_command(rng, *command),
        5..8 => *command = foreign(rng, table).into(),
        8 => *command = of_table(rng, table).into(),
        _ => return operand(rng, *command as u8, own),
    }
    if rng.chance(30) {
        own[rng.below(own.len())] = wild(rng);
    }
}

/// A used entry of a table that is not empty, each command as often as it has operands.
fn some_entry(rng: &mut Rng, fields: &Fields, table: usize) -> usize {
    let used = used(fields, table).min(fields.lengths()[table]);
    let often = |byte| std::iter::repeat_n(byte, operands(byte).len().max(1));
    let wanted = rng.pick(&commands(TABLES[table]).flat_map(often).collect::<Vec<u8>>());
    let entries: Vec<usize> =
        (0..used).filter(|&number| fields.entry(table, number).0 == wanted.into()).collect();
    if entries.is_empty() { rng.below(used) } else { rng.pick(&entries) }
}

/// Something that is no command, near a command or wider than a byte.
fn no_command(rng: &mut Rng, command: u64) -> u64 {
    let bytes = [0, 3, 0x0F, 0x16, 0x1F, 0x22, 0x2F, 0x43, 0x44, 0xFE];
    match rng.below(3) {
        0 => command | 1 << (8 + rng.below(56)),
        1 => rng.pick(&[0x100, 0x1FF, u64::MAX]),
        _ => rng.pick(&bytes),
    }
}

/// A command that is not of the table, each section as often as another.
fn foreign(rng: &mut Rng, table: usize) -> u8 {
    let mut sections = vec![Section::Rights, Section::End];
    sections.extend(TABLES.into_iter().filter(|&own| own != TABLES[table]));
    let others: Vec<u8> = commands(rng.pick(&sections)).collect();
    rng.pick(&others)
}

/// Changes an operand of a command: mostly to something too wide, or at the edge of that.
fn operand(rng: &mut Rng, command: u8, own: &mut [u64]) {
    // The command may be of another table by now.
    let operands = operands(command);
    if operands.is_empty() || operands.iter().any(|&(field, _)| field >= own.len()) {
        return;
    }
    let (field, width) = rng.pick(operands);
    let value = &mut own[field];
    if width == 8 {
        *value = other_set(rng, *value);
        return;
    }
    let first = 1 << (8 * width);
    *value = match rng.below(8) {
        0 | 1 => value.wrapping_add(first),
        2 => *value | first << rng.below(64 - 8 * width),
        3 => rng.pick(&[first - 1, first, u64::MAX]),
        4 => value.wrapping_sub(1),
        5 => value.wrapping_add(1),
        6 => rng.below(70) as u64,
        _ => wild(rng),
    };
}

/// Another set, mostly near the old one.
fn other_set(rng: &mut Rng, set: u64) -> u64 {
    match rng.below(4) {
        0 => set ^ 1 << rng.below(64),
        1 => set ^ 1 << rng.below(6),
        2 => 1 << rng.below(64),
        _ => rng.word(),
    }
}
