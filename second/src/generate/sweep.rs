//! A sweep of small jobs: every byte where a command is due, in each section, with operands and more,
//! or cut short; and of a small job's tables: every byte as a command.

use crate::fields::{Fields, TABLES};
use crate::read::read;

/// The sections of a small job: a host name and a local one, the type of the top's limit key, a host
/// value of it, no rights, and that key as the expression.
const PARTS: [&[u8]; 5] = [
    &[0x01, 1, 0x02, 1],
    &[0x14, 0, 1],
    &[0x20, 0, 0, 0, 0, 0, 0],
    &[0x21, 0, 0, 0, 0, 0, 0, 0, 0],
    &[0x31],
];

/// The most bytes that come after the command: one more than the widest operands.
const MOST: usize = 14;

/// The jobs of the sweep: none of the parts or the first ones; any byte; up to 14 bytes; and nothing, or
/// one of the ends that a job can have there.
pub fn sweep() -> Vec<Vec<u8>> {
    let mut jobs = Vec::new();
    for parts in 0..=PARTS.len() {
        let before = PARTS[..parts].concat();
        for byte in 0..=255 {
            for count in 0..=MOST {
                let operands = &operands(byte)[..count];
                let job = |end: Vec<u8>| [&before[..], &[byte], operands, &end].concat();
                jobs.extend(ends(parts).into_iter().map(job));
            }
        }
    }
    jobs
}

/// The tables of the sweep: those of all parts, with any byte as the command of a table's first entry.
pub fn sweep_tables() -> Vec<Fields> {
    let fields = Fields::of(&read(&end(&PARTS)).expect("a job that can be read"));
    let mut tables = Vec::new();
    for table in 0..TABLES.len() {
        for byte in 0..=255 {
            let mut changed = fields.clone();
            *changed.entry_mut(table, 0).0 = byte;
            tables.push(changed);
        }
    }
    tables
}

/// Parts and FF.
fn end(parts: &[&[u8]]) -> Vec<u8> {
    [&parts.concat()[..], &[0xFF]].concat()
}

/// Operands that the reader takes in a command, where there is what they refer to, and zeros after them.
fn operands(command: u8) -> [u8; MOST] {
    let taken: &[u8] = match command {
        0x01 | 0x02 | 0x35 => &[1],
        0x14 | 0x15 => &[0, 1],
        0x34 => &[0, 0, 1],
        0x3C => &[0, 0xFF, 0xFF, 0xFF, 0xFF, 0xFF, 0xFF, 0xFF, 0xFF],
        0x3E => &[1, 3],
        _ => &[],
    };
    let mut operands = [0; MOST];
    operands[..taken.len()].copy_from_slice(taken);
    operands
}

/// What comes after so many parts, a command and its operands: nothing, or FF; before the rights the
/// expression stands before FF, once alone and once after the rights.
fn ends(parts: usize) -> Vec<Vec<u8>> {
    let whole = if parts > 3 { vec![end(&[])] } else { vec![end(&PARTS[4..]), end(&PARTS[3..])] };
    [vec![vec![]], whole].concat()
}
