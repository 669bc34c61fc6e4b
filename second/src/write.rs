//! Writing: tables to bytes, refusals 2, 3, 5, 6 and 15.

use crate::fields::{Fields, TABLES};
use crate::job::{Job, Refusal};
use crate::read::{Operands, Reader, Section, command};

/// No job is longer.
const LONGEST: usize = 10_310;

/// Writes the bytes of the job that the tables hold, if there is room for so many.
///
/// Tables that no job has are refused by the number and place that reading their bytes would give.
pub fn write(fields: &Fields, room: usize) -> Result<Vec<u8>, Refusal> {
    let out = Vec::with_capacity(room.min(LONGEST));
    let mut writer = Writer { out, ..Writer::default() };
    if let Err(number) = writer.job(fields) {
        return Err(Refusal::at(number, writer.at));
    }
    if writer.out.len() > room {
        return Err(Refusal::at(15, 0));
    }
    Ok(writer.out)
}

/// The bytes of a job's tables, whether or not they can be read.
pub fn bytes_of(job: &Job) -> Vec<u8> {
    let fields = Fields::of(job);
    let mut out = Vec::new();
    for (table, section) in TABLES.into_iter().enumerate() {
        if section == Section::Expressions {
            put(&mut out, 0x21, &[fields.rights]);
        }
        for number in 0..fields.counts[table] as usize {
            let (command, own) = fields.entry(table, number);
            put(&mut out, command as u8, own);
        }
    }
    out.push(0xFF);
    out
}

/// The operands of a command in the order of its bytes: the field of each, and its width in bytes.
pub fn operands(command: u8) -> &'static [(usize, usize)] {
    match command {
        0x01 | 0x02 | 0x10 | 0x32 => &[(0, 1)],
        0x11 => &[(0, 1), (1, 2), (2, 2)],
        0x12 => &[(0, 1), (1, 2)],
        0x13 => &[(0, 1), (1, 2), (2, 2), (3, 8)],
        0x14 | 0x15 => &[(0, 1), (1, 1)],
        0x20 => &[(0, 2), (1, 4)],
        0x21 => &[(0, 8)],
        0x30 => &[(0, 4)],
        0x33 | 0x36 | 0x38 | 0x3D | 0x3F | 0x41 => &[(2, 2), (3, 2)],
        0x34 => &[(2, 2), (0, 1)],
        0x35 => &[(0, 1), (3, 2), (2, 2)],
        0x37 => &[(3, 2), (2, 2)],
        0x39 | 0x42 => &[(2, 2)],
        0x3A => &[(0, 1), (2, 2), (3, 2)],
        0x3B | 0x40 => &[(2, 2), (3, 2), (4, 2), (5, 2)],
        0x3C => &[(0, 1), (2, 2), (3, 2), (4, 2), (5, 2), (6, 2)],
        0x3E => &[(0, 1), (1, 1), (2, 2), (3, 2), (4, 2)],
        _ => &[],
    }
}

/// Puts down a command and its operands; whether none of them is too wide.
#[inline(always)]
fn put(out: &mut Vec<u8>, command: u8, fields: &[u64]) -> bool {
    // The longest command has 14 bytes; what a field has past its operand is written over.
    let mut bytes = [0; 24];
    bytes[0] = command;
    let (mut end, mut fits) = (1, true);
    for &(field, width) in operands(command) {
        let value = fields[field];
        let excess = value.checked_shr(8 * width as u32).unwrap_or(0);
        bytes[end..end + 8].copy_from_slice(&value.to_le_bytes());
        fits &= excess == 0;
        end += width;
    }
    out.extend(&bytes[..end]);
    fits
}

/// The bytes as far as they are written, and the job as reading them gives it.
#[derive(Default)]
struct Writer {
    out: Vec<u8>,
    /// Where the entry that is being written begins.
    at: usize,
    reader: Reader,
}

/// Each method gives the number of a refusal, if one is due.
impl Writer {
    fn job(&mut self, fields: &Fields) -> Result<(), u32> {
        for (table, section) in TABLES.into_iter().enumerate() {
            if section == Section::Expressions {
                self.entry(Section::Rights, 0x21, &[fields.rights])?;
            }
            for number in 0..fields.counts[table] {
                let (command, own) = fields.entry(table, number as usize);
                self.entry(section, command, own)?;
            }
        }
        self.at = self.out.len();
        if fields.counts[3] == 0 {
            return Err(3);
        }
        self.out.push(0xFF);
        Ok(())
    }

    /// One entry, by the section of its table.
    #[inline(always)]
    fn entry(&mut self, section: Section, word: u64, fields: &[u64]) -> Result<(), u32> {
        self.at = self.out.len();
        if self.reader.is_full(section) {
            return Err(5);
        }
        let byte = u8::try_from(word).map_err(|_| 2u32)?;
        let (own, _) = command(byte).ok_or(2u32)?;
        if own != section {
            return Err(3);
        }
        if !put(&mut self.out, byte, fields) {
            return Err(6);
        }
        self.reader.take(byte, Operands(&self.out[self.at + 1..])).ok_or(6)
    }
}
