//! What writing comes to, in words, and what must be met of it.

use crate::fields::{Fields, TABLES};
use crate::generate::{COMMANDS, Writing, commands};
use crate::job::Refusal;
use crate::read::{Section, command, width};
use crate::write::operands;

/// What a table is called.
const WORDS: [&str; 4] = ["names", "types", "values", "expressions"];

/// What writing came to.
pub fn words(writing: &Writing, written: &Result<Vec<u8>, Refusal>) -> String {
    match written {
        Ok(bytes) if bytes.len() == writing.room => "written to the end of the room".to_string(),
        Ok(_) => "written".to_string(),
        Err(refusal) => refused(&writing.fields, *refusal),
    }
}

/// Why tables are refused.
fn refused(fields: &Fields, Refusal { number, place }: Refusal) -> String {
    let found = find(fields, place as usize);
    let (table, entry) = match (number, found) {
        (15, _) => return "not written 15".to_string(),
        (6, Place::Rights) => return "not written 6: condition of 21".to_string(),
        (3, Place::End) => return "not written 3: no expression".to_string(),
        (_, Place::Entry(table, entry)) => (table, entry),
        _ => return format!("not written {number}: no such place"),
    };
    let (word, own) = fields.entry(table, entry);
    let byte = word as u8;
    let of = WORDS[table];
    match number {
        2 if word > 0xFF => format!("not written 2: wider than a byte in {of}"),
        3 => {
            let section = command(byte).map(|(section, _)| format!("{section:?}"));
            format!("not written 3: of {} in {of}", section.unwrap_or_default())
        }
        6 => {
            let wide = operands(byte).iter().find(|&&(field, width)| is_wide(own[field], width));
            match wide {
                Some((field, _)) => too_wide(byte, *field),
                None => format!("not written 6: condition of {byte:02x}"),
            }
        }
        _ => format!("not written {number}: in {of}"),
    }
}

fn is_wide(value: u64, width: usize) -> bool {
    value.to_le_bytes()[width..] != [0; 8][width..]
}

fn too_wide(command: u8, field: usize) -> String {
    format!("not written 6: field {field} of {command:02x} too wide")
}

/// What stands at a place.
enum Place {
    /// An entry of a table.
    Entry(usize, usize),
    /// Command 21.
    Rights,
    /// Command FF.
    End,
    /// The middle of a command.
    Nothing,
}

/// What stands at an offset of the bytes that tables give; what comes before it is without fault.
fn find(fields: &Fields, offset: usize) -> Place {
    let mut at = 0;
    for (table, section) in TABLES.into_iter().enumerate() {
        if section == Section::Expressions {
            if at == offset {
                return Place::Rights;
            }
            at += 9;
        }
        let mut number = 0;
        while at < offset && (number as u64) < fields.counts[table] {
            at += width(fields.entry(table, number).0 as u8).unwrap_or(1);
            number += 1;
        }
        if at == offset && (number as u64) < fields.counts[table] {
            return Place::Entry(table, number);
        }
    }
    if at == offset { Place::End } else { Place::Nothing }
}

/// What must be met of writing, where a field can hold what is too wide for the operand that it is
/// of a command, and a command more than a byte.
pub fn wanted(wide: impl Fn(u8, usize) -> bool, commands_wide: bool) -> Vec<String> {
    let fixed = [
        "written",
        "written to the end of the room",
        "not written 15",
        "not written 3: no expression",
        "not written 6: condition of 21",
    ];
    let mut wanted: Vec<String> = fixed.map(str::to_string).into();
    for (section, of) in TABLES.into_iter().zip(WORDS) {
        wanted.extend([2, 5].map(|number| format!("not written {number}: in {of}")));
        if commands_wide {
            wanted.push(format!("not written 2: wider than a byte in {of}"));
        }
        let others = TABLES.into_iter().chain([Section::Rights, Section::End]);
        wanted.extend(
            others
                .filter(|&other| other != section)
                .map(|other| format!("not written 3: of {other:?} in {of}")),
        );
        // Only 30 and 31 have no condition.
        let conditions = commands(section).filter(|byte| ![0x30, 0x31].contains(byte));
        wanted.extend(conditions.map(|byte| format!("not written 6: condition of {byte:02x}")));
    }
    for byte in COMMANDS {
        let wide = |&&(field, width): &&(usize, usize)| width < 8 && wide(byte, field);
        wanted.extend(operands(byte).iter().filter(wide).map(|&(field, _)| too_wide(byte, field)));
    }
    wanted
}
