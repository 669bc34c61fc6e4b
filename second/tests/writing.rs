//! Writing: tables to bytes.

use std::collections::BTreeSet;

use second::fields::{Fields, TABLES};
use second::generate::{COMMANDS, MOST, commands, job, tables};
use second::read::{Section, command, width};
use second::write::operands;
use second::written::words;
use second::{Refusal, from_hex, read, write};

/// Names 2 (host) and 3 (local). Types: number, pair, cell of key 2, function, limit and grant key
/// of 2. Two host values. All expression commands but 30 and 31 refer to 0 or to type 0.
const ALL: &str = "0101 0202 1000 110000000000 12020000 1300000000000400000000000000 140002 150002
    200200 07000000 200400 00000000 210400000000000000
    3005000000 31 3200 3300000000 34000001 350200000000 3600000000 3700000000 3800000000 390000
    3A0000000000 3B0000000000000000 3C010000FFFFFFFFFFFF0000 3D00000000 3E0303000000000000
    3F00000000 400000000000000000 4100000000 420000 FF";

fn all() -> (Vec<u8>, Fields) {
    let bytes = from_hex(ALL).expect("hexadecimal digits");
    let fields = Fields::of(&read(&bytes).expect("a job that can be read"));
    (bytes, fields)
}

fn refused(fields: &Fields, number: u32, place: usize) {
    assert_eq!(write(fields, usize::MAX), Err(Refusal::at(number, place)), "{fields:?}");
}

/// Each entry that is used, with the offset where it begins: table, number, offset.
fn entries(fields: &Fields) -> Vec<(usize, usize, usize)> {
    let (mut entries, mut at) = (Vec::new(), 0);
    for table in 0..4 {
        at += if table == 3 { 9 } else { 0 };
        for number in 0..fields.counts[table] as usize {
            entries.push((table, number, at));
            at += width(fields.entry(table, number).0 as u8).expect("a command");
        }
    }
    entries
}

/// The tables with one entry changed.
fn with(
    fields: &Fields,
    (table, number): (usize, usize),
    change: impl Fn(&mut u64, &mut [u64]),
) -> Fields {
    let mut fields = fields.clone();
    let (command, own) = fields.entry_mut(table, number);
    change(command, own);
    fields
}

#[test]
fn operands_are_as_wide_as_commands() {
    for byte in 0..=255 {
        let sum: usize = operands(byte).iter().map(|&(_, width)| width).sum();
        assert_eq!(sum, command(byte).map_or(0, |(_, width)| width), "{byte:02x}");
        assert_eq!(COMMANDS.contains(&byte), command(byte).is_some(), "{byte:02x}");
    }
}

#[test]
fn what_is_read_is_written_back() {
    let mut read_jobs = 0;
    for seed in 1..3_000 {
        let (_, bytes) = job(seed);
        let Ok(job) = read(&bytes) else { continue };
        read_jobs += 1;
        assert_eq!(write(&Fields::of(&job), bytes.len()).as_ref(), Ok(&bytes), "seed {seed}");
        let short = write(&Fields::of(&job), bytes.len() - 1);
        assert_eq!(short, Err(Refusal { number: 15, place: 0 }), "seed {seed}");
    }
    assert!(read_jobs > 1_500);
}

#[test]
fn jobs_that_the_check_refuses_are_written_too() {
    // A variable that nothing binds, and no use of the first expression.
    let bytes = from_hex("210000000000000000 3209 31 FF").expect("hexadecimal digits");
    let job = read(&bytes).expect("a job that can be read");
    assert_eq!(write(&Fields::of(&job), 100), Ok(bytes));
}

#[test]
fn the_room_is_asked_for_last() {
    let (bytes, fields) = all();
    assert_eq!(write(&fields, bytes.len()).as_ref(), Ok(&bytes));
    assert_eq!(write(&fields, bytes.len() + 1).as_ref(), Ok(&bytes));
    for room in [0, 1, bytes.len() - 1] {
        assert_eq!(write(&fields, room), Err(Refusal { number: 15, place: 0 }));
    }
    for (table, number, at) in entries(&fields) {
        let none = with(&fields, (table, number), |command, _| *command = 0);
        assert_eq!(write(&none, 0), Err(Refusal::at(2, at)));
    }
    let empty = Fields { counts: [2, 6, 2, 0], ..fields };
    assert_eq!(write(&empty, 0).map_err(|refusal| refusal.number), Err(3));
}

#[test]
fn no_command_is_2() {
    let (_, fields) = all();
    for (table, number, at) in entries(&fields) {
        for word in (0..=255).filter(|&byte| command(byte).is_none()) {
            refused(&with(&fields, (table, number), |c, _| *c = word.into()), 2, at);
        }
        for high in [1 << 8, 1 << 16, 1 << 32, 1 << 63] {
            refused(&with(&fields, (table, number), |command, _| *command |= high), 2, at);
        }
        // Also with fields that are too wide.
        let wide = |command: &mut u64, own: &mut [u64]| {
            *command = 0x43;
            own.fill(u64::MAX);
        };
        refused(&with(&fields, (table, number), wide), 2, at);
    }
}

#[test]
fn a_foreign_command_is_3() {
    let (_, fields) = all();
    for (table, number, at) in entries(&fields) {
        let others = COMMANDS
            .into_iter()
            .filter(|&byte| command(byte).is_some_and(|(section, _)| section != TABLES[table]));
        for other in others {
            refused(&with(&fields, (table, number), |c, _| *c = other.into()), 3, at);
            let wide = |command: &mut u64, own: &mut [u64]| {
                *command = other.into();
                own.fill(u64::MAX);
            };
            refused(&with(&fields, (table, number), wide), 3, at);
        }
    }
}

#[test]
fn a_field_too_wide_is_6() {
    let (_, fields) = all();
    let mut seen = BTreeSet::new();
    for (table, number, at) in entries(&fields) {
        let byte = fields.entry(table, number).0 as u8;
        for &(field, width) in operands(byte).iter().filter(|&&(_, width)| width < 8) {
            for high in 8 * width..64 {
                let wide = with(&fields, (table, number), |_, own| own[field] |= 1 << high);
                refused(&wide, 6, at);
            }
            seen.insert((byte, field));
        }
    }
    let every = COMMANDS.into_iter().flat_map(operands).filter(|(_, width)| *width < 8).count();
    assert_eq!(seen.len(), every);
}

#[test]
fn a_broken_condition_is_6() {
    let (_, fields) = all();
    let at =
        |table, number| entries(&fields).iter().find(|e| (e.0, e.1) == (table, number)).unwrap().2;
    // Table, entry, field, value.
    #[rustfmt::skip]
    let breaks = [
        (0, 0, 0, 0), (0, 0, 0, 2), (0, 1, 0, 3), (0, 1, 0, 0),
        (1, 0, 0, 4), (1, 1, 1, 1), (1, 1, 2, 1), (1, 2, 1, 2), (1, 3, 3, 6), (1, 3, 3, 1),
        (1, 3, 3, 16), (1, 4, 1, 0), (1, 4, 1, 4), (1, 5, 1, 0),
        (2, 0, 0, 0), (2, 0, 0, 6), (2, 1, 1, 1),
        (3, 2, 0, 64), (3, 3, 2, 3), (3, 4, 0, 0), (3, 4, 0, 3), (3, 5, 0, 1), (3, 5, 3, 6),
        (3, 7, 3, 6), (3, 9, 2, 9), (3, 10, 0, 2), (3, 12, 0, 5), (3, 12, 0, 2), (3, 12, 3, 0),
        (3, 12, 5, 0), (3, 12, 5, 0xFFFE), (3, 12, 6, 0xFFFF), (3, 14, 0, 1), (3, 14, 1, 2),
        (3, 14, 1, 1), (3, 16, 5, 6), (3, 18, 2, 18),
    ];
    for (table, number, field, value) in breaks {
        let broken = with(&fields, (table, number), |_, own| own[field] = value);
        refused(&broken, 6, at(table, number));
    }
    for rights in [1, 5, 8, 6, 16] {
        refused(&Fields { rights, ..fields.clone() }, 6, at(3, 0) - 9);
    }
}

#[test]
fn a_type_of_depth_17_is_6() {
    let (_, mut fields) = all();
    fields.counts[1] = 17;
    fields.counts[2] = 0;
    fields.resize([2, 17, 0, 19]);
    for number in 0..17 {
        let (command, own) = fields.entry_mut(1, number);
        *command = if number == 0 { 0x10 } else { 0x12 };
        own.copy_from_slice(&[0, number.saturating_sub(1) as u64, 0, 0]);
    }
    refused(&fields, 6, 4 + 2 + 15 * 4);
    fields.counts[1] = 16;
    assert!(write(&fields, usize::MAX).is_ok());
}

#[test]
fn no_expression_is_3_at_the_end() {
    let (bytes, mut fields) = all();
    fields.counts[3] = 0;
    let end = bytes.iter().position(|&byte| byte == 0x21).unwrap() + 9;
    refused(&fields, 3, end);
    fields = Fields::default();
    refused(&fields, 3, 9);
}

/// Tables full of entries that can be read, and the offset where each table ends.
fn full() -> (Fields, [usize; 4]) {
    let mut fields = Fields { counts: MOST.map(|most| most as u64), ..Fields::default() };
    fields.resize(MOST.map(|most| most + 3));
    for (table, most) in MOST.into_iter().enumerate() {
        for number in 0..most {
            let (command, own) = fields.entry_mut(table, number);
            (*command, own[0]) = [(0x01, 1), (0x14, 0), (0x20, 0), (0x31, 0)][table];
            own[own.len().min(2) - 1] = [1, 1, 0, 0][table];
        }
    }
    let ends = [62 * 2, 62 * 2 + 256 * 3, 62 * 2 + 256 * 3 + 64 * 7];
    (fields, [ends[0], ends[1], ends[2], ends[2] + 9 + 512])
}

#[test]
fn one_entry_more_than_a_limit_is_5() {
    let (fields, ends) = full();
    assert_eq!(write(&fields, usize::MAX).map(|bytes| bytes.len()), Ok(ends[3] + 1));
    for (table, most) in MOST.into_iter().enumerate() {
        let most64 = most as u64;
        for count in [most64 + 1, most64 + 2, most64 + 256, 1 << 16, 1 << 32, u64::MAX] {
            let mut above = fields.clone();
            above.counts[table] = count;
            // Whatever the entry past the limit holds.
            for byte in [0, 0x43, 0x100, 0xFF, 0x21, 0x01, 0x10, 0x20, 0x31, u64::MAX] {
                let (command, own) = above.entry_mut(table, most);
                *command = byte;
                own.fill(if byte > 0x30 { u64::MAX } else { 1 });
                refused(&above, 5, ends[table]);
            }
            assert_eq!(write(&above, 0), Err(Refusal::at(5, ends[table])));
            above.resize(MOST);
            refused(&above, 5, ends[table]);
            // Entries before it are looked at first.
            *above.entry_mut(table, most - 1).0 = 0;
            let last = width(fields.entry(table, 0).0 as u8).unwrap();
            refused(&above, 2, ends[table] - last);
        }
    }
}

/// A change of an entry's command and fields.
type Change = fn(&mut u64, &mut [u64]);

#[test]
fn the_first_fault_decides() {
    let (_, fields) = all();
    let list = entries(&fields);
    let faults: [(u32, Change); 3] = [
        (2, |command, _| *command = 0x43),
        (3, |command, _| *command = 0x21),
        (6, |_, own| own.fill(u64::MAX)),
    ];
    for (place, &(table, number, at)) in list.iter().enumerate() {
        for (refusal, fault) in faults {
            if refusal == 6 && operands(fields.entry(table, number).0 as u8).is_empty() {
                continue;
            }
            let mut bad = with(&fields, (table, number), fault);
            for (later, &(table, number, _)) in list.iter().enumerate().skip(place + 1) {
                bad = with(&bad, (table, number), faults[later % 3].1);
            }
            if table < 3 {
                bad.rights = 1;
                bad.counts[3] = u64::MAX;
            }
            refused(&bad, refusal, at);
        }
    }
}

#[test]
fn what_is_not_used_is_not_looked_at() {
    let (bytes, fields) = all();
    for word in [1, 0xFF, 0x100, 0xFFFF, 1 << 32, u64::MAX] {
        let mut littered = fields.clone();
        littered.resize(MOST.map(|most| most + 2));
        for (table, most) in MOST.into_iter().enumerate() {
            for number in 0..most + 2 {
                let used = (number as u64) < fields.counts[table];
                let (command, own) = littered.entry_mut(table, number);
                let taken = if used { operands(*command as u8) } else { &[] };
                if !used {
                    *command = word;
                }
                for (field, value) in own.iter_mut().enumerate() {
                    if taken.iter().all(|&(operand, _)| operand != field) {
                        *value = word;
                    }
                }
            }
        }
        assert_eq!(write(&littered, usize::MAX).as_ref(), Ok(&bytes));
    }
}

/// The bytes of tables with no command foreign, no field too wide and no command that is none.
fn plain_bytes(fields: &Fields) -> Option<Vec<u8>> {
    let mut bytes = Vec::new();
    for (table, section) in TABLES.into_iter().enumerate() {
        if section == Section::Expressions {
            bytes.push(0x21);
            bytes.extend(fields.rights.to_le_bytes());
        }
        let count = fields.counts[table].min(MOST[table] as u64 + 1) as usize;
        for number in 0..count {
            let (word, own) = fields.entry(table, number);
            let byte = commands(section).find(|&byte| u64::from(byte) == word)?;
            bytes.push(byte);
            for &(field, width) in operands(byte) {
                let limit = 1u128 << (8 * width);
                if u128::from(own[field]) >= limit {
                    return None;
                }
                bytes.extend((0..width).map(|place| (own[field] >> (8 * place)) as u8));
            }
        }
    }
    bytes.push(0xFF);
    Some(bytes)
}

#[test]
fn tables_are_refused_as_their_bytes_are() {
    let mut compared = [0; 8];
    for seed in 1..6_000 {
        let writing = tables(seed);
        let Some(bytes) = plain_bytes(&writing.fields) else { continue };
        let written = write(&writing.fields, usize::MAX);
        let number = written.as_ref().map_or_else(|refusal| refusal.number, |_| 0);
        compared[number as usize] += 1;
        assert_eq!(written, read(&bytes).map(|_| bytes), "seed {seed}");
    }
    assert!([0, 3, 5, 6].iter().all(|&number| compared[number] > 5), "{compared:?}");
}

#[test]
fn refusals_4_and_7_are_never_given() {
    for seed in 1..10_000 {
        let writing = tables(seed);
        let written = write(&writing.fields, writing.room);
        assert!(!words(&writing, &written).contains("no such place"), "seed {seed}");
        if let Err(Refusal { number, place }) = written {
            assert!([2, 3, 5, 6, 15].contains(&number), "seed {seed}: {number}");
            assert!(number != 15 || place == 0, "seed {seed}");
        }
    }
}

#[test]
fn what_is_written_is_read_as_the_same_job() {
    for seed in 1..3_000 {
        let writing = tables(seed);
        if let Ok(bytes) = write(&writing.fields, writing.room) {
            let job = read(&bytes).expect("a job that can be read");
            assert_eq!(write(&Fields::of(&job), bytes.len()), Ok(bytes), "seed {seed}");
        }
    }
}
