//! Jobs read and written back, and generated tables written.

use compare::lending::{Lending, counts_of};
use compare::proved::{self, COUNTS, RUN_TABLES, Tables};
use compare::words::{Words, can_be_wide, words};
use second::generate::Rng;
use second::{Fields, Job, Refusal, read, write, written};

use crate::generated::{Met, long_enough, same, same_tables, too_short};

/// What must be met of reading and writing.
pub fn wanted() -> Vec<String> {
    let mut wanted: Vec<String> = (1..=7).map(|number| format!("not read {number}")).collect();
    let back = ["to the end of the buffer", "with bytes past it", "after a check"];
    wanted.extend(back.map(|how| format!("written back {how}")));
    wanted.extend(["read", "not written back 15"].map(str::to_string));
    wanted.extend(["table", "list of counts"].map(|what| format!("not read 1: short {what}")));
    wanted.extend(["table", "list of counts"].map(|what| format!("not written 1: short {what}")));
    wanted.extend(written::wanted(can_be_wide, false));
    wanted
}

/// Compares the reading of a job and, where it is read, writes it back.
pub fn compare_back(job: &[u8], rng: &mut Rng, met: &mut Met) -> Result<(), String> {
    if rng.chance(10) {
        compare_short_read(job, rng, met)?;
    }
    let mut tables = Tables::dirty(long_enough(rng), rng);
    let before = tables.clone();
    let dirty: Vec<u64> = (0..COUNTS + 2).map(|_| rng.word()).collect();
    let mut counts = dirty.clone();
    let lent = if rng.chance(80) { COUNTS } else { COUNTS + 1 };
    let number = proved::read(job, &mut tables, &mut counts[..lent]);
    let mut expected = dirty;
    match read(job) {
        Ok(read) => {
            let own = counts_of(&Fields::of(&read));
            expected[..COUNTS].copy_from_slice(&own);
            same("reading", (number, &counts), (0, &expected))?;
            let words = words(&read, &read.types, &[]);
            same_tables("after reading", tables.differs(&before, &words, RUN_TABLES))?;
            met.meet("read".to_string());
            written_back(&tables, own, job, rng, met)
        }
        Err(Refusal { number: refused, place }) => {
            expected[0] = place.into();
            same("reading", (number, &counts), (refused.into(), &expected))?;
            met.meet(format!("not read {refused}"));
            let zeros = Words::default();
            same_tables("after no reading", tables.differs(&before, &zeros, RUN_TABLES))
        }
    }
}

/// Reading with a table or the counts too short: 1 at 0, and nothing else is written.
fn compare_short_read(job: &[u8], rng: &mut Rng, met: &mut Met) -> Result<(), String> {
    let table = rng.chance(50);
    let lent = if table { too_short(rng, RUN_TABLES) } else { long_enough(rng) };
    let mut tables = Tables::dirty(lent, rng);
    let before = tables.clone();
    let mut counts: Vec<u64> = (0..COUNTS).map(|_| rng.word()).collect();
    let mut expected = counts.clone();
    let length = if table { COUNTS } else { rng.below(COUNTS) };
    let number = proved::read(job, &mut tables, &mut counts[..length]);
    if length > 0 {
        expected[0] = 0;
    }
    same("reading what is too short", (number, counts), (1, expected))?;
    met.meet("not read 1".to_string());
    met.meet(format!("not read 1: short {}", if table { "table" } else { "list of counts" }));
    same_tables("short reading", tables.differs(&before, &Words::default(), 0))
}

/// A job in tables is written as its bytes, or not at all where the buffer is too short.
fn written_back(
    tables: &Tables,
    counts: [u64; COUNTS],
    job: &[u8],
    rng: &mut Rng,
    met: &mut Met,
) -> Result<(), String> {
    let more = if rng.chance(50) { 0 } else { 1 + rng.below(40) };
    compare_write(tables, &counts, job.len() + more, &Ok(job.to_vec()), rng)?;
    let how = if more == 0 { "to the end of the buffer" } else { "with bytes past it" };
    met.meet(format!("written back {how}"));
    if rng.chance(30) {
        let short = if rng.chance(70) { job.len() - 1 } else { rng.below(job.len()) };
        compare_write(tables, &counts, short, &Err(Refusal { number: 15, place: 0 }), rng)?;
        met.meet("not written back 15".to_string());
    }
    Ok(())
}

/// An accepted job, as the check leaves it in the tables, is written as its bytes.
pub fn compare_checked(
    tables: &Tables,
    read: &Job,
    job: &[u8],
    rng: &mut Rng,
    met: &mut Met,
) -> Result<(), String> {
    met.meet("written back after a check".to_string());
    written_back(tables, counts_of(&Fields::of(read)), job, rng, met)
}

/// Writes with a dirty buffer of which so much is lent: number, and place or length, are as expected;
/// the buffer has the bytes, if any, and is as before past them; the tables stay.
fn compare_write(
    tables: &Tables,
    counts: &[u64],
    lent: usize,
    expected: &Result<Vec<u8>, Refusal>,
    rng: &mut Rng,
) -> Result<(), String> {
    let mut buffer: Vec<u8> = (0..lent + 16).map(|_| rng.word() as u8).collect();
    let mut after = buffer.clone();
    let before = tables.clone();
    let held = counts.to_vec();
    let told = proved::write(tables, counts, &mut buffer[..lent]);
    let second = match expected {
        Ok(bytes) => {
            after[..bytes.len()].copy_from_slice(bytes);
            (0, bytes.len() as u64)
        }
        Err(refusal) => (refusal.number.into(), refusal.place.into()),
    };
    same("writing", told, second)?;
    same("buffer after writing", buffer, after)?;
    same("counts after writing", counts, &held[..])?;
    match *tables == before {
        true => Ok(()),
        false => Err("writing changed a table".to_string()),
    }
}

/// Compares the writing of the tables of a seed.
pub fn compare_tables(seed: u64, rng: &mut Rng, met: &mut Met) -> Result<(), String> {
    if rng.chance(10) {
        compare_short_write(seed, rng, met)?;
    }
    let lent = long_enough(rng);
    compare_lending(&Lending::of(seed, lent, rng), rng, met)
}

/// Compares the writing of tables that are lent.
pub fn compare_lending(lending: &Lending, rng: &mut Rng, met: &mut Met) -> Result<(), String> {
    let Lending { tables, counts, writing } = lending;
    let expected = write(&writing.fields, writing.room);
    compare_write(tables, counts, writing.room, &expected, rng)?;
    met.meet(written::words(writing, &expected));
    Ok(())
}

/// Writing with a table or the counts too short: 1 at 0, before all else.
fn compare_short_write(seed: u64, rng: &mut Rng, met: &mut Met) -> Result<(), String> {
    let table = rng.chance(50);
    let lent = if table { too_short(rng, RUN_TABLES) } else { long_enough(rng) };
    let Lending { tables, counts, .. } = Lending::of(seed, lent, rng);
    let length = if table { COUNTS } else { rng.below(COUNTS) };
    let room = rng.pick(&[0, 20, 20_000]);
    compare_write(&tables, &counts[..length], room, &Err(Refusal { number: 1, place: 0 }), rng)?;
    met.meet(format!("not written 1: short {}", if table { "table" } else { "list of counts" }));
    Ok(())
}
