//! The sheets of generated jobs.

use compare::proved;
use jobdesk::SHEET_BYTES;
use second::generate::Rng;
use second::sheet::{rows, sheet};
use second::{Refusal, shown};

use crate::generated::{Met, same};

/// How the text of a sheet is lent.
const LENT: [&str; 3] =
    ["sheet in as many bytes as it may have", "sheet with bytes past it", "sheet 1: short text"];

/// What must be met of sheets.
pub fn wanted() -> Vec<String> {
    let mut wanted = shown::wanted();
    wanted.extend(LENT.map(str::to_string));
    wanted.extend((0..4).map(told_in));
    wanted
}

fn told_in(words: usize) -> String {
    format!("sheet told, words lent: {words}")
}

/// Bytes for the text of a sheet and words for what is told of it, of which so many are lent.
#[derive(Clone, Debug, PartialEq, Eq)]
struct Page {
    lent: [usize; 2],
    text: Vec<u8>,
    out: [u64; 4],
}

impl Page {
    /// Dirty bytes and words. Mostly two words are lent.
    fn dirty(bytes: usize, rng: &mut Rng) -> Self {
        let text = (0..bytes + 16).map(|_| rng.word() as u8).collect();
        let words = rng.pick(&[0, 1, 2, 2, 2, 2, 3]);
        Page { lent: [bytes, words], text, out: [0; 4].map(|_| rng.word()) }
    }

    /// The same with a text at its start, and its length and a place told as far as words are lent.
    fn with(&self, text: &str, place: u64) -> Self {
        let mut page = self.clone();
        page.text[..text.len()].copy_from_slice(text.as_bytes());
        let told = [text.len() as u64, place];
        let words = self.lent[1].min(2);
        page.out[..words].copy_from_slice(&told[..words]);
        page
    }

    /// The proved code's number for a job, whose sheet it writes.
    fn write(&mut self, job: &[u8]) -> u64 {
        let [bytes, words] = self.lent;
        proved::sheet(job, &mut self.text[..bytes], &mut self.out[..words])
    }
}

/// Compares the sheet of a job: number, length, place and bytes; what is past them stays.
pub fn compare_sheet(job: &[u8], rng: &mut Rng, met: &mut Met) -> Result<(), String> {
    if rng.chance(10) {
        compare_short(job, rng)?;
        met.meet(LENT[2].to_string());
    }
    let more = if rng.chance(50) { 0 } else { 1 + rng.below(40) };
    met.meet(LENT[(more > 0) as usize].to_string());
    let mut page = Page::dirty(SHEET_BYTES + more, rng);
    met.meet(told_in(page.lent[1]));
    let (number, place) = match rows(job) {
        Ok(_) => (0, 0),
        Err(Refusal { number, place }) => (number.into(), place.into()),
    };
    let text = sheet(job);
    let expected = page.with(&text, place);
    same("sheet", page.write(job), number)?;
    same("what is told of a sheet", page.out, expected.out)?;
    same("text of a sheet", &page.text, &expected.text)?;
    let given = jobdesk::sheet(job);
    let refusal = given.refusal().map(|refusal| (refusal.number.into(), refusal.place as u64));
    same(
        "sheet by name",
        (given.text(), refusal),
        (&text, (number > 0).then_some((number, place))),
    )?;
    shown::words(job).into_iter().for_each(|words| met.meet(words));
    Ok(())
}

/// A sheet with a text that is too short: 1 whatever the job, and no byte is written.
fn compare_short(job: &[u8], rng: &mut Rng) -> Result<(), String> {
    let lent = match rng.below(4) {
        0 => 0,
        1 => SHEET_BYTES - 1,
        // Long enough for this sheet, but not for any.
        2 => sheet(job).len().min(SHEET_BYTES - 1),
        _ => rng.below(SHEET_BYTES),
    };
    let mut page = Page::dirty(lent, rng);
    let expected = page.with("", 0);
    same("sheet with a short text", page.write(job), 1)?;
    same("page with a short text", page, expected)
}
