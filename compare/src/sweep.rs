//! The sweep: every byte where a command is due, compared in number and place, and in all that can be
//! seen of a job where it is read; and every byte as a command in tables, written.

use compare::lending::{Lending, counts_of};
use compare::proved::{self, COUNTS, Tables};
use jobdesk::LENGTHS;
use second::generate::{Rng, sweep, sweep_tables};
use second::{Fields, Refusal, check, read, to_hex};

use crate::generated::{Met, compare_job, same};
use crate::writing::compare_lending;

/// What must be met in the sweep.
pub fn wanted() -> Vec<String> {
    let mut wanted: Vec<String> = [2, 3, 4, 6, 7, 8, 11].map(refused).into();
    wanted.push(ACCEPTED.to_string());
    wanted
}

const ACCEPTED: &str = "sweep: accepted";

fn refused(number: u32) -> String {
    format!("sweep: refused {number:2}")
}

/// Compares the jobs of the sweep and its tables, and gives how many jobs there are.
pub fn compare_sweep(met: &mut Met) -> Result<usize, String> {
    let jobs = sweep();
    let (mut tables, mut rng) = (Tables::least(), Rng::new(1));
    for job in &jobs {
        let compared = compare_swept(job, &mut tables, &mut rng, met);
        compared.map_err(|difference| format!("{difference}\njob: {}", to_hex(job)))?;
    }
    for fields in sweep_tables() {
        let lending = Lending::new(&fields, LENGTHS, &mut rng);
        compare_lending(&lending, &mut rng, &mut Met::default())
            .map_err(|difference| format!("{difference}\nfields: {fields:?}"))?;
    }
    Ok(jobs.len())
}

/// Compares one job: its check, its reading, and all else if it is read.
fn compare_swept(
    job: &[u8],
    tables: &mut Tables,
    rng: &mut Rng,
    met: &mut Met,
) -> Result<(), String> {
    let (verdict, words) = match check(job) {
        Ok(accepted) => ((0, [accepted.entry as u64, accepted.effect]), ACCEPTED.to_string()),
        Err(Refusal { number, place }) => ((number.into(), [place.into(), 0]), refused(number)),
    };
    same("verdict", proved::check(job, tables), verdict)?;
    met.meet(words);
    let mut counts = [0; COUNTS];
    let number = proved::read(job, tables, &mut counts);
    match read(job) {
        Ok(read) => {
            same("reading", (number, counts), (0, counts_of(&Fields::of(&read))))?;
            // What this meets is not counted among what generated jobs must meet.
            compare_job(job, rng, &mut Met::default()).map(drop)
        }
        Err(Refusal { number: refused, place }) => {
            same("reading", (number, counts), (refused.into(), [place.into(), 0, 0, 0, 0]))
        }
    }
}
