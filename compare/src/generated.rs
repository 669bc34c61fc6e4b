//! Generated jobs, compared in all that can be seen of them.

use std::collections::BTreeMap;
use std::process::ExitCode;

use compare::lines::lines;
use compare::proved::{self, Tables};
use compare::words::{Words, kind, words};
use jobdesk::LENGTHS;
use second::generate::{Rng, job};
use second::observe::{made, refused_at, wanted_of_threads};
use second::{Refusal, check, desk, read, to_hex};

use crate::runs::{self, compare_run};
use crate::sessions;
use crate::sheets::{self, compare_sheet};
use crate::sweep::{self, compare_sweep};
use crate::writing::{self, compare_back, compare_checked, compare_tables};

/// How often something was met, and the steps that answers have told in all.
#[derive(Default)]
pub struct Met {
    times: BTreeMap<String, u64>,
    pub steps: u64,
}

impl Met {
    pub fn meet(&mut self, what: String) {
        *self.times.entry(what).or_default() += 1;
    }
}

/// Compares the jobs of the sweep, and the tables and jobs of so many seeds.
pub fn all(count: u64, seed: u64) -> ExitCode {
    let mut met = Met::default();
    let compared = compare_sweep(&mut met).and_then(|swept| {
        let mut seeds = seed..seed.saturating_add(count);
        seeds.try_for_each(|seed| compare_seed(seed, &mut met)).map(|()| swept)
    });
    match compared {
        Ok(swept) => tell(swept, count, &met),
        Err(difference) => {
            println!("difference: {difference}");
            ExitCode::FAILURE
        }
    }
}

/// Compares the tables of a seed, and its job and up to three probes.
fn compare_seed(seed: u64, met: &mut Met) -> Result<(), String> {
    let mut rng = Rng::new(!seed);
    compare_tables(seed, &mut rng, met)
        .map_err(|difference| format!("{difference}\ntables of seed: {seed}"))?;
    let mut next = Some(job(seed).1);
    for _ in 0..4 {
        let Some(job) = next else { break };
        next = compare_job(&job, &mut rng, met)
            .map_err(|difference| format!("{difference}\nseed: {seed}\njob: {}", to_hex(&job)))?;
    }
    Ok(())
}

/// Tells what was met, and whether that is all that must be.
fn tell(swept: usize, count: u64, met: &Met) -> ExitCode {
    for (what, times) in &met.times {
        println!("{times:9} {what}");
    }
    let missing: Vec<String> =
        wanted().into_iter().filter(|what| !met.times.contains_key(what)).collect();
    missing.iter().for_each(|what| println!("not met: {what}"));
    match missing.is_empty() {
        true => println!(
            "{swept} jobs of the sweep, {count} jobs and their probes, {} steps, {count} tables: no difference",
            met.steps
        ),
        false => println!("no difference, but not all was met"),
    }
    ExitCode::from(!missing.is_empty() as u8)
}

/// What a comparison must have met.
fn wanted() -> Vec<String> {
    let refused = (1..=14).chain([16]);
    let mut wanted: Vec<String> = refused.map(|number| format!("refused {number:2}")).collect();
    wanted.push("accepted".to_string());
    for kind in ["number", "pair", "cell", "function", "limit", "grant"] {
        wanted.push(format!("accepted as {kind}"));
    }
    wanted.extend(wanted_of_threads());
    wanted.extend(runs::wanted());
    wanted.extend(sessions::wanted());
    wanted.extend(writing::wanted());
    wanted.extend(sheets::wanted());
    wanted.extend(sweep::wanted());
    wanted
}

/// Compares one job, and gives a job that uses its value.
pub fn compare_job(job: &[u8], rng: &mut Rng, met: &mut Met) -> Result<Option<Vec<u8>>, String> {
    let accepted = compare_check(job, rng, met)?;
    if rng.chance(10) {
        compare_short(job, rng, met)?;
    }
    compare_back(job, rng, met)?;
    compare_sheet(job, rng, met)?;
    same("the desk's lines", lines(job, &mut jobdesk::Tables::new()), desk(job))?;
    compare_run(job, accepted, rng, met)
}

/// Lengths of tables that are long enough.
pub fn long_enough(rng: &mut Rng) -> [usize; 8] {
    LENGTHS.map(|least| if rng.chance(60) { least } else { least + rng.below(50) })
}

/// The same but for one of the first so many tables, which is too short.
pub fn too_short(rng: &mut Rng, count: usize) -> [usize; 8] {
    let mut lent = long_enough(rng);
    let table = rng.below(count);
    lent[table] = match rng.below(3) {
        0 => 0,
        1 => LENGTHS[table] - 1,
        _ => rng.below(LENGTHS[table]),
    };
    lent
}

pub fn same<T: PartialEq + std::fmt::Debug>(
    what: &str,
    proved: T,
    second: T,
) -> Result<(), String> {
    match proved == second {
        true => Ok(()),
        false => Err(format!("{what}: proved {proved:?}, second {second:?}")),
    }
}

/// Whether no table differs.
pub fn same_tables(what: &str, differs: Option<&str>) -> Result<(), String> {
    match differs {
        None => Ok(()),
        Some(table) => Err(format!("{what}: table {table}")),
    }
}

/// The check's verdict and all tables; whether the job is accepted.
fn compare_check(job: &[u8], rng: &mut Rng, met: &mut Met) -> Result<bool, String> {
    let mut tables = Tables::dirty(long_enough(rng), rng);
    let before = tables.clone();
    let verdict = proved::check(job, &mut tables);
    match check(job) {
        Ok(accepted) => {
            same("verdict", verdict, (0, [accepted.entry as u64, accepted.effect]))?;
            let last = tables.words.types[verdict.1[0] as usize];
            same("kind", kind(last), Some(accepted.kind))?;
            let read = read(job).map_err(|refusal| format!("{refusal:?} on a second reading"))?;
            let words = words(&read, &accepted.types, &accepted.exprs);
            met.meet("accepted".to_string());
            met.meet(format!("accepted as {}", accepted.kind.word()));
            made(&read, &accepted).into_iter().for_each(|m| met.meet(format!("accepted, {m}")));
            same_tables("after acceptance", tables.differs(&before, &words, 8))?;
            compare_checked(&tables, &read, job, rng, met)?;
            Ok(true)
        }
        Err(refusal @ Refusal { number, place }) => {
            same("verdict", verdict, (number as u64, [place as u64, 0]))?;
            met.meet(format!("refused {number:2}"));
            let at = ["Look", "Divide", "Spawn", "at 40", "at 41", "at 42"];
            let told = |words: &String| at.iter().any(|at| words.contains(at));
            refused_at(job, refusal).into_iter().filter(told).for_each(|words| met.meet(words));
            same_tables("after a refusal", tables.differs(&before, &Words::default(), 8))?;
            Ok(false)
        }
    }
}

/// A check with a table that is too short.
fn compare_short(job: &[u8], rng: &mut Rng, met: &mut Met) -> Result<(), String> {
    let mut tables = Tables::dirty(too_short(rng, 8), rng);
    let before = tables.clone();
    same("check with a short table", proved::check(job, &mut tables), (1, [0, 0]))?;
    met.meet("refused  1".to_string());
    same_tables("check", tables.differs(&before, &Words::default(), 0))
}
