//! The sheet: what is printed of a job's host names.

use std::fmt;

use crate::check::check_job;
use crate::desk::refused;
use crate::job::{HostValue, Job, Kind, Refusal};
use crate::names::bits;
use crate::read::read;
use crate::tree::tree;

/// A line of the sheet.
#[derive(Clone, Copy, Debug, PartialEq, Eq)]
pub struct Row {
    /// A host name.
    pub name: u8,
    /// Its upper name.
    pub upper: u8,
    /// Whether it is below a name of the job's effect.
    pub used: bool,
    /// How many host cells carry exactly this name.
    pub cells: usize,
}

impl fmt::Display for Row {
    fn fmt(&self, f: &mut fmt::Formatter) -> fmt::Result {
        let Row { name, upper, used, cells } = self;
        let used = if *used { "yes" } else { "no" };
        write!(f, "{name:>2} {upper:>2} {used:<3} {cells:>3}")
    }
}

/// The lines of a job's sheet, ascending.
pub fn rows(job: &[u8]) -> Result<Vec<Row>, Refusal> {
    let job = read(job)?;
    tree(&job)?;
    let effect = check_job(&job)?.effect;
    Ok(bits(job.names.host()).map(|name| row(&job, effect, name)).collect())
}

fn row(job: &Job, effect: u64, name: u8) -> Row {
    let carries = |host: &&HostValue| {
        let ty = job.types[host.ty as usize];
        ty.kind() == Kind::Cell && ty.key == name
    };
    Row {
        name,
        upper: job.names.upper(name),
        used: job.names.set_below(1 << name, effect),
        cells: job.hosts.iter().filter(carries).count(),
    }
}

/// What the sheet program prints for a job; for a refused one it is the desk's line.
pub fn sheet(job: &[u8]) -> String {
    match rows(job) {
        Ok(rows) => rows.iter().map(|row| format!("{row}\n")).collect(),
        Err(refusal) => refused(refusal),
    }
}
