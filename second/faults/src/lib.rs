//! Single faults in the reader, the checker, the machine, the desk, the writer and the sheet of the
//! second implementation.
//!
//! A fault is a small edit of the source (`edits/`). The build makes a copy of each file that a
//! fault changes, with the change, and puts it in place of the part that it is a copy of. So the
//! source itself knows of no fault.
#![forbid(unsafe_code)]
#![warn(missing_docs)]

use second::observe::{Parts, Seen};
use second::{Call, Fields, Refusal};

/// What tells a fault from the faultless implementation.
#[derive(Clone, Copy, Debug, PartialEq, Eq)]
pub enum Told {
    /// What is seen of jobs.
    Jobs,
    /// The desk's lines of jobs.
    Lines,
    /// What is written of tables.
    Tables,
    /// The sheets of jobs.
    Sheets,
    /// What is seen of the jobs of the sweep, without a call.
    Sweep,
}

/// A fault, and the parts that a job goes through with it.
#[derive(Clone, Copy)]
pub struct Fault {
    /// Its number.
    pub number: u32,
    /// What it is.
    pub text: &'static str,
    /// What tells it.
    pub told: Told,
    /// Whether only a field that holds more than the proved code's words have room for tells it.
    pub wide: bool,
    parts: Parts,
}

impl Fault {
    /// What is seen of a job with the fault.
    pub fn observe(&self, job: &[u8], calls: &[Call]) -> Seen {
        self.parts.observe(job, calls)
    }

    /// The desk's lines of a job with the fault.
    pub fn desk(&self, job: &[u8]) -> String {
        (self.parts.desk)(job)
    }

    /// What writing tables gives with the fault.
    pub fn write(&self, fields: &Fields, room: usize) -> Result<Vec<u8>, Refusal> {
        (self.parts.write)(fields, room)
    }

    /// The sheet of a job with the fault.
    pub fn sheet(&self, job: &[u8]) -> String {
        (self.parts.sheet)(job)
    }
}

/// Every fault, by number.
pub static ALL: &[Fault] = &LIST;

include!(concat!(env!("OUT_DIR"), "/all.rs"));
