//! The job desk: a reader, a writer, a checker and a machine for keyed jobs.
//!
//! ```
//! let job = second::from_hex("21 0000000000000000 30 05000000 FF").unwrap();
//! assert_eq!(second::desk(&job), "accepted 0000000000000000 number\ndone 1 number 5\n");
//! ```
#![forbid(unsafe_code)]
#![warn(missing_docs)]

pub mod allowances;
pub mod check;
pub mod code;
pub mod desk;
pub mod fields;
pub mod generate;
pub mod job;
pub mod machine;
pub mod names;
pub mod observe;
pub mod read;
pub mod sheet;
pub mod shown;
pub mod thread;
pub mod tree;
pub mod turns;
pub mod value;
pub mod verdict;
pub mod widths;
pub mod write;
pub mod written;

pub use check::{check, check_job};
pub use desk::desk;
pub use fields::Fields;
pub use job::{Expr, Job, Kind, Refusal, Shape, Type};
pub use machine::Machine;
pub use read::read;
pub use sheet::sheet;
pub use tree::tree;
pub use value::{Answer, Call, Outcome, Reply, Rooms, Run, Value};
pub use verdict::{Accepted, Typed};
pub use write::{bytes_of, write};

/// Bytes from hexadecimal digits; blanks are passed over.
pub fn from_hex(text: &str) -> Option<Vec<u8>> {
    let digits: Vec<u8> = text
        .chars()
        .filter(|c| !c.is_whitespace())
        .map(|c| c.to_digit(16).map(|digit| digit as u8))
        .collect::<Option<_>>()?;
    let (pairs, rest) = digits.as_chunks();
    rest.is_empty().then(|| pairs.iter().map(|[high, low]| high << 4 | low).collect())
}

/// Bytes as hexadecimal digits.
pub fn to_hex(bytes: &[u8]) -> String {
    bytes.iter().map(|byte| format!("{byte:02x}")).collect()
}
