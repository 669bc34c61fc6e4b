//! The proved check and machine for keyed jobs.
//!
//! [`Tables`] owns the work tables that the proved code is lent. A session checks a job and, if it is
//! accepted, runs it:
//!
//! ```
//! use jobdesk::{Answer, Call, Kind, Tables, Value};
//!
//! // A host cell that holds 7 and whose key is name 2; the job reads it.
//! let job = b"\x01\x01\x10\x00\x12\x02\0\0\x20\x01\0\x07\0\0\0\x21\x04\0\0\0\0\0\0\0\x32\0\x39\0\0\xFF";
//! let mut tables = Tables::new();
//!
//! let session = tables.session(job, &[Call::run_each(100_000)])?;
//! assert_eq!(session.accepted.effect(), 1 << 2);
//! assert_eq!(session.answers[0].answer, Answer::Done);
//! assert_eq!(session.value, Some(Value { kind: Kind::Number, data: 7 }));
//! # Ok::<(), jobdesk::Refusal>(())
//! ```
//!
//! A refusal is an error that says what is wrong and where:
//!
//! ```
//! let refusal = jobdesk::Tables::new().check(b"\x01\x01\x02").unwrap_err();
//! assert_eq!((refusal.number, refusal.place), (4, 2));
//! assert_eq!(refusal.to_string(), "refused 4 at byte 2: the input ends too soon");
//! ```
//!
//! A job is passed on as it was read and checked: its bytes are written from the tables.
//!
//! ```
//! # let job = b"\x01\x01\x10\x00\x12\x02\0\0\x20\x01\0\x07\0\0\0\x21\x04\0\0\0\0\0\0\0\x32\0\x39\0\0\xFF";
//! let mut tables = jobdesk::Tables::new();
//! let counts = tables.read(job)?;
//! let effect = tables.check(job)?.effect();
//! assert_eq!(effect, 1 << 2);
//!
//! let mut buffer = [0; jobdesk::BYTES];
//! let length = tables.write(&counts, &mut buffer)?;
//! assert_eq!(buffer[..length], job[..]);
//! # Ok::<(), jobdesk::Refusal>(())
//! ```
//!
//! [`sheet()`] gives the page for the wall file: a line for each host name.
#![deny(unsafe_code)]
#![warn(missing_docs)]

mod calls;
mod counts;
pub mod lent;
mod refusal;
mod sheet;
mod tables;

pub use calls::{ANSWER_WORDS, CALL_WORDS, ROOM_WORDS, THREADS};
pub use calls::{Answer, Answered, Call, Ran, Rooms};
pub use counts::Counts;
pub use refusal::{Place, Refusal};
pub use sheet::{SHEET_BYTES, Sheet, sheet};
pub use tables::{Accepted, BYTES, Kind, LENGTHS, Session, Tables, Value};
