//! The sheet of a job for the wall file.
#![forbid(unsafe_code)]

use std::fmt;

use crate::lent;
use crate::refusal::Refusal;

/// No sheet has more bytes than this: a line of 14 bytes for each of 62 names.
pub const SHEET_BYTES: usize = 868;

/// What the program `sheet` prints for a job: the sheet if it is accepted, else the desk program's line.
#[derive(Clone, Debug, PartialEq, Eq, Hash)]
pub struct Sheet {
    text: String,
    refusal: Option<Refusal>,
}

/// The sheet of a job for the wall file, as the program `sheet` prints it.
///
/// A sheet has a line for each host name of the job, ascending: its number, that of its upper name,
/// `yes` or `no `, and how many host cells carry exactly this name. `yes` says that the name is below
/// a name of the job's effect, or is one.
///
/// `no ` is no promise that such a cell stays closed. A grant key among the host values, or a command
/// 0x40 with a key that the rights lend, can open it all the same.
///
/// ```
/// // A host cell whose key is name 2; the job reads it.
/// let job = b"\x01\x01\x10\x00\x12\x02\0\0\x20\x01\0\x07\0\0\0\x21\x04\0\0\0\0\0\0\0\x32\0\x39\0\0\xFF";
/// let sheet = jobdesk::sheet(job);
/// assert_eq!(sheet.text(), " 2  1 yes   1\n");
/// assert_eq!(sheet.refusal(), None);
///
/// let sheet = jobdesk::sheet(&job[..29]);
/// assert_eq!(sheet.text(), "refused 4 at 29\n");
/// assert_eq!(sheet.refusal().map(|refusal| refusal.number), Some(4));
/// ```
pub fn sheet(job: &[u8]) -> Sheet {
    let (mut text, mut out) = ([0; SHEET_BYTES], [0; 2]);
    let number = lent::sheet(job, &mut text, &mut out);
    let length = SHEET_BYTES.min(out[0] as usize);
    Sheet {
        text: String::from_utf8_lossy(&text[..length]).into_owned(),
        refusal: (number != 0).then(|| Refusal::of(number, out[1])),
    }
}

impl Sheet {
    /// The text, with byte 0x0A at the end of each line. It is empty for an accepted job without host
    /// names.
    pub fn text(&self) -> &str {
        &self.text
    }

    /// The refusal, of 2 to 14 or 16, or none if the job is accepted.
    pub fn refusal(&self) -> Option<Refusal> {
        self.refusal
    }
}

impl fmt::Display for Sheet {
    fn fmt(&self, f: &mut fmt::Formatter) -> fmt::Result {
        f.write_str(&self.text)
    }
}
