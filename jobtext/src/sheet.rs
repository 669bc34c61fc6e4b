//! The sheet of a job for the wall file, with the symbol of each name.

use second::desk::refused;
use second::sheet::{Row, rows};

use crate::decode::decode;
use crate::symbols::Symbols;

/// The lines of the sheet program, each with its name's symbol behind two blanks, and whether the job
/// is accepted. Of a refused one the line is the desk's.
pub fn sheet(bytes: &[u8], symbols: Option<&Symbols>) -> (String, bool) {
    let plain = Symbols::plain(&decode(bytes));
    let symbols = symbols.unwrap_or(&plain);
    match rows(bytes) {
        Ok(rows) => {
            let line = |row: Row| format!("{row}  {}\n", symbols.name(row.name as u64));
            (rows.into_iter().map(line).collect(), true)
        }
        Err(refusal) => (refused(refusal), false),
    }
}
