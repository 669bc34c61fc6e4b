//! Jobs as text: `assemble` text to bytes, `dump` bytes to text, `explain` the verdict in words, `sheet`
//! the page for the wall file.

#![forbid(unsafe_code)]

pub mod assemble;
pub mod commands;
pub mod conditions;
pub mod decode;
pub mod dump;
pub mod explain;
pub mod hex;
pub mod layout;
pub mod lexer;
pub mod opens;
pub mod parse;
pub mod problem;
pub mod scope;
pub mod sheet;
pub mod subtype;
pub mod symbols;
pub mod typing;
pub mod usage;
pub mod words;

pub use assemble::{Assembled, assemble};
pub use dump::dump;
pub use explain::{Explained, explain};
pub use sheet::sheet;

/// Whether a word is one of the language and so no symbol.
pub fn reserved(word: &str) -> bool {
    ["none", "top", "under"].contains(&word)
        || parse::is_keyword(word)
        || commands::ROWS.iter().any(|row| row.word == word)
}
