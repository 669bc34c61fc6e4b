//! Symbols for the names, types, variables and expressions of a job: those of its text, or plain
//! ones made from their numbers.

use std::collections::HashMap;

use second::names::{Names, bits};

use crate::commands::{Section, by_byte};
use crate::decode::Listing;
use crate::problem::Span;

/// Symbols by number. Where a number has none, a plain one is made.
#[derive(Clone, Debug, Default)]
pub struct Symbols {
    pub names: HashMap<u8, String>,
    pub types: HashMap<u16, String>,
    pub variables: HashMap<u8, String>,
    pub exprs: HashMap<u16, String>,
    /// Where each expression stands in the text.
    pub places: HashMap<u16, Span>,
}

impl Symbols {
    /// The plain symbols of a job; a name's tells whether it is a host name.
    pub fn plain(listing: &Listing) -> Self {
        let word = |byte| by_byte(byte).next().map_or("name", |row| row.word);
        let name = |(at, byte): (usize, u8)| (at as u8 + 2, format!("{}{}", word(byte), at + 2));
        let bytes = listing.section(Section::Names).map(|command| command.row.byte);
        Symbols { names: bytes.enumerate().map(name).collect(), ..Symbols::default() }
    }

    pub fn name(&self, name: u64) -> String {
        match (name, self.names.get(&(name as u8))) {
            (0, _) => "none".to_string(),
            (1, _) => "top".to_string(),
            (2..64, Some(symbol)) => symbol.clone(),
            _ => format!("name{name}"),
        }
    }

    pub fn ty(&self, ty: u64) -> String {
        self.types.get(&(ty as u16)).cloned().unwrap_or_else(|| format!("t{ty}"))
    }

    pub fn variable(&self, variable: u64) -> String {
        self.variables.get(&(variable as u8)).cloned().unwrap_or_else(|| format!("v{variable}"))
    }

    pub fn expr(&self, expr: u16) -> String {
        self.exprs.get(&expr).cloned().unwrap_or_else(|| format!("e{expr}"))
    }

    /// A set of names.
    pub fn set(&self, set: u64) -> String {
        let names: Vec<String> = bits(set).map(|name| self.name(name as u64)).collect();
        format!("{{{}}}", names.join(" "))
    }

    /// The names of a set in a sentence.
    pub fn list(&self, set: u64) -> String {
        let names: Vec<String> = bits(set).map(|name| self.name(name as u64)).collect();
        match &names[..] {
            [] => "no name".to_string(),
            [one] => one.clone(),
            [front @ .., last] => format!("{} and {last}", front.join(", ")),
        }
    }

    /// A name with those above it.
    pub fn line(&self, names: &Names, name: u8) -> String {
        let mut line = self.name(name as u64);
        let mut at = name;
        while at > 1 {
            at = names.upper(at);
            line.push_str(&format!(" under {}", self.name(at as u64)));
        }
        line
    }
}
