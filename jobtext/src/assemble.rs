//! Statements to bytes. Sections are put in order, symbols become numbers, and what nests is
//! numbered in the order in which it is worked out: operands first, from the left.

mod terms;

use std::collections::HashMap;

use second::job::VARIABLES;

use crate::commands::{Section, by_word};
use crate::conditions::reasons;
use crate::decode::{Arg, Listing, decode, encode};
use crate::parse::{Statement, Term, Word, parse};
use crate::problem::{Problem, Span};
use crate::reserved;
use crate::symbols::Symbols;

/// The bytes of a text.
#[derive(Clone, Debug)]
pub struct Assembled {
    pub bytes: Vec<u8>,
    pub symbols: Symbols,
}

/// A command and where it stands in the text.
type Made = (Vec<u8>, Span);
/// A bound variable: its symbol and number.
type Bound = (String, u8);

/// Assembles a text.
pub fn assemble(text: &str) -> Result<Assembled, Vec<Problem>> {
    let (statements, problems) = parse(text);
    let mut assembler = Assembler { problems, ..Assembler::default() };
    for statement in &statements {
        if let Statement::Value { .. } = statement {
            assembler.values += 1;
        }
    }
    statements.iter().for_each(|statement| assembler.statement(statement));
    assembler.finish()
}

/// What a symbol in an expression stands for.
#[derive(Clone, Copy)]
enum Meaning {
    Variable(u8),
    Expr(u16),
}

#[derive(Default)]
struct Assembler {
    problems: Vec<Problem>,
    /// The number of host values in the whole text.
    values: usize,
    sections: [Vec<Made>; 5],
    tail: Vec<Made>,
    names: HashMap<String, u8>,
    types: HashMap<String, u16>,
    meanings: HashMap<String, Meaning>,
    /// Variables that a `variable` statement numbers.
    fixed: HashMap<String, u8>,
    /// Bound variables around the current place, innermost last.
    scope: Vec<Bound>,
    taken: u64,
    declared: HashMap<Vec<u8>, u16>,
    symbols: Symbols,
    raw: bool,
    ended: bool,
    job: Option<Span>,
}

impl Assembler {
    fn wrong<T>(&mut self, span: Span, words: impl Into<String>) -> Option<T> {
        self.problems.push(Problem::new(span, words));
        None
    }

    fn section(&mut self, section: Section) -> &mut Vec<Made> {
        &mut self.sections[section as usize]
    }

    fn statement(&mut self, statement: &Statement) {
        if self.ended && !matches!(statement, Statement::Raw { .. }) {
            self.wrong::<()>(start(statement), "only `raw` may follow `end` or `raw`");
            return;
        }
        match statement {
            Statement::Name { keyword, symbol, upper } => self.name(keyword, symbol, upper),
            Statement::Type { symbol, term } => self.ty_statement(symbol, term),
            Statement::Value { symbol, term, number } => self.value(symbol, term, number.as_ref()),
            Statement::Rights { keyword, terms } => self.rights(keyword, terms),
            Statement::Variable { symbol, number } => self.variable(symbol, number),
            Statement::Let { symbol, term } => self.piece(symbol, term),
            Statement::Job { keyword, term } => self.job(keyword, term),
            Statement::End { keyword } => {
                self.tail.push((vec![0xFF], keyword.span));
                self.ended = true;
            }
            Statement::Raw { keyword, bytes } => self.raw(keyword, bytes),
        }
    }

    /// Whether a symbol may be declared.
    fn free(&mut self, symbol: &Word, known: bool) -> bool {
        let word = &symbol.text;
        let words = match word.chars().next() {
            _ if reserved(word) => format!("`{word}` is a word of the language, no symbol"),
            Some(first) if !first.is_alphabetic() && first != '_' => {
                format!("`{word}` is no symbol: a symbol begins with a letter")
            }
            _ if known => format!("`{word}` is declared already"),
            _ => return true,
        };
        self.wrong::<()>(symbol.span, words);
        false
    }

    fn name(&mut self, keyword: &Word, symbol: &Word, upper: &Word) {
        let known = self.names.contains_key(&symbol.text);
        self.free(symbol, known);
        let upper = self.name_number(&upper.text, upper.span).unwrap_or(1);
        let Some(row) = by_word(Section::Names, &keyword.text) else {
            return;
        };
        let made = (encode(row, &[Arg::One(upper as u64)]), keyword.span);
        self.section(Section::Names).push(made);
        let number = (self.section(Section::Names).len() + 1).min(255) as u8;
        self.names.entry(symbol.text.clone()).or_insert(number);
        self.symbols.names.insert(number, symbol.text.clone());
    }

    fn ty_statement(&mut self, symbol: &Word, term: &Term) {
        let known = self.types.contains_key(&symbol.text);
        let free = self.free(symbol, known);
        // A type that is wrong is still declared, so that its uses are not told as mistakes.
        let ty = self.ty(term, true).unwrap_or(0);
        if free {
            self.types.insert(symbol.text.clone(), ty);
            self.symbols.types.entry(ty).or_insert(symbol.text.clone());
        }
    }

    fn value(&mut self, symbol: &Word, term: &Term, number: Option<&Word>) {
        let known = self.meanings.contains_key(&symbol.text);
        let free = self.free(symbol, known);
        let ty = self.ty(term, false).unwrap_or(0);
        let number = number.and_then(|number| self.number(&number.text, number.span)).unwrap_or(0);
        let Some(row) = by_word(Section::Values, "value") else {
            return;
        };
        let made = (encode(row, &[Arg::One(ty as u64), Arg::One(number)]), symbol.span);
        let variable = self.section(Section::Values).len().min(255) as u8;
        self.section(Section::Values).push(made);
        if free {
            self.meanings.insert(symbol.text.clone(), Meaning::Variable(variable));
            self.symbols.variables.insert(variable, symbol.text.clone());
        }
    }

    fn rights(&mut self, keyword: &Word, terms: &[Term]) {
        if let Some((_, first)) = self.section(Section::Rights).first() {
            let words = format!("a second `{}`; the first is on line {}", keyword.text, first.line);
            self.wrong::<()>(keyword.span, words);
            return;
        }
        if let Some(row) = by_word(Section::Rights, &keyword.text) {
            let args = self.operands(row, terms, keyword.span, &[]).unwrap_or_default();
            self.section(Section::Rights).push((encode(row, &args), keyword.span));
        }
    }

    fn variable(&mut self, symbol: &Word, number: &Word) {
        let known = self.meanings.contains_key(&symbol.text);
        let free = self.free(symbol, known);
        let Some(value) = self.number(&number.text, number.span) else {
            return;
        };
        if value >= VARIABLES as u64 {
            let words = format!("variables are numbered from 0 to {}", VARIABLES - 1);
            self.wrong::<()>(number.span, words);
        } else if free {
            let value = value as u8;
            self.meanings.insert(symbol.text.clone(), Meaning::Variable(value));
            self.fixed.insert(symbol.text.clone(), value);
            self.taken |= 1 << value;
            self.symbols.variables.insert(value, symbol.text.clone());
        }
    }

    fn piece(&mut self, symbol: &Word, term: &Term) {
        let known = self.meanings.contains_key(&symbol.text);
        let free = self.free(symbol, known);
        self.after_job(symbol.span);
        let expr = self.expr(term).unwrap_or(0);
        if free {
            self.meanings.insert(symbol.text.clone(), Meaning::Expr(expr));
            self.symbols.exprs.insert(expr, symbol.text.clone());
        }
    }

    fn job(&mut self, keyword: &Word, term: &Term) {
        self.after_job(keyword.span);
        self.job = Some(keyword.span);
        let before = self.section(Section::Expressions).len();
        let made = self.expr(term).is_some();
        if made && self.section(Section::Expressions).len() == before {
            let words = "`job` needs an expression of its own, not the symbol of a `let`";
            self.wrong::<()>(term.span, words);
        }
    }

    fn after_job(&mut self, span: Span) {
        if let Some(job) = self.job {
            let words = format!("`job` on line {} is the last expression", job.line);
            self.wrong::<()>(span, words);
        }
    }

    fn raw(&mut self, keyword: &Word, bytes: &[Word]) {
        (self.raw, self.ended) = (true, true);
        let mut made = Vec::new();
        for byte in bytes {
            match u8::from_str_radix(&byte.text, 16) {
                Ok(value) if byte.text.len() == 2 => made.push(value),
                _ => {
                    let words = format!("`{}` is not two hexadecimal digits", byte.text);
                    self.wrong::<()>(byte.span, words);
                }
            }
        }
        self.tail.push((made, keyword.span));
    }

    /// Puts the sections together, and holds the bytes against the conditions of reading.
    fn finish(mut self) -> Result<Assembled, Vec<Problem>> {
        if !self.ended && self.problems.is_empty() {
            let end = Span { line: 1, column: 1, length: 1 };
            if self.section(Section::Rights).is_empty() {
                self.wrong::<()>(end, "the text has no `rights`; write `rights {}` for none");
            }
            if self.job.is_none() {
                self.wrong::<()>(end, "the text has no `job`");
            }
        }
        if !self.ended {
            self.tail.push((vec![0xFF], self.job.unwrap_or_default()));
        }
        let mut bytes = Vec::new();
        let mut places = Vec::new();
        for (command, span) in self.sections.iter().flatten().chain(&self.tail) {
            places.push((bytes.len(), *span));
            bytes.extend(command);
        }
        if self.problems.is_empty() && !self.raw {
            let listing = decode(&bytes);
            self.problems.extend(refused(&bytes, &listing, &self.symbols, &places));
        }
        self.problems.sort();
        self.problems.dedup();
        match self.problems.is_empty() {
            true => Ok(Assembled { bytes, symbols: self.symbols }),
            false => Err(self.problems),
        }
    }
}

/// What reading refuses, where it stands in the text.
fn refused(
    bytes: &[u8],
    listing: &Listing,
    symbols: &Symbols,
    places: &[(usize, Span)],
) -> Option<Problem> {
    let place = listing.refusal?.place as usize;
    let at = places.iter().rev().find(|(offset, _)| *offset <= place);
    let span = at.map_or(Span { line: 1, column: 1, length: 1 }, |(_, span)| *span);
    Some(Problem::new(span, reasons(bytes, listing, symbols).join("; ")))
}

/// Where a statement begins.
fn start(statement: &Statement) -> Span {
    match statement {
        Statement::Name { keyword, .. }
        | Statement::Rights { keyword, .. }
        | Statement::Job { keyword, .. }
        | Statement::End { keyword }
        | Statement::Raw { keyword, .. } => keyword.span,
        Statement::Type { symbol, .. }
        | Statement::Value { symbol, .. }
        | Statement::Variable { symbol, .. }
        | Statement::Let { symbol, .. } => symbol.span,
    }
}
