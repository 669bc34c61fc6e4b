//! The parts of statements: names, sets, types, operands and expressions, to numbers.

use second::job::{EXPRESSIONS, VARIABLES};

use super::{Assembler, Bound, Meaning};
use crate::commands::{Form, Operand, ROWS, Row, Section, bare, by_word};
use crate::decode::{Arg, encode, keys};
use crate::parse::{Term, TermKind, Word};
use crate::problem::{Span, nearest};
use crate::usage::{bracketed, lacking, unknown, usage};

impl Assembler {
    pub(super) fn number(&mut self, word: &str, span: Span) -> Option<u64> {
        match word.parse::<u32>() {
            Ok(number) if !word.starts_with('+') => Some(number as u64),
            _ if is_number(word) => self.wrong(span, format!("{word} is above {}", u32::MAX)),
            _ => self.wrong(span, format!("wanted a decimal number, found `{word}`")),
        }
    }

    pub(super) fn name_number(&mut self, word: &str, span: Span) -> Option<u8> {
        match (word, self.names.get(word)) {
            ("none", _) => Some(0),
            ("top", _) => Some(1),
            (_, Some(&number)) => Some(number),
            _ => {
                let known = self.names.keys().map(String::as_str).chain(["none", "top"]);
                let words = unknown("name", word, nearest(word, known));
                self.wrong(span, words)
            }
        }
    }

    fn name_term(&mut self, term: &Term) -> Option<u8> {
        match &term.kind {
            TermKind::Word(word) => self.name_number(word, term.span),
            _ => self.wrong(term.span, "wanted a name"),
        }
    }

    fn set(&mut self, term: &Term) -> Option<u64> {
        let TermKind::Set(names) = &term.kind else {
            return self.wrong(term.span, "wanted a set of names, as `{depot agency}` or `{}`");
        };
        let mut set = 0;
        for name in names {
            let bit = 1u64.checked_shl(self.name_term(name)? as u32).unwrap_or(0);
            if set & bit != 0 {
                return self.wrong(name.span, "this name stands twice in the set");
            }
            set |= bit;
        }
        Some(set)
    }

    /// A type: the number of a declared one. One that is written out is declared, once if `own` is
    /// false and an equal one is there.
    pub(super) fn ty(&mut self, term: &Term, own: bool) -> Option<u16> {
        let (row, operands) = match &term.kind {
            TermKind::Type(inner) => return self.ty(inner, own),
            TermKind::Word(word) => match (self.types.get(word), by_word(Section::Types, word)) {
                (Some(&ty), _) => return Some(ty),
                (_, Some(row)) if row.operands.len() > 1 => {
                    return self.wrong(term.span, bracketed(row));
                }
                (_, Some(row)) => (row, &[][..]),
                _ => return self.no_type(word, term.span),
            },
            TermKind::List(terms) => self.head(Section::Types, terms, term.span)?,
            _ => return self.wrong(term.span, "wanted a type"),
        };
        let args = self.operands(row, operands, term.span, &[])?;
        let bytes = encode(row, &args);
        let next = self.section(Section::Types).len() as u16;
        if !own && let Some(&ty) = self.declared.get(&bytes) {
            return Some(ty);
        }
        self.declared.entry(bytes.clone()).or_insert(next);
        self.section(Section::Types).push((bytes, term.span));
        Some(next)
    }

    fn no_type(&mut self, word: &str, span: Span) -> Option<u16> {
        let known = self.types.keys().map(String::as_str);
        let words = match self.names.contains_key(word) {
            true => format!("`{word}` is a name, no type; the key of a type is written `@{word}`"),
            false => unknown("type", word, nearest(word, known)),
        };
        self.wrong(span, words)
    }

    /// The row of a list's first word, and the operands behind it.
    fn head<'t>(
        &mut self,
        section: Section,
        terms: &'t [Term],
        span: Span,
    ) -> Option<(&'static Row, &'t [Term])> {
        let what = if section == Section::Types { "type" } else { "command" };
        let Some((Term { span, kind: TermKind::Word(word) }, operands)) = terms.split_first()
        else {
            return self.wrong(span, format!("wanted the word of a {what} after `(`"));
        };
        match by_word(section, word).filter(|row| row.form != Form::Bare) {
            Some(row) => Some((row, operands)),
            None => {
                let rows = ROWS.iter().filter(|row| row.section == section);
                let known = rows.filter(|row| row.form != Form::Bare).map(|row| row.word);
                let words = unknown(what, word, nearest(word, known));
                self.wrong(*span, words)
            }
        }
    }

    /// The operands of a row, in the order of the bytes. `done` holds expressions that are there.
    pub(super) fn operands(
        &mut self,
        row: &Row,
        terms: &[Term],
        span: Span,
        done: &[u16],
    ) -> Option<Vec<Arg>> {
        let mut args: Vec<Arg> = row.operands.iter().map(|&operand| fixed(operand)).collect();
        let mut terms = terms.iter().peekable();
        let mut done = done.iter();
        let (mut whole, mut bound) = (true, None);
        let body = row.operands.iter().rposition(|operand| matches!(operand, Operand::Expr(_)));
        for place in row.written() {
            let operand = row.operands[place];
            let outer = self.scope.len();
            if Some(place) == body {
                self.scope.extend(bound.take());
            }
            let arg = match (operand, done.len()) {
                (Operand::Expr(_), 1..) => done.next().map(|&expr| Arg::One(expr as u64)),
                (Operand::Key, _) if !terms.peek().is_some_and(|term| is_key(term)) => continue,
                (Operand::Type, _) if self.unmarked(row, terms.peek().copied(), span) => None,
                _ => match terms.next() {
                    Some(term) => self.operand(operand, term, &mut bound),
                    None => self.wrong(span, lacking(row, operand)),
                },
            };
            self.scope.truncate(outer);
            whole &= arg.is_some();
            args[place] = arg.unwrap_or(Arg::One(0));
        }
        match terms.next() {
            Some(term) if whole => {
                self.wrong(term.span, format!("too much for `{}`: {}", row.word, usage(row)))
            }
            _ => whole.then_some(args),
        }
    }

    /// Tells where an expression's type lacks its `:`, and whether it lacks the type too.
    fn unmarked(&mut self, row: &Row, next: Option<&Term>, span: Span) -> bool {
        let marked = matches!(next, Some(Term { kind: TermKind::Type(_), .. }));
        if row.section != Section::Expressions || marked {
            return false;
        }
        let at = next.map_or(span, |term| term.span);
        self.wrong::<()>(at, format!("wanted `:` and a type: {}", usage(row)));
        match next.map(|term| &term.kind) {
            Some(TermKind::Word(word)) => !self.types.contains_key(word),
            _ => true,
        }
    }

    /// One operand. A variable that it binds goes to `bound`.
    fn operand(&mut self, operand: Operand, term: &Term, bound: &mut Option<Bound>) -> Option<Arg> {
        Some(match (operand, &term.kind) {
            (Operand::Keys, TermKind::Keys(terms)) => self.keys(terms, term.span)?,
            (Operand::Keys, _) => {
                return self.wrong(term.span, "wanted the limit keys, as `[key ..]` or `[]`");
            }
            (Operand::Key, TermKind::Key(name)) => Arg::One(self.name_term(name)? as u64),
            (Operand::Bound, _) => {
                let (symbol, number) = self.bind(term)?;
                *bound = Some((symbol, number));
                Arg::One(number as u64)
            }
            (Operand::Set, _) => Arg::One(self.set(term)?),
            (Operand::Type, _) => Arg::One(self.ty(term, false)? as u64),
            (Operand::Expr(_), TermKind::Type(_)) => {
                return self.wrong(term.span, "a type stands where an expression is wanted");
            }
            (Operand::Expr(_), _) => Arg::One(self.expr(term)? as u64),
            (Operand::Number, TermKind::Word(word)) => Arg::One(self.number(word, term.span)?),
            _ => Arg::One(self.name_term(term)? as u64),
        })
    }

    fn keys(&mut self, terms: &[Term], span: Span) -> Option<Arg> {
        let exprs: Vec<Option<u16>> = terms.iter().map(|term| self.expr(term)).collect();
        if exprs.len() > 4 {
            return self.wrong(span, "a limit has at most 4 keys");
        }
        exprs.into_iter().collect::<Option<Vec<u16>>>().map(|exprs| keys(&exprs))
    }

    /// Binds a variable: the number that a `variable` statement gives, else the next free one.
    fn bind(&mut self, term: &Term) -> Option<Bound> {
        let TermKind::Word(text) = &term.kind else {
            return self.wrong(term.span, "wanted a symbol for the variable that is bound");
        };
        let symbol = Word { span: term.span, text: text.clone() };
        self.free(&symbol, false);
        let next = || (self.values..VARIABLES).find(|v| self.taken >> v & 1 == 0);
        let Some(number) = self.fixed.get(text).copied().or_else(|| next().map(|v| v as u8)) else {
            return self.wrong(term.span, format!("a job has at most {VARIABLES} variables"));
        };
        self.taken |= 1 << number;
        self.symbols.variables.insert(number, text.clone());
        Some((text.clone(), number))
    }

    /// An expression: its number.
    pub(super) fn expr(&mut self, term: &Term) -> Option<u16> {
        match &term.kind {
            TermKind::Word(word) => self.word(word, term.span),
            TermKind::List(terms) => {
                let (row, operands) = self.head(Section::Expressions, terms, term.span)?;
                match row.form {
                    Form::Chain if operands.len() > 2 => self.chain(row, operands, term.span),
                    _ => {
                        let args = self.operands(row, operands, term.span, &[])?;
                        self.push(row, &args, term.span)
                    }
                }
            }
            _ => self.wrong(term.span, "wanted an expression"),
        }
    }

    /// More than two operands, grouped from the left.
    fn chain(&mut self, row: &'static Row, terms: &[Term], span: Span) -> Option<u16> {
        let first = self.operands(row, &terms[..2], span, &[]);
        let mut left = first.and_then(|args| self.push(row, &args, span));
        for term in &terms[2..] {
            let args = self.operands(row, std::slice::from_ref(term), span, &[left.unwrap_or(0)]);
            left = left.and(args).and_then(|args| self.push(row, &args, span));
        }
        left
    }

    /// A number, a variable, the symbol of a `let`, or a command without operands.
    fn word(&mut self, word: &str, span: Span) -> Option<u16> {
        if is_number(word) {
            let number = self.number(word, span)?;
            return self.push(bare(Operand::Number), &[Arg::One(number)], span);
        }
        let bound = self.scope.iter().rev().find(|(symbol, _)| symbol == word);
        let meaning = bound.map(|&(_, number)| Meaning::Variable(number));
        match meaning.or_else(|| self.meanings.get(word).copied()) {
            Some(Meaning::Expr(expr)) => return Some(expr),
            Some(Meaning::Variable(number)) => {
                return self.push(bare(Operand::Variable), &[Arg::One(number as u64)], span);
            }
            None => {}
        }
        match by_word(Section::Expressions, word).filter(|row| row.form != Form::Bare) {
            Some(row) if !row.operands.is_empty() => self.wrong(span, bracketed(row)),
            Some(row) => self.push(row, &[], span),
            None => self.no_variable(word, span),
        }
    }

    fn no_variable(&mut self, word: &str, span: Span) -> Option<u16> {
        let bound = self.symbols.variables.values().any(|symbol| symbol == word);
        if bound {
            return self.wrong(span, format!("`{word}` is not bound here"));
        }
        let scope = self.scope.iter().map(|(symbol, _)| symbol.as_str());
        let known = self.meanings.keys().map(String::as_str).chain(scope);
        let words = unknown("variable or expression", word, nearest(word, known));
        self.wrong(span, words)
    }

    fn push(&mut self, row: &Row, args: &[Arg], span: Span) -> Option<u16> {
        let number = self.section(Section::Expressions).len();
        if number == EXPRESSIONS {
            self.wrong::<()>(span, format!("a job has at most {EXPRESSIONS} expressions"));
        }
        self.section(Section::Expressions).push((encode(row, args), span));
        self.symbols.places.insert(number as u16, span);
        Some(number as u16)
    }
}

fn is_key(term: &Term) -> bool {
    matches!(term.kind, TermKind::Key(_))
}

/// An operand's value before it is written.
fn fixed(operand: Operand) -> Arg {
    match operand {
        Operand::Fixed(byte) => Arg::One(byte as u64),
        _ => Arg::One(0),
    }
}

fn is_number(word: &str) -> bool {
    word.bytes().all(|byte| byte.is_ascii_digit())
}
