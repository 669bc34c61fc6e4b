//! Tokens to statements. Each statement begins with a keyword, so after a mistake reading goes on
//! at the next keyword, and one text can show several mistakes at once.

use crate::commands::{ROWS, Section, by_word};
use crate::lexer::{Token, tokens};
use crate::problem::{Problem, Span, nearest};

/// How deep brackets may stand in brackets; no job needs more.
const DEEPEST: usize = 600;

/// A part of a statement.
#[derive(Clone, Debug)]
pub struct Term {
    pub span: Span,
    pub kind: TermKind,
}

/// What a part is.
#[derive(Clone, Debug)]
pub enum TermKind {
    Word(String),
    /// `( .. )`
    List(Vec<Term>),
    /// `[ .. ]`
    Keys(Vec<Term>),
    /// `{ .. }`
    Set(Vec<Term>),
    /// `@name`
    Key(Box<Term>),
    /// `:type`
    Type(Box<Term>),
}

/// A word of a text and where it stands.
#[derive(Clone, Debug)]
pub struct Word {
    pub span: Span,
    pub text: String,
}

/// A statement.
#[derive(Clone, Debug)]
pub enum Statement {
    /// `host SYMBOL under NAME`, `local SYMBOL under NAME`
    Name { keyword: Word, symbol: Word, upper: Word },
    /// `type SYMBOL = TYPE`
    Type { symbol: Word, term: Term },
    /// `value SYMBOL : TYPE = NUMBER`
    Value { symbol: Word, term: Term, number: Option<Word> },
    /// `rights SET`
    Rights { keyword: Word, terms: Vec<Term> },
    /// `variable SYMBOL = NUMBER`
    Variable { symbol: Word, number: Word },
    /// `let SYMBOL = EXPRESSION`
    Let { symbol: Word, term: Term },
    /// `job EXPRESSION`
    Job { keyword: Word, term: Term },
    /// `end`
    End { keyword: Word },
    /// `raw BYTE ..`
    Raw { keyword: Word, bytes: Vec<Word> },
}

/// The statements of a text, and what is wrong in it.
pub fn parse(text: &str) -> (Vec<Statement>, Vec<Problem>) {
    let (tokens, problems) = tokens(text);
    let mut parser = Parser { tokens, at: 0, problems };
    let mut statements = Vec::new();
    while parser.at < parser.tokens.len() {
        match parser.statement() {
            Some(statement) => statements.push(statement),
            None => parser.skip(),
        }
    }
    (statements, parser.problems)
}

/// Whether a word begins a statement.
pub fn is_keyword(word: &str) -> bool {
    ["type", "value", "variable", "let", "job", "end", "raw"].contains(&word)
        || [Section::Names, Section::Rights].iter().any(|&own| by_word(own, word).is_some())
}

/// Every keyword.
fn keywords() -> impl Iterator<Item = &'static str> {
    let rows = ROWS.iter().filter(|row| [Section::Names, Section::Rights].contains(&row.section));
    rows.map(|row| row.word).chain(["type", "value", "variable", "let", "job", "end", "raw"])
}

struct Parser {
    tokens: Vec<(Span, Token)>,
    at: usize,
    problems: Vec<Problem>,
}

impl Parser {
    fn peek(&self) -> Option<&(Span, Token)> {
        self.tokens.get(self.at)
    }

    /// The place of the next token, or just behind the last one.
    fn here(&self) -> Span {
        self.peek().map_or_else(|| self.behind(), |&(span, _)| span)
    }

    /// The place just behind the token before.
    fn behind(&self) -> Span {
        let before = self.at.min(self.tokens.len()).checked_sub(1).map(|at| self.tokens[at].0);
        before.map_or(Span { line: 1, column: 1, length: 1 }, |span| Span {
            column: span.column + span.length,
            length: 1,
            ..span
        })
    }

    fn wrong<T>(&mut self, span: Span, words: impl Into<String>) -> Option<T> {
        self.problems.push(Problem::new(span, words));
        None
    }

    /// Says what was wanted in place of the next token.
    fn wanted<T>(&mut self, what: &str) -> Option<T> {
        let found = match self.peek() {
            _ if self.line_ends() => "the end of the line".to_string(),
            Some((_, token)) => format!("`{}`", token.show()),
            None => "the end of the text".to_string(),
        };
        let here = if self.line_ends() { self.behind() } else { self.here() };
        self.wrong(here, format!("wanted {what}, found {found}"))
    }

    /// Whether the next token begins a statement on a later line.
    fn line_ends(&self) -> bool {
        let last = self.at.checked_sub(1).map(|at| self.tokens[at].0.line);
        self.keyword().is_some_and(|next| last.is_some_and(|last| last < next.span.line))
    }

    /// Goes on to the next keyword.
    fn skip(&mut self) {
        while self.at < self.tokens.len() && self.keyword().is_none() {
            self.at += 1;
        }
    }

    /// The keyword that comes next, if one does.
    fn keyword(&self) -> Option<Word> {
        match self.peek() {
            Some((span, Token::Word(word))) if is_keyword(word) => {
                Some(Word { span: *span, text: word.clone() })
            }
            _ => None,
        }
    }

    fn word(&mut self, what: &str) -> Option<Word> {
        match self.peek() {
            Some((span, Token::Word(word))) if !is_keyword(word) => {
                let word = Word { span: *span, text: word.clone() };
                self.at += 1;
                Some(word)
            }
            _ => self.wanted(what),
        }
    }

    fn is_mark(&self, mark: char) -> bool {
        matches!(self.peek(), Some((_, Token::Mark(found))) if *found == mark)
    }

    fn mark(&mut self, mark: char) -> Option<()> {
        if !self.is_mark(mark) {
            return self.wanted(&format!("`{mark}`"));
        }
        self.at += 1;
        Some(())
    }

    fn statement(&mut self) -> Option<Statement> {
        let Some(keyword) = self.keyword() else {
            return self.no_keyword();
        };
        self.at += 1;
        let statement = match keyword.text.as_str() {
            "type" => self
                .named("a symbol for the type")
                .map(|(symbol, term)| Statement::Type { symbol, term }),
            "let" => self
                .named("a symbol for the expression")
                .map(|(symbol, term)| Statement::Let { symbol, term }),
            "value" => self.value(),
            "variable" => self.variable(),
            "job" => self.term(0).map(|term| Statement::Job { keyword, term }),
            "end" => Some(Statement::End { keyword }),
            "raw" => Some(self.raw(keyword)),
            word if by_word(Section::Names, word).is_some() => self.name(keyword),
            _ => self.rights(keyword),
        }?;
        if self.at < self.tokens.len() && self.keyword().is_none() {
            self.no_keyword();
            self.skip();
        }
        Some(statement)
    }

    fn no_keyword(&mut self) -> Option<Statement> {
        let shown = self.peek().map(|(_, token)| token.show()).unwrap_or_default();
        let what = "wanted the next statement (host, local, type, value, rights, let, job ..)";
        let hint = match nearest(&shown, keywords()) {
            Some(near) => format!("; is it `{near}`?"),
            None => String::new(),
        };
        let here = self.here();
        self.wrong(here, format!("{what}, found `{shown}`{hint}"))
    }

    fn named(&mut self, what: &str) -> Option<(Word, Term)> {
        let symbol = self.word(what)?;
        self.mark('=')?;
        Some((symbol, self.term(0)?))
    }

    fn name(&mut self, keyword: Word) -> Option<Statement> {
        let symbol = self.word("a symbol for the name")?;
        let upper = self.upper().unwrap_or(Word { span: symbol.span, text: "top".to_string() });
        Some(Statement::Name { keyword, symbol, upper })
    }

    /// `under` and a name. The name is still declared where this is missing.
    fn upper(&mut self) -> Option<Word> {
        let under = self.word("`under` and the upper name")?;
        if under.text != "under" {
            return self.wrong(under.span, "wanted `under` and the upper name");
        }
        self.word("the upper name")
    }

    fn value(&mut self) -> Option<Statement> {
        let symbol = self.word("a symbol for the host value")?;
        self.mark(':')?;
        let term = self.term(0)?;
        let number = match self.is_mark('=') {
            true => {
                self.at += 1;
                Some(self.word("a number")?)
            }
            false => None,
        };
        Some(Statement::Value { symbol, term, number })
    }

    fn variable(&mut self) -> Option<Statement> {
        let symbol = self.word("a symbol for the variable")?;
        self.mark('=')?;
        Some(Statement::Variable { symbol, number: self.word("a number")? })
    }

    fn raw(&mut self, keyword: Word) -> Statement {
        let mut bytes = Vec::new();
        while let Some((span, Token::Word(word))) = self.peek()
            && self.keyword().is_none()
        {
            bytes.push(Word { span: *span, text: word.clone() });
            self.at += 1;
        }
        Statement::Raw { keyword, bytes }
    }

    fn rights(&mut self, keyword: Word) -> Option<Statement> {
        let mut terms = vec![self.term(0)?];
        while self.is_mark('{') {
            terms.push(self.term(0)?);
        }
        Some(Statement::Rights { keyword, terms })
    }

    fn term(&mut self, depth: usize) -> Option<Term> {
        let span = self.here();
        if depth > DEEPEST {
            return self.wrong(span, "brackets stand too deep in each other");
        }
        let kind = match self.peek() {
            Some((_, Token::Mark('('))) => TermKind::List(self.terms('(', ')', depth)?),
            Some((_, Token::Mark('['))) => TermKind::Keys(self.terms('[', ']', depth)?),
            Some((_, Token::Mark('{'))) => TermKind::Set(self.terms('{', '}', depth)?),
            Some((_, Token::Mark('@'))) => {
                self.at += 1;
                TermKind::Key(Box::new(self.term(depth + 1)?))
            }
            Some((_, Token::Mark(':'))) => {
                self.at += 1;
                TermKind::Type(Box::new(self.term(depth + 1)?))
            }
            _ => TermKind::Word(self.word("a word, a number or `(`")?.text),
        };
        Some(Term { span, kind })
    }

    fn terms(&mut self, open: char, close: char, depth: usize) -> Option<Vec<Term>> {
        let opened = self.here();
        self.at += 1;
        let mut terms = Vec::new();
        while !self.is_mark(close) {
            let Span { line, column, .. } = opened;
            match self.peek() {
                None => {
                    return self.wrong(opened, format!("`{open}` is not closed by `{close}`"));
                }
                Some(&(span, Token::Mark(other))) if ")]}=".contains(other) => {
                    let words = format!(
                        "wanted `{close}` for the `{open}` at {line}:{column}, found `{other}`"
                    );
                    return self.wrong(span, words);
                }
                _ if self.keyword().is_some() => {
                    let words = format!("`{open}` is not closed before the next statement");
                    return self.wrong(opened, words);
                }
                _ => terms.push(self.term(depth + 1)?),
            }
        }
        self.at += 1;
        Some(terms)
    }
}
