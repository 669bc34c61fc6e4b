//! The verdict on a job in words: what was wanted and what was found, or what the effect opens.

mod refused;

use second::names::bits;
use second::{Refusal, Typed};

use crate::commands::Effect;
use crate::decode::{Command, Listing, decode};
use crate::dump::Tree;
use crate::opens::Reach;
use crate::symbols::Symbols;
use crate::typing::{Typing, work_out};
use crate::words::type_words;

/// How deep an expression is shown.
const SHOWN: usize = 4;

/// A verdict in words.
#[derive(Clone, Debug)]
pub struct Explained {
    pub accepted: bool,
    pub text: String,
}

/// What each refusal means.
pub fn title(number: u32) -> &'static str {
    match number {
        2 => "A byte is no command.",
        3 => "A command stands outside its section.",
        4 => "The input ends too soon.",
        5 => "There is one entry more than a job may have.",
        6 => "An operand breaks a condition.",
        7 => "A byte follows the end of the job.",
        8 => "An expression is used twice, or not at all.",
        9 => "A variable or a name is bound twice.",
        10 => "A variable, or a name in a type, is out of scope.",
        11 => "An operand is of the wrong kind.",
        12 => "An operand's type is not a subtype of the one needed.",
        13 => "A limit's body uses keys outside the limit.",
        14 => "The job uses keys beyond its rights.",
        16 => "A thread's body has an effect.",
        _ => "The job is refused.",
    }
}

/// Explains the verdict on a job; with `all`, each expression's type and effect too.
pub fn explain(bytes: &[u8], symbols: Option<&Symbols>, all: bool) -> Explained {
    let listing = decode(bytes);
    let plain = Symbols::plain(&listing);
    let symbols = symbols.unwrap_or(&plain);
    let tree = Tree::new(&listing, symbols);
    let exprs = listing.exprs();
    let mut view = View { listing: &listing, symbols, tree, exprs, out: String::new() };
    if let Some(refusal) = listing.refusal {
        view.head(refusal);
        view.reading(bytes, refusal);
        return Explained { accepted: false, text: view.out };
    }
    if let Err(refusal) = second::tree(&listing.job) {
        view.head(refusal);
        view.in_tree(refusal);
        return Explained { accepted: false, text: view.out };
    }
    if !listing.is_whole(bytes) {
        view.line("A command of this job is not known here, so its verdict is not explained.");
        view.line(second::desk(bytes));
        return Explained { accepted: second::check(bytes).is_ok(), text: view.out };
    }
    let typing = work_out(&listing.job, &view.exprs);
    view.typing(&typing);
    if all {
        view.all(&typing);
    }
    Explained { accepted: typing.fault.is_none(), text: view.out }
}

struct View<'a> {
    listing: &'a Listing,
    symbols: &'a Symbols,
    tree: Tree<'a>,
    exprs: Vec<Command>,
    out: String,
}

impl View<'_> {
    fn line(&mut self, words: impl AsRef<str>) {
        self.out.push_str(words.as_ref());
        self.out.push('\n');
    }

    fn head(&mut self, refusal: Refusal) {
        self.line(format!("refused {} at {}", refusal.number, refusal.place));
        self.line(title(refusal.number));
    }

    /// The verdict of typing: 11 to 14 or 16, or accepted.
    fn typing(&mut self, typing: &Typing) {
        match &typing.fault {
            Some((number, fault)) => {
                self.head(Refusal { number: fault.number(), place: *number as u32 });
                self.fault(typing, *number, fault);
            }
            None => self.accepted(typing),
        }
    }

    /// An expression with its number, and its place in a text.
    fn expr(&mut self, number: usize) {
        let place = self.place(number);
        let word = self.exprs[number].row.word;
        let text = self.tree.node(number, SHOWN).lines(4, 4);
        self.line(format!("expression {number}, `{word}`{place}:\n    {text}"));
    }

    /// Where an expression stands in a text.
    fn place(&self, number: usize) -> String {
        match self.symbols.places.get(&(number as u16)) {
            Some(span) => format!(" (line {}, column {})", span.line, span.column),
            None => String::new(),
        }
    }

    /// An expression in a sentence.
    fn short(&self, number: usize) -> String {
        format!("expression {number}, {}", self.tree.node(number, 2).flat())
    }

    fn accepted(&mut self, typing: &Typing) {
        let Some(&Typed { entry, effect }) = typing.typed.last() else {
            return;
        };
        let kind = typing.table[entry as usize].kind();
        self.line(format!("accepted {effect:016x} {}", kind.word()));
        self.line(format!("gives:  {}", type_words(&typing.table, self.symbols, entry)));
        self.line(format!("effect: {}", self.symbols.set(effect)));
        let names = &self.listing.job.names;
        for name in bits(effect) {
            self.line(format!("    {}", self.symbols.line(names, name)));
        }
        let rights = self.listing.job.rights;
        self.line(format!("rights: {}", self.symbols.set(rights)));
        if !names.set_below(rights, effect) {
            self.line(format!("    {} would be enough", self.symbols.set(effect)));
        }
        let reach = Reach::new(&self.listing.job, &self.exprs, typing);
        self.out.push_str(&reach.asked(self.symbols));
        self.threads(&reach);
        self.out.push_str(&reach.cells(self.symbols));
    }

    /// The places that start threads, and what grant keys open to a thread.
    fn threads(&mut self, reach: &Reach) {
        let starts = |expr: &Command| matches!(expr.row.rule.effect, Effect::Thread(_));
        let all = 0..self.exprs.len();
        let places: Vec<usize> = all.filter(|&number| starts(&self.exprs[number])).collect();
        self.line(match places.len() {
            0 => return,
            1 => "threads: 1 place starts one".to_string(),
            several => format!("threads: {several} places start one"),
        });
        for number in places {
            let (place, text) = (self.place(number), self.tree.node(number, 3).flat());
            self.line(format!("    expression {number}{place}, {text}"));
        }
        let open = match reach.granted_names() {
            0 => ", and no grant key is lent".to_string(),
            names => {
                format!("; grant keys lent open to it what is below {}", self.symbols.list(names))
            }
        };
        self.line(format!("    a new thread has no key enabled{open}"));
    }

    /// Each expression's type and effect, as far as they were worked out.
    fn all(&mut self, typing: &Typing) {
        self.line("expressions (number, effect, type, text):");
        let row = |(number, &Typed { entry, effect }): (usize, &Typed)| {
            let ty = type_words(&typing.table, self.symbols, entry);
            (self.symbols.set(effect), ty, self.tree.node(number, 2).flat())
        };
        let rows: Vec<_> = typing.typed.iter().enumerate().map(row).collect();
        let widest = |column: fn(&(String, String, String)) -> &String| {
            rows.iter().map(|row| column(row).chars().count()).max().unwrap_or(0).min(40)
        };
        let (effects, types) = (widest(|row| &row.0), widest(|row| &row.1));
        for (number, (effect, ty, text)) in rows.iter().enumerate() {
            self.line(format!("{number:5}  {effect:effects$}  {ty:types$}  {text}"));
        }
    }
}
