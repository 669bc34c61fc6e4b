//! Bytes to text. Expressions nest where their numbers are those that nesting gives; the others
//! are `let` statements, so that every job has a text. What does not read stands as `raw` bytes.

use crate::commands::{Form, Operand, Row, Section};
use crate::conditions::reasons;
use crate::decode::{Arg, Command, Listing, decode};
use crate::layout::Node;
use crate::symbols::Symbols;

/// The depth at which nothing is left out.
const WHOLE: usize = usize::MAX;
/// The most operands that are shown where something may be left out.
const MOST: usize = 9;

/// The text of a job, and whether the whole of it reads.
pub fn dump(bytes: &[u8]) -> (String, bool) {
    let listing = decode(bytes);
    let symbols = Symbols::plain(&listing);
    let mut out = String::new();
    let tree = Tree::new(&listing, &symbols);
    declarations(&listing, &symbols, &mut out);
    tree.statements(&mut out);
    let whole = listing.is_whole(bytes);
    if !whole {
        rest(bytes, &listing, &symbols, &mut out);
    }
    (out, whole)
}

/// Names, types, host values and rights.
fn declarations(listing: &Listing, symbols: &Symbols, out: &mut String) {
    let (mut names, mut types, mut values) = (2, 0, 0);
    for command in &listing.commands {
        let text = match command.row.section {
            Section::Names => {
                names += 1;
                let upper = symbols.name(command.args[0].one());
                format!("{} {} under {upper}", command.row.word, symbols.name(names - 1))
            }
            Section::Types => {
                types += 1;
                let node = type_node(command, symbols);
                format!("type {} = {}", symbols.ty(types - 1), node.flat())
            }
            Section::Values => {
                values += 1;
                let ty = symbols.ty(command.args[0].one());
                let number = match command.args[1].one() {
                    0 if !is_cell(listing, command) => String::new(),
                    number => format!(" = {number}"),
                };
                format!("value {} : {ty}{number}", symbols.variable(values - 1))
            }
            Section::Rights => {
                let sets: Vec<String> =
                    command.args.iter().map(|set| symbols.set(set.one())).collect();
                format!("{} {}", command.row.word, sets.join(" "))
            }
            Section::Expressions | Section::End => continue,
        };
        out.push_str(&text);
        out.push('\n');
    }
}

fn is_cell(listing: &Listing, command: &Command) -> bool {
    let ty = listing.job.types.get(command.args[0].one() as usize);
    ty.is_some_and(|ty| ty.kind() == second::Kind::Cell)
}

/// A type as it is declared.
fn type_node(command: &Command, symbols: &Symbols) -> Node {
    let mut items = vec![Node::word(command.row.word)];
    for place in command.row.written() {
        let value = command.args[place].one();
        match command.row.operands[place] {
            Operand::Key if value == 0 => {}
            Operand::Key => items.push(Node::word(format!("@{}", symbols.name(value)))),
            Operand::Type => items.push(Node::word(symbols.ty(value))),
            Operand::Set => items.push(Node::word(symbols.set(value))),
            _ => items.push(Node::word(symbols.name(value))),
        }
    }
    match items.len() {
        1 => items.remove(0),
        _ => Node::list(items),
    }
}

/// The bytes that do not read, under the refusal.
fn rest(bytes: &[u8], listing: &Listing, symbols: &Symbols, out: &mut String) {
    if listing.section(Section::End).next().is_some() {
        out.push_str("end\n");
    }
    if let Some(refusal) = listing.refusal {
        out.push_str(&format!("# refused {} at {}\n", refusal.number, refusal.place));
    }
    for reason in reasons(bytes, listing, symbols) {
        out.push_str(&format!("# {reason}\n"));
    }
    let rest = &bytes[listing.rest..];
    if rest.is_empty() {
        out.push_str("raw\n");
    }
    for line in rest.chunks(16) {
        let digits: Vec<String> = line.iter().map(|byte| format!("{byte:02X}")).collect();
        out.push_str(&format!("raw {}\n", digits.join(" ")));
    }
}

/// The expressions of a job, and which operands nest.
pub struct Tree<'a> {
    exprs: Vec<Command>,
    listing: &'a Listing,
    symbols: &'a Symbols,
    /// Whether the expression nests in the one that uses it.
    nested: Vec<bool>,
}

impl<'a> Tree<'a> {
    pub fn new(listing: &'a Listing, symbols: &'a Symbols) -> Self {
        let exprs = listing.exprs();
        let mut uses = vec![0; exprs.len()];
        exprs.iter().flat_map(Command::exprs).for_each(|expr| uses[expr as usize] += 1);
        // For each expression, the lowest number among what nests in it.
        let mut start: Vec<usize> = (0..exprs.len()).collect();
        let mut nested = vec![false; exprs.len()];
        for (number, expr) in exprs.iter().enumerate() {
            for operand in expr.exprs().into_iter().rev() {
                let operand = operand as usize;
                if operand + 1 == start[number] && uses[operand] == 1 {
                    start[number] = start[operand];
                    nested[operand] = true;
                }
            }
        }
        Tree { exprs, listing, symbols, nested }
    }

    /// The expressions that stand as statements, in order.
    fn roots(&self) -> Vec<usize> {
        (0..self.exprs.len()).filter(|&number| !self.nested[number]).collect()
    }

    /// `variable`, `let` and `job` statements.
    fn statements(&self, out: &mut String) {
        let roots = self.roots();
        if !self.plain(&roots) {
            for v in self.variables() {
                out.push_str(&format!("variable {} = {v}\n", self.symbols.variable(v)));
            }
        }
        let whole = self.listing.section(Section::End).next().is_some();
        for &root in &roots {
            let last = whole && root + 1 == self.exprs.len();
            let head = match last {
                true => "job ".to_string(),
                false => format!("let {} = ", self.symbols.expr(root as u16)),
            };
            let text = self.node(root, WHOLE).lines(0, head.len());
            out.push_str(&format!("{}{head}{text}\n", if last { "\n" } else { "" }));
        }
    }

    /// The variables beside the host values, ascending.
    fn variables(&self) -> Vec<u64> {
        let is_one = |operand| matches!(operand, Operand::Bound | Operand::Variable);
        let all = self.exprs.iter().filter_map(|expr| expr.first(is_one));
        let mut variables: Vec<u64> = all.filter(|&v| v >= self.listing.values() as u64).collect();
        variables.sort();
        variables.dedup();
        variables
    }

    /// Whether the numbers of variables are those that their places in the text give.
    fn plain(&self, roots: &[usize]) -> bool {
        let mut next = self.listing.values() as u64;
        roots.iter().all(|&root| self.plain_in(root, &mut Vec::new(), &mut next))
    }

    fn plain_in(&self, number: usize, scope: &mut Vec<u64>, next: &mut u64) -> bool {
        let expr = &self.exprs[number];
        let operands = expr.row.operands;
        let body = operands.iter().rposition(|operand| matches!(operand, Operand::Expr(_)));
        let mut bound = None;
        expr.row.written().into_iter().all(|place| {
            let value = expr.args[place].one();
            let outer = scope.len();
            let plain = match operands[place] {
                Operand::Bound => {
                    bound = Some(value);
                    *next += 1;
                    value + 1 == *next
                }
                Operand::Variable => value < self.listing.values() as u64 || scope.contains(&value),
                operand => {
                    scope.extend(bound.filter(|_| Some(place) == body));
                    let exprs = expr.args[place].exprs(operand);
                    let mut nested = exprs.iter().filter(|&&expr| self.nested[expr as usize]);
                    nested.all(|&expr| self.plain_in(expr as usize, scope, next))
                }
            };
            scope.truncate(outer);
            plain
        })
    }

    /// An expression down to some depth.
    pub fn node(&self, number: usize, depth: usize) -> Node {
        let expr = &self.exprs[number];
        if expr.row.form == Form::Bare {
            let value = expr.args[0].one();
            return Node::word(match expr.row.operands[0] {
                Operand::Variable => self.symbols.variable(value),
                _ => value.to_string(),
            });
        }
        if depth == 0 {
            return Node::word(format!("({} ..)", expr.row.word));
        }
        let mut items = vec![Node::word(expr.row.word)];
        self.items(number, depth, &mut items);
        if depth != WHOLE && items.len() > MOST {
            items.truncate(MOST);
            items.push(Node::word(".."));
        }
        match items.len() {
            1 => items.remove(0),
            _ => Node::list(items),
        }
    }

    /// The operands of an expression; a chain's first operand is taken apart.
    fn items(&self, number: usize, depth: usize, items: &mut Vec<Node>) {
        let expr = &self.exprs[number];
        for place in expr.row.written() {
            let operand = expr.row.operands[place];
            let arg = &expr.args[place];
            match self.chained(expr.row, items.len(), arg) {
                Some(first) => self.items(first, depth, items),
                None => items.push(self.operand(operand, arg, depth)),
            }
        }
    }

    /// The first operand, if it nests and is of the same row, and the row chains.
    fn chained(&self, row: &Row, at: usize, arg: &Arg) -> Option<usize> {
        let first = arg.one() as usize;
        let chains = row.form == Form::Chain && at == 1 && self.nested[first];
        (chains && std::ptr::eq(self.exprs[first].row, row)).then_some(first)
    }

    fn operand(&self, operand: Operand, arg: &Arg, depth: usize) -> Node {
        let value = arg.one();
        let one = |&expr: &u16| match self.nested[expr as usize] {
            true => self.node(expr as usize, depth.saturating_sub((depth != WHOLE) as usize)),
            false => Node::word(self.symbols.expr(expr)),
        };
        let exprs = arg.exprs(operand);
        match operand {
            Operand::Keys => Node::group('[', exprs.iter().map(one).collect(), ']'),
            Operand::Expr(_) => one(&exprs[0]),
            Operand::Type => Node::word(format!(":{}", self.symbols.ty(value))),
            Operand::Bound | Operand::Variable => Node::word(self.symbols.variable(value)),
            Operand::Set => Node::word(self.symbols.set(value)),
            Operand::Number => Node::word(value.to_string()),
            _ => Node::word(self.symbols.name(value)),
        }
    }
}
