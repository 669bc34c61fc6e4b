//! The commands of a job, one a row: byte, word, operands, the order of the operands in text, and
//! for an expression its rule of typing. Reading, writing, dumping and explaining all go by these
//! rows, so a new command costs a row.

use second::Kind;

/// The sections of a job, in order.
#[derive(Clone, Copy, Debug, PartialEq, Eq, PartialOrd, Ord)]
pub enum Section {
    Names,
    Types,
    Values,
    Rights,
    Expressions,
    End,
}

/// What an operand is. Document 01's letter stands behind each.
#[derive(Clone, Copy, Debug, PartialEq, Eq)]
pub enum Operand {
    /// The upper name of a name that is declared (q).
    Upper,
    /// The name of a type's key (q): `@name` in text, left out where it is `none`.
    Key,
    /// The name that a limit or grant key stands for (r).
    Name,
    /// A local name that is bound (r).
    Local,
    /// A type (t): `:type` in text.
    Type,
    /// A number (n).
    Number,
    /// A set of names (s).
    Set,
    /// A variable that is bound (v).
    Bound,
    /// A variable that is used (v).
    Variable,
    /// An expression (e), and what it is to the command.
    Expr(&'static str),
    /// The count of keys and four expressions (c e e e e): `[key ..]` in text.
    Keys,
    /// A byte that tells two commands apart (op, i): part of the word in text.
    Fixed(u8),
}

impl Operand {
    /// The operand's bytes in a job.
    pub fn width(self) -> usize {
        match self {
            Operand::Type | Operand::Expr(_) => 2,
            Operand::Number => 4,
            Operand::Set => 8,
            Operand::Keys => 9,
            _ => 1,
        }
    }
}

/// What a touched operand must be (refusal 11).
#[derive(Clone, Copy, Debug)]
pub enum Want {
    Any,
    Kind(Kind),
    /// A limit key of the upper name of the local name that stands at this operand.
    LimitOfUpper(usize),
}

/// The type that an operand's type must be a subtype of (refusal 12).
#[derive(Clone, Copy, Debug)]
pub enum Target {
    /// The type that stands at this operand.
    Declared(usize),
    /// The content of the cell at this operand.
    Content(usize),
    /// The argument of the function at this operand.
    Argument(usize),
}

/// The effect, beside the operands' effects and what is touched.
#[derive(Clone, Copy, Debug)]
pub enum Effect {
    /// Nothing beside them.
    Join,
    /// The body's effect waits in the function's type.
    Later,
    /// Adds the effect in the type of the function at this operand.
    Calls(usize),
    /// The effect of the body must be below the names of the keys (refusal 13): keys, body.
    Within(usize, usize),
    /// The body's effect loses the names below the one that the key stands for: key, body.
    Drop(usize, usize),
    /// In the body's effect the local name becomes its upper name: name, body.
    Raise(usize, usize),
    /// The body runs in a thread, with no key enabled, so its effect must be empty (refusal 16).
    Thread(usize),
}

/// The type that an expression has. Numbers are operands.
#[derive(Clone, Copy, Debug)]
pub enum Gives {
    Number,
    TopKey,
    /// The type of a variable.
    Variable(usize),
    Pair(usize, usize),
    /// Part 1 or 2 of the pair at an operand.
    Part(usize, u8),
    /// A function: argument type, body.
    Function(usize, usize),
    /// What the function at this operand gives.
    Result(usize),
    /// A cell of the type at this operand.
    Cell(usize),
    Content(usize),
    Declared(usize),
    /// The type of another operand.
    Same(usize),
    /// The value's type with the limit key's name as its key: value, key.
    Rekeyed(usize, usize),
    /// A pair of two numbers; the number has an entry of its own.
    TwoNumbers,
}

/// The rule of typing of an expression.
#[derive(Clone, Copy, Debug)]
pub struct Rule {
    pub touch: &'static [(usize, Want)],
    pub need: &'static [(usize, Target)],
    pub effect: Effect,
    pub gives: Gives,
}

/// How an expression is written.
#[derive(Clone, Copy, Debug, PartialEq, Eq)]
pub enum Form {
    /// `(word operand ..)`, or the word alone where there are no operands.
    List,
    /// The same, and more than two operands group from the left.
    Chain,
    /// The operand alone.
    Bare,
}

/// A command.
#[derive(Clone, Copy, Debug)]
pub struct Row {
    pub byte: u8,
    pub word: &'static str,
    pub section: Section,
    /// In the order of the bytes.
    pub operands: &'static [Operand],
    /// The operands in the order of the text, where it is another one.
    pub order: &'static [usize],
    pub form: Form,
    pub rule: Rule,
}

impl Row {
    /// The bytes of the operands.
    pub fn width(&self) -> usize {
        self.operands.iter().map(|operand| operand.width()).sum()
    }

    /// The operands that are written, in the order of the text.
    pub fn written(&self) -> Vec<usize> {
        let all: Vec<usize> = match self.order {
            [] => (0..self.operands.len()).collect(),
            order => order.to_vec(),
        };
        all.into_iter().filter(|&i| !matches!(self.operands[i], Operand::Fixed(_))).collect()
    }

    /// The place of the first operand of a sort.
    pub fn place(&self, sort: impl Fn(Operand) -> bool) -> Option<usize> {
        self.operands.iter().position(|&operand| sort(operand))
    }
}

const JOINED: Rule = Rule { touch: &[], need: &[], effect: Effect::Join, gives: Gives::Number };

const EXPRESSION: Row = Row {
    byte: 0,
    word: "",
    section: Section::Expressions,
    operands: &[],
    order: &[],
    form: Form::List,
    rule: JOINED,
};

const fn declared(byte: u8, word: &'static str, own: Section, operands: &'static [Operand]) -> Row {
    Row { byte, word, section: own, operands, ..EXPRESSION }
}

const NUMBER: Want = Want::Kind(Kind::Number);
const LIMIT: Want = Want::Kind(Kind::Limit);
const GRANT: Want = Want::Kind(Kind::Grant);
const PAIR: Want = Want::Kind(Kind::Pair);
const CELL: Want = Want::Kind(Kind::Cell);
const FUNCTION: Want = Want::Kind(Kind::Function);

use Operand::*;

/// Every command.
pub static ROWS: &[Row] = &[
    declared(0x01, "host", Section::Names, &[Upper]),
    declared(0x02, "local", Section::Names, &[Upper]),
    declared(0x10, "number", Section::Types, &[Key]),
    declared(0x11, "pair", Section::Types, &[Key, Type, Type]),
    declared(0x12, "cell", Section::Types, &[Key, Type]),
    declared(0x13, "function", Section::Types, &[Key, Type, Type, Set]),
    declared(0x14, "limit-key", Section::Types, &[Key, Name]),
    declared(0x15, "grant-key", Section::Types, &[Key, Name]),
    declared(0x20, "value", Section::Values, &[Type, Number]),
    declared(0x21, "rights", Section::Rights, &[Set]),
    Row { byte: 0x30, word: "number", operands: &[Number], form: Form::Bare, ..EXPRESSION },
    Row {
        byte: 0x31,
        word: "top-key",
        rule: Rule { gives: Gives::TopKey, ..JOINED },
        ..EXPRESSION
    },
    Row {
        byte: 0x32,
        word: "variable",
        operands: &[Variable],
        form: Form::Bare,
        rule: Rule { gives: Gives::Variable(0), ..JOINED },
        ..EXPRESSION
    },
    Row {
        byte: 0x33,
        word: "pair",
        operands: &[Expr("first part"), Expr("second part")],
        rule: Rule { gives: Gives::Pair(0, 1), ..JOINED },
        ..EXPRESSION
    },
    Row {
        byte: 0x34,
        word: "first",
        operands: &[Expr("pair"), Fixed(1)],
        rule: Rule { touch: &[(0, PAIR)], gives: Gives::Part(0, 1), ..JOINED },
        ..EXPRESSION
    },
    Row {
        byte: 0x34,
        word: "second",
        operands: &[Expr("pair"), Fixed(2)],
        rule: Rule { touch: &[(0, PAIR)], gives: Gives::Part(0, 2), ..JOINED },
        ..EXPRESSION
    },
    Row {
        byte: 0x35,
        word: "function",
        operands: &[Bound, Type, Expr("body")],
        rule: Rule { effect: Effect::Later, gives: Gives::Function(1, 2), ..JOINED },
        ..EXPRESSION
    },
    Row {
        byte: 0x36,
        word: "apply",
        operands: &[Expr("function"), Expr("argument")],
        rule: Rule {
            touch: &[(0, FUNCTION)],
            need: &[(1, Target::Argument(0))],
            effect: Effect::Calls(0),
            gives: Gives::Result(0),
        },
        ..EXPRESSION
    },
    Row {
        byte: 0x37,
        word: "new-cell",
        operands: &[Type, Expr("content")],
        rule: Rule { need: &[(1, Target::Declared(0))], gives: Gives::Cell(0), ..JOINED },
        ..EXPRESSION
    },
    Row {
        byte: 0x38,
        word: "assign",
        operands: &[Expr("cell"), Expr("value")],
        rule: Rule {
            touch: &[(0, CELL)],
            need: &[(1, Target::Content(0))],
            gives: Gives::Content(0),
            ..JOINED
        },
        ..EXPRESSION
    },
    Row {
        byte: 0x39,
        word: "read",
        operands: &[Expr("cell")],
        rule: Rule { touch: &[(0, CELL)], gives: Gives::Content(0), ..JOINED },
        ..EXPRESSION
    },
    Row {
        byte: 0x3A,
        word: "sum",
        operands: &[Fixed(0), Expr("first number"), Expr("second number")],
        form: Form::Chain,
        rule: Rule { touch: &[(1, NUMBER), (2, NUMBER)], ..JOINED },
        ..EXPRESSION
    },
    Row {
        byte: 0x3A,
        word: "difference",
        operands: &[Fixed(1), Expr("first number"), Expr("second number")],
        form: Form::Chain,
        rule: Rule { touch: &[(1, NUMBER), (2, NUMBER)], ..JOINED },
        ..EXPRESSION
    },
    Row {
        byte: 0x3B,
        word: "test",
        operands: &[
            Expr("number tested"),
            Expr("branch if not zero"),
            Expr("branch if zero"),
            Type,
        ],
        order: &[3, 0, 1, 2],
        rule: Rule {
            touch: &[(0, NUMBER)],
            need: &[(1, Target::Declared(3)), (2, Target::Declared(3))],
            gives: Gives::Declared(3),
            ..JOINED
        },
        ..EXPRESSION
    },
    Row {
        byte: 0x3C,
        word: "limit",
        operands: &[Keys, Expr("body")],
        rule: Rule {
            touch: &[(0, LIMIT)],
            effect: Effect::Within(0, 1),
            gives: Gives::Same(1),
            ..JOINED
        },
        ..EXPRESSION
    },
    Row {
        byte: 0x3D,
        word: "grant",
        operands: &[Expr("grant key"), Expr("body")],
        rule: Rule {
            touch: &[(0, GRANT)],
            effect: Effect::Drop(0, 1),
            gives: Gives::Same(1),
            ..JOINED
        },
        ..EXPRESSION
    },
    Row {
        byte: 0x3E,
        word: "new-key",
        operands: &[Bound, Local, Expr("limit key above"), Expr("body"), Type],
        order: &[0, 1, 4, 2, 3],
        rule: Rule {
            touch: &[(2, Want::LimitOfUpper(1))],
            need: &[(3, Target::Declared(4))],
            effect: Effect::Raise(1, 3),
            gives: Gives::Declared(4),
        },
        ..EXPRESSION
    },
    Row {
        byte: 0x3F,
        word: "associate",
        operands: &[Expr("value"), Expr("limit key")],
        rule: Rule { touch: &[(0, Want::Any), (1, LIMIT)], gives: Gives::Rekeyed(0, 1), ..JOINED },
        ..EXPRESSION
    },
    Row {
        byte: 0x40,
        word: "if-enabled",
        operands: &[
            Expr("limit key"),
            Expr("branch if enabled"),
            Expr("branch if not enabled"),
            Type,
        ],
        order: &[3, 0, 1, 2],
        rule: Rule {
            touch: &[(0, LIMIT)],
            need: &[(1, Target::Declared(3)), (2, Target::Declared(3))],
            effect: Effect::Drop(0, 1),
            gives: Gives::Declared(3),
        },
        ..EXPRESSION
    },
    Row {
        byte: 0x41,
        word: "divide",
        operands: &[Expr("dividend"), Expr("divisor")],
        rule: Rule { touch: &[(0, NUMBER), (1, NUMBER)], gives: Gives::TwoNumbers, ..JOINED },
        ..EXPRESSION
    },
    Row {
        byte: 0x42,
        word: "spawn",
        operands: &[Expr("body")],
        rule: Rule { effect: Effect::Thread(0), ..JOINED },
        ..EXPRESSION
    },
    declared(0xFF, "end", Section::End, &[]),
];

/// The row of a word in a section.
pub fn by_word(section: Section, word: &str) -> Option<&'static Row> {
    ROWS.iter().find(|row| row.section == section && row.word == word)
}

/// The rows of a byte: more than one where a fixed operand tells them apart.
pub fn by_byte(byte: u8) -> impl Iterator<Item = &'static Row> {
    ROWS.iter().filter(move |row| row.byte == byte)
}

/// The row of an expression that is written as one operand of a sort.
pub fn bare(operand: Operand) -> &'static Row {
    let is_it = |row: &&Row| row.form == Form::Bare && row.operands == [operand];
    ROWS.iter().find(is_it).expect("a row for each bare operand")
}
