//! Bytes to commands, by the rows, as far as the job reads.

use second::job::UNUSED;
use second::{Job, Refusal};

use crate::commands::{Operand, Row, Section, by_byte};

/// The value of an operand.
#[derive(Clone, Debug, PartialEq, Eq)]
pub enum Arg {
    One(u64),
    /// The count as written, and the four places.
    Keys(u8, [u16; 4]),
}

impl Arg {
    /// The value of any operand but keys.
    pub fn one(&self) -> u64 {
        match self {
            Arg::One(value) => *value,
            Arg::Keys(count, _) => *count as u64,
        }
    }

    /// The expressions at this operand, if it is of a sort that has any.
    pub fn exprs(&self, operand: Operand) -> Vec<u16> {
        match (self, operand) {
            (Arg::Keys(count, keys), _) => keys[..4.min(*count as usize)].to_vec(),
            (Arg::One(value), Operand::Expr(_)) => vec![*value as u16],
            _ => vec![],
        }
    }
}

/// A command of a job.
#[derive(Clone, Debug)]
pub struct Command {
    pub at: usize,
    pub row: &'static Row,
    pub args: Vec<Arg>,
}

impl Command {
    /// All expressions that are used, in order.
    pub fn exprs(&self) -> Vec<u16> {
        let each = self.row.operands.iter().zip(&self.args);
        each.flat_map(|(&operand, arg)| arg.exprs(operand)).collect()
    }

    /// The value of the first operand of a sort.
    pub fn first(&self, sort: impl Fn(Operand) -> bool) -> Option<u64> {
        self.row.place(sort).map(|place| self.args[place].one())
    }

    /// The variable that is bound.
    pub fn bound(&self) -> Option<u8> {
        self.first(|operand| operand == Operand::Bound).map(|v| v as u8)
    }

    /// The local name that is bound.
    pub fn local(&self) -> Option<u8> {
        self.first(|operand| operand == Operand::Local).map(|name| name as u8)
    }

    /// The bytes of the command.
    pub fn bytes(&self) -> Vec<u8> {
        encode(self.row, &self.args)
    }
}

/// A job as far as it reads.
#[derive(Clone, Debug)]
pub struct Listing {
    /// The refusal of reading, 2 to 7.
    pub refusal: Option<Refusal>,
    /// The commands that were read, in order, FF among them.
    pub commands: Vec<Command>,
    /// Where the bytes begin that do not read.
    pub rest: usize,
    /// The tables of what was read; a command that is still due is added.
    pub job: Job,
}

impl Listing {
    /// Whether every byte was read. A job with a command that has no row reads further than this.
    pub fn is_whole(&self, bytes: &[u8]) -> bool {
        self.refusal.is_none() && self.rest == bytes.len()
    }

    /// The commands of a section.
    pub fn section(&self, section: Section) -> impl Iterator<Item = &Command> {
        self.commands.iter().filter(move |command| command.row.section == section)
    }

    /// The expressions.
    pub fn exprs(&self) -> Vec<Command> {
        self.section(Section::Expressions).cloned().collect()
    }

    /// The number of host values.
    pub fn values(&self) -> usize {
        self.section(Section::Values).count()
    }
}

/// Reads a job as far as it goes.
pub fn decode(bytes: &[u8]) -> Listing {
    let refusal = second::read(bytes).err();
    let stop = refusal.map_or(bytes.len(), |refusal| refusal.place as usize);
    let mut commands = Vec::new();
    let mut at = 0;
    while at < stop
        && let Some(command) = command_at(bytes, at)
    {
        at += 1 + command.row.width();
        commands.push(command);
    }
    let job = completed(bytes, &commands, at);
    Listing { refusal, commands, rest: at, job }
}

/// The tables of the bytes before `end`, with what is still due.
fn completed(bytes: &[u8], commands: &[Command], end: usize) -> Job {
    let has = |section| commands.iter().any(|command| command.row.section == section);
    let mut whole = bytes[..end].to_vec();
    if !has(Section::Rights) {
        whole.extend([0x21, 0, 0, 0, 0, 0, 0, 0, 0]);
    }
    if !has(Section::Expressions) {
        whole.extend([0x30, 0, 0, 0, 0]);
    }
    if !has(Section::End) {
        whole.push(0xFF);
    }
    second::read(&whole).unwrap_or_default()
}

/// The command at an offset, whatever its operands are; none if it is no command or cut short.
pub fn command_at(bytes: &[u8], at: usize) -> Option<Command> {
    by_byte(*bytes.get(at)?).find_map(|row| {
        let args = arguments(row, bytes.get(at + 1..)?)?;
        let fits = |(operand, arg): (&Operand, &Arg)| match operand {
            Operand::Fixed(byte) => arg.one() == *byte as u64,
            _ => true,
        };
        row.operands.iter().zip(&args).all(fits).then_some(Command { at, row, args })
    })
}

/// The operands of a row from the front of the bytes; none if one is missing.
pub fn arguments(row: &Row, bytes: &[u8]) -> Option<Vec<Arg>> {
    let mut at = 0;
    let mut take = |operand: &Operand| {
        let own = bytes.get(at..at + operand.width())?;
        at += operand.width();
        Some(match operand {
            Operand::Keys => {
                let key = |place: usize| word(&own[1 + 2 * place..3 + 2 * place]) as u16;
                Arg::Keys(own[0], [key(0), key(1), key(2), key(3)])
            }
            _ => Arg::One(word(own)),
        })
    };
    row.operands.iter().map(&mut take).collect()
}

/// The bytes of a command.
pub fn encode(row: &Row, args: &[Arg]) -> Vec<u8> {
    let mut out = vec![row.byte];
    for (operand, arg) in row.operands.iter().zip(args) {
        match arg {
            Arg::One(value) => out.extend(&value.to_le_bytes()[..operand.width()]),
            Arg::Keys(count, keys) => {
                out.push(*count);
                out.extend(keys.iter().flat_map(|key| key.to_le_bytes()));
            }
        }
    }
    out
}

/// Keys of a limit, from a list of at most four expressions.
pub fn keys(exprs: &[u16]) -> Arg {
    let mut keys = [UNUSED; 4];
    keys.iter_mut().zip(exprs).for_each(|(place, &expr)| *place = expr);
    Arg::Keys(exprs.len() as u8, keys)
}

/// A number from its bytes, low byte first.
fn word(bytes: &[u8]) -> u64 {
    bytes.iter().rev().fold(0, |value, &byte| value << 8 | byte as u64)
}
