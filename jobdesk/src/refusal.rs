//! Refusals.
#![forbid(unsafe_code)]

use std::error::Error;
use std::fmt;

/// Why and where a job is refused, or tables that are to be written as one.
#[derive(Clone, Copy, Debug, PartialEq, Eq, Hash)]
pub struct Refusal {
    /// 1 to 16. A check gives 1 to 14 and 16, a start only 1 to 10, reading 1 to 7, writing 1, 2, 3, 5,
    /// 6 and 15, and a sheet 2 to 14 and 16.
    pub number: u8,
    /// What it means is told by [`Refusal::at`].
    pub place: usize,
}

/// What a refusal points at.
#[derive(Clone, Copy, Debug, PartialEq, Eq, Hash)]
pub enum Place {
    /// At nothing of the job: something lent is too short, or a call is cut short.
    Lent,
    /// At a byte of the job, by its offset: of writing, in the bytes that the tables stand for.
    Byte(usize),
    /// At an expression of the job, by its number.
    Expression(usize),
}

impl Refusal {
    /// What two words of the library say.
    pub(crate) fn of(number: u64, place: u64) -> Refusal {
        Refusal { number: number as u8, place: place as usize }
    }

    /// What the refusal points at.
    pub fn at(&self) -> Place {
        match self.number {
            1 | 15 => Place::Lent,
            2..=7 => Place::Byte(self.place),
            _ => Place::Expression(self.place),
        }
    }

    /// What is wrong, in words.
    pub fn reason(&self) -> &'static str {
        match self.number {
            1 => "a lent table or slice is too short, or a call is cut short",
            2 => "a byte is no command",
            3 => "a command stands outside its section",
            4 => "the input ends too soon",
            5 => "there is one entry more than a limit",
            6 => "an operand breaks a condition",
            7 => "a byte follows the end",
            8 => "an expression is used twice or not at all",
            9 => "a variable or a name is bound twice",
            10 => "a variable or a name is out of scope",
            11 => "an operand is of the wrong kind",
            12 => "an operand's type is not a subtype of the one needed",
            13 => "a limit's body uses keys outside the limit",
            14 => "the job uses keys beyond its rights",
            15 => "the buffer is too short",
            16 => "a thread's body has an effect",
            _ => "no refusal has this number",
        }
    }
}

impl fmt::Display for Place {
    fn fmt(&self, f: &mut fmt::Formatter) -> fmt::Result {
        match self {
            Place::Lent => write!(f, "no place"),
            Place::Byte(offset) => write!(f, "byte {offset}"),
            Place::Expression(number) => write!(f, "expression {number}"),
        }
    }
}

impl fmt::Display for Refusal {
    fn fmt(&self, f: &mut fmt::Formatter) -> fmt::Result {
        write!(f, "refused {} at {}: {}", self.number, self.at(), self.reason())
    }
}

impl Error for Refusal {}
