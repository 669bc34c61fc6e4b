//! What can be seen of a job: its verdict with all tables, and its calls.

use std::collections::BTreeSet;
use std::fmt;

use crate::check::check_job;
use crate::desk::desk;
use crate::fields::Fields;
use crate::job::{Expr, Job, Kind, Refusal, Shape, Type};
use crate::machine::{Machine, runs};
use crate::read::read;
use crate::sheet::sheet;
use crate::tree::tree;
use crate::value::{Answer, Call, PAIRS, Reply, Rooms, Value};
use crate::verdict::Accepted;
use crate::write::write;

/// What is seen of a call.
#[derive(Clone, Copy, Debug, PartialEq, Eq)]
pub struct Ran {
    /// What it answers.
    pub reply: Reply,
    /// The room in use after it.
    pub rooms: Rooms,
    /// The value, where the machine has ended.
    pub result: Option<Value>,
}

/// All that is seen of a job.
#[derive(Clone, Debug, PartialEq, Eq)]
pub struct Seen {
    /// What the check answers.
    pub verdict: Result<Accepted, Refusal>,
    /// The start's refusal, or what each call from the start, one after another, gave.
    pub runs: Result<Vec<Ran>, Refusal>,
}

/// What a job and its tables go through, so that a part can be put in place of another.
#[derive(Clone, Copy)]
pub struct Parts {
    /// Refusals 2 to 7.
    pub read: fn(&[u8]) -> Result<Job, Refusal>,
    /// Refusals 8 to 10.
    pub tree: fn(&Job) -> Result<(), Refusal>,
    /// Refusals 11 to 14 and 16.
    pub check: fn(&Job) -> Result<Accepted, Refusal>,
    /// The start and some calls.
    pub run: fn(&Job, &[Call]) -> Vec<Ran>,
    /// What the desk prints for a job.
    pub desk: fn(&[u8]) -> String,
    /// The bytes of tables, with room for so many; refusals 2, 3, 5, 6 and 15.
    pub write: fn(&Fields, usize) -> Result<Vec<u8>, Refusal>,
    /// What the sheet program prints for a job.
    pub sheet: fn(&[u8]) -> String,
}

impl Parts {
    /// The parts of this crate.
    pub const OWN: Parts = Parts { read, tree, check: check_job, run: runs, desk, write, sheet };

    /// Checks a job, and starts it and makes the given calls, one after the other.
    pub fn observe(&self, job: &[u8], calls: &[Call]) -> Seen {
        let formed = (self.read)(job).and_then(|job| (self.tree)(&job).map(|()| job));
        match formed {
            Ok(job) => Seen { verdict: (self.check)(&job), runs: Ok((self.run)(&job, calls)) },
            Err(refusal) => Seen { verdict: Err(refusal), runs: Err(refusal) },
        }
    }
}

/// What is seen of a job that is checked, and started for the given calls, one after the other.
pub fn observe(job: &[u8], calls: &[Call]) -> Seen {
    Parts::OWN.observe(job, calls)
}

/// What calls from a job's start come to, in a line: their answers, the value at the end and the cells.
pub fn session(job: &[u8], calls: &[Call]) -> Result<String, Refusal> {
    let mut machine = Machine::start(job)?;
    let replies: Vec<String> = calls.iter().map(|&call| machine.call(call).to_string()).collect();
    let words = |value: &Value, parted: &str| match value.kind() {
        Kind::Number => format!("{parted}{}", value.data()),
        kind => kind.word().to_string(),
    };
    let value = machine.result().map_or("-".to_string(), |value| words(&value, "number "));
    let cells = machine.cells().iter().enumerate();
    let cells: Vec<String> =
        cells.map(|(cell, held)| format!("{cell}={}", words(held, ""))).collect();
    Ok(format!("{} / {value} / {}", replies.join("; "), cells.join(" ")))
}

/// The command that a refusal is at, in words; of 13 also that it is around a look or a division, of
/// 11 at a division for which operand, and where it stands to threads.
pub fn refused_at(bytes: &[u8], refusal: Refusal) -> Vec<String> {
    let (number, place) = (refusal.number, refusal.place as usize);
    let mut words = Vec::new();
    match (number, read(bytes)) {
        (8.., Ok(job)) => {
            let expr = job.exprs.get(place);
            words.extend(expr.map(|expr| format!("refused {number} at {}", expr.label())));
            words.extend(beside_threads(&job, place).map(|how| format!("refused {number} {how}")));
            words.extend(match (number, expr) {
                (11, Some(&Expr::Divide(dividend, _))) => {
                    Some(format!("refused 11 at Divide for its {}", wrong(&job, place, dividend)))
                }
                (13, Some(&Expr::Limit(_, _, body))) => match job.exprs[body as usize] {
                    around @ (Expr::Look(..) | Expr::Divide(..)) => {
                        Some(format!("refused 13 around {}", around.label()))
                    }
                    _ => None,
                },
                _ => None,
            });
        }
        (3..=6, _) => {
            words.extend(bytes.get(place).map(|byte| format!("refused {number} at {byte:02x}")))
        }
        _ => {}
    }
    words
}

/// How an expression stands to the job's threads, if it has any.
fn beside_threads(job: &Job, place: usize) -> impl Iterator<Item = &'static str> {
    let is_spawn = |expr: &Expr| matches!(expr, Expr::Spawn(_));
    let mut around = false;
    job.exprs[place].each_operand(|&operand| around |= is_spawn(&job.exprs[operand as usize]));
    let (mut inside, mut inner) = (false, place);
    for (number, expr) in job.exprs.iter().enumerate().skip(place + 1) {
        let mut uses = false;
        expr.each_operand(|&operand| uses |= operand as usize == inner);
        if uses {
            inner = number;
            inside |= is_spawn(expr);
        }
    }
    let words = [
        ("around Spawn", around),
        ("inside Spawn", inside),
        ("beside Spawn", job.exprs.iter().any(is_spawn)),
    ];
    words.into_iter().filter_map(|(word, holds)| holds.then_some(word))
}

/// The operand for which a division is refused: the dividend if it is no divisor either.
fn wrong(job: &Job, place: usize, dividend: u16) -> &'static str {
    let mut job = job.clone();
    job.exprs[place] = Expr::Divide(dividend, dividend);
    let refused = check_job(&job) == Err(Refusal::at(11, place));
    if refused { "dividend" } else { "divisor" }
}

/// Whether an accepted job's division makes two entries, in words.
pub fn made(job: &Job, accepted: &Accepted) -> Option<&'static str> {
    let number = Type::unkeyed(Shape::Number);
    let makes_two = |(place, expr): (usize, &Expr)| {
        let entry = accepted.exprs[place].entry;
        matches!(expr, Expr::Divide(..))
            && accepted.types[entry as usize] == Type::unkeyed(Shape::Pair(entry - 1, entry - 1))
            && accepted.types[entry as usize - 1] == number
    };
    job.exprs.iter().enumerate().any(makes_two).then_some(TWO_ENTRIES)
}

const TWO_ENTRIES: &str = "divide makes two entries";

/// The branches of looks.
const BRANCHES: [&str; 2] = ["look takes its first branch", "look takes its second branch"];

/// Sums and differences, by how near they come to the end at which they stop.
const SUMS: [&str; 4] =
    ["sum above 4294967295", "sum of 4294967295", "sum of 4294967294", "sum below 4294967294"];
const DIFFERENCES: [&str; 4] =
    ["difference below 0", "difference of 0", "difference of 1", "difference above 1"];

/// Divisions, by their numbers.
const DIVISIONS: [&str; 6] = [
    "divide of 0 by 0",
    "divide by 0",
    "divide of 4294967295",
    "divide by a higher number",
    "divide without a rest",
    "divide with a rest",
];
/// Divisions that fail; an operand is closed if its key is not enabled.
const FAILED: [&str; 8] = [
    "divide is stuck by its dividend",
    "divide is stuck by its divisor",
    "divide is stuck with a closed operand",
    "divide is stuck with no pair left",
    "divide is denied by its dividend",
    "divide is denied by its divisor",
    "divide is denied with no pair left",
    "divide has no room",
];

/// What the looks, sums, differences and divisions of a job come to in so many turns, in words. The
/// job is free of refusals 8 to 10.
pub fn acts(job: &Job, turns: u64) -> BTreeSet<&'static str> {
    let branches = branches(job, BRANCHES);
    let mut seen = BTreeSet::new();
    let mut machine = Machine::of(job);
    for _ in 0..turns {
        let Some(thread) = machine.turn() else { break };
        seen.extend(machine.entering(thread).and_then(|expr| branches[expr as usize]));
        let reckoned = reckoned(job, &machine, thread);
        match machine.step() {
            (Answer::Taken, _) => seen.extend(reckoned),
            (answer, _) => {
                seen.extend(failed(job, &machine, thread, answer));
                break;
            }
        }
    }
    seen
}

/// The words for a look or a division in a thread that answers so.
fn failed(job: &Job, machine: &Machine, thread: usize, answer: Answer) -> Vec<&'static str> {
    match (machine.waiting(thread).map(|expr| job.exprs[expr as usize]), answer) {
        (Some(Expr::Look(..)), Answer::Stuck) => vec!["look is stuck"],
        (Some(Expr::Look(..)), Answer::Denied) => vec!["look is denied"],
        (Some(Expr::Divide(..)), _) => undivided(machine, thread, answer),
        _ => Vec::new(),
    }
}

/// The words for a division in a thread that answers so.
fn undivided(machine: &Machine, thread: usize, answer: Answer) -> Vec<&'static str> {
    let Some((_, dividend, divisor)) = machine.acting(thread) else { return Vec::new() };
    let closed = [dividend, divisor].map(|operand| !machine.opens(thread, operand));
    let full = machine.rooms().pairs == PAIRS;
    let words = match answer {
        Answer::Stuck => [
            Some(FAILED[dividend.is(Kind::Number) as usize]),
            closed.contains(&true).then_some(FAILED[2]),
            full.then_some(FAILED[3]),
        ],
        Answer::Denied => [Some(FAILED[5 - closed[0] as usize]), full.then_some(FAILED[6]), None],
        Answer::NoRoom => [Some(FAILED[7]), None, None],
        Answer::Taken | Answer::Done => [None; 3],
    };
    words.into_iter().flatten().collect()
}

/// For each expression, the words for it if it is the first or the second branch of a look.
pub fn branches(job: &Job, words: [&'static str; 2]) -> Vec<Option<&'static str>> {
    let mut branches = vec![None; job.exprs.len()];
    for expr in &job.exprs {
        if let Expr::Look(_, enabled, other, _) = *expr {
            [enabled, other].into_iter().zip(words).for_each(|(branch, word)| {
                branches[branch as usize] = Some(word);
            });
        }
    }
    branches
}

/// The words for the sum, difference or division that is next in a thread.
fn reckoned(job: &Job, machine: &Machine, thread: usize) -> Option<&'static str> {
    let (expr, a, b) = machine.acting(thread)?;
    let (a, b) = (i64::from(a.data()), i64::from(b.data()));
    let near = |distance: i64| (distance + 1).clamp(0, 3) as usize;
    match job.exprs[expr as usize] {
        Expr::Sum(..) => Some(SUMS[near(i64::from(u32::MAX) - (a + b))]),
        Expr::Difference(..) => Some(DIFFERENCES[near(a - b)]),
        Expr::Divide(..) => Some(DIVISIONS[division(a, b)]),
        _ => None,
    }
}

/// The place of a division of two numbers in the list of their words.
fn division(dividend: i64, divisor: i64) -> usize {
    match (dividend, divisor) {
        (0, 0) => 0,
        (_, 0) => 1,
        (0xFFFF_FFFF, _) => 2,
        _ if dividend < divisor => 3,
        _ if dividend % divisor == 0 => 4,
        _ => 5,
    }
}

/// Refusals at threads, around and inside them, and of jobs that have some.
pub fn wanted_of_threads() -> Vec<String> {
    let mut wanted: Vec<String> = (3..=6).map(|number| format!("refused {number} at 42")).collect();
    wanted.extend([8, 16].map(|number| format!("refused {number} at Spawn")));
    wanted.extend([11, 12].map(|number| format!("refused {number} around Spawn")));
    wanted.extend([9, 10, 11, 12, 13, 16].map(|number| format!("refused {number} inside Spawn")));
    wanted.push("refused 14 beside Spawn".to_string());
    wanted
}

/// What must be met of looks, sums, differences and divisions.
pub fn wanted_of_acts() -> Vec<String> {
    let mut wanted = wanted_of_looks();
    wanted.extend(SUMS.into_iter().chain(DIFFERENCES).map(|kind| format!("accepted, {kind}")));
    wanted.extend(wanted_of_divisions());
    wanted
}

/// Refusals at divisions, what they come to in accepted jobs, and how they fail.
fn wanted_of_divisions() -> Vec<String> {
    let mut wanted: Vec<String> = (3..=6).map(|number| format!("refused {number} at 41")).collect();
    wanted.extend([8, 14].map(|number| format!("refused {number} at Divide")));
    let operands = ["dividend", "divisor"];
    wanted.extend(operands.map(|operand| format!("refused 11 at Divide for its {operand}")));
    wanted.push("refused 13 around Divide".to_string());
    let accepted = DIVISIONS.into_iter().chain([FAILED[7], TWO_ENTRIES]);
    wanted.extend(accepted.map(|kind| format!("accepted, {kind}")));
    wanted.extend(FAILED.map(str::to_string));
    wanted
}

/// Refusals at looks, and what they come to in runs.
fn wanted_of_looks() -> Vec<String> {
    let mut wanted: Vec<String> = (3..=6).map(|number| format!("refused {number} at 40")).collect();
    wanted.extend([8, 10, 11, 12, 14].map(|number| format!("refused {number} at Look")));
    wanted.push("refused 13 around Look".to_string());
    wanted.extend(BRANCHES.map(str::to_string));
    wanted.extend(BRANCHES.map(|branch| format!("accepted, {branch}")));
    wanted.extend(["look is stuck", "look is denied"].map(str::to_string));
    wanted
}

/// What it answers, the rooms in use, and the thread that stepped in a turn or that failed.
impl fmt::Display for Ran {
    fn fmt(&self, f: &mut fmt::Formatter) -> fmt::Result {
        let Ran { reply, rooms: r, .. } = self;
        write!(f, "{reply} {} {} {}", r.cells, r.keys, r.pairs)?;
        write!(f, " {} {} {}", r.functions, r.frames, r.bindings)?;
        reply.thread().map_or(Ok(()), |thread| write!(f, " thread {thread}"))
    }
}

impl fmt::Display for Seen {
    fn fmt(&self, f: &mut fmt::Formatter) -> fmt::Result {
        match &self.verdict {
            Ok(accepted) => {
                write!(f, "accepted {:016x} {}", accepted.effect, accepted.kind.word())?
            }
            Err(refusal) => write!(f, "{refusal}")?,
        }
        for run in self.runs.iter().flatten() {
            write!(f, " | {run}")?;
        }
        Ok(())
    }
}
