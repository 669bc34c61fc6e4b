//! Compares the desk, the check, the machine, writing and the sheet with files of cases.
//!
//! `cases desk FILE`: job in hexadecimal, tab, the desk's lines joined by ` | `.
//! `cases queries FILE`: job, tab, query, tab, answer. A query is `desk`, `sheet`; `dump`: the type
//! table, and each expression's entry and effect; `allow A0,..,A7`: a run with these allowances, its
//! words, the steps of each thread, the rooms in use and the thread that failed; `calls CALL...`, a
//! call being `s` for a turn or `aA0,..,A7` for a run: the answers, the value at the end and the cells;
//! or `back` or `back ROOM`: the job read and written back, with room enough or for so many bytes, is
//! the same or refused. Other queries are passed over.
#![forbid(unsafe_code)]

use std::process::ExitCode;

use second::fields::TypeEntry;
use second::observe::{observe, session};
use second::{Call, Fields, check, desk, from_hex, read, sheet, write};

/// What a line of a file comes to.
enum Line {
    /// What is expected and what is got.
    Case(String, String),
    PassedOver,
    NoCase,
}

/// Printed lines, joined as in a file.
fn joined(printed: &str) -> String {
    printed.lines().collect::<Vec<_>>().join(" | ")
}

/// A run with allowances.
fn allow_answer(job: &[u8], call: Call) -> String {
    match observe(job, &[call]).runs {
        Ok(runs) => runs[0].to_string(),
        Err(refusal) => refusal.to_string(),
    }
}

/// The type table, and each expression's entry and effect.
fn dump_answer(job: &[u8]) -> String {
    let accepted = match check(job) {
        Ok(accepted) => accepted,
        Err(refusal) => return refusal.to_string(),
    };
    let types = accepted.types.iter().enumerate().map(|(number, ty)| {
        let [key, first, second, set] = TypeEntry::of(ty).fields;
        format!("type {number} {} {key} {first} {second} {set:016x}", ty.kind().word())
    });
    let exprs = accepted.exprs.iter().enumerate();
    let exprs = exprs.map(|(number, e)| format!("expr {number} {} {:016x}", e.entry, e.effect));
    types.chain(exprs).collect::<Vec<_>>().join(" | ")
}

/// What calls come to; nothing if a call is none.
fn calls_answer(job: &[u8], calls: &str) -> Option<String> {
    let calls: Vec<Call> = calls.split(' ').map(str::parse).collect::<Result<_, _>>().ok()?;
    Some(session(job, &calls).unwrap_or_else(|refusal| refusal.to_string()))
}

fn back_answer(job: &[u8], room: usize) -> String {
    match read(job).and_then(|job| write(&Fields::of(&job), room)) {
        Ok(written) if written == job => "same".to_string(),
        Ok(_) => "other".to_string(),
        Err(refusal) => refusal.to_string(),
    }
}

/// The answer to a query; nothing if it is passed over.
fn answer(job: &[u8], query: &str) -> Option<String> {
    let (word, rest) = query.split_once(' ').unwrap_or((query, ""));
    match word {
        "desk" => Some(joined(&desk(job))),
        "dump" => Some(dump_answer(job)),
        "sheet" => Some(joined(&sheet(job))),
        "allow" => Some(allow_answer(job, format!("a{rest}").parse().ok()?)),
        "calls" => calls_answer(job, rest),
        "back" if rest.is_empty() => Some(back_answer(job, usize::MAX)),
        "back" => Some(back_answer(job, rest.parse().ok()?)),
        _ => None,
    }
}

fn case(kind: &str, line: &str) -> Line {
    let fields: Vec<&str> = line.split('\t').collect();
    let (job, query, expected) = match (kind, &fields[..]) {
        ("desk", [job, expected]) => (job, "desk", expected),
        ("queries", [job, query, expected]) => (job, *query, expected),
        _ => return Line::NoCase,
    };
    match from_hex(job).map(|job| answer(&job, query)) {
        Some(Some(got)) => Line::Case(expected.to_string(), got),
        Some(None) if kind == "queries" => Line::PassedOver,
        _ => Line::NoCase,
    }
}

/// Compares a file; how many lines differ.
fn compare(kind: &str, path: &str, text: &str) -> usize {
    let (mut agreed, mut passed, mut failed) = (0, 0, 0);
    for (number, line) in text.lines().enumerate() {
        match case(kind, line) {
            Line::Case(expected, got) if expected == got => agreed += 1,
            Line::PassedOver => passed += 1,
            Line::Case(expected, got) => {
                failed += 1;
                println!("{path}:{}: expected {expected}, got {got}", number + 1);
            }
            Line::NoCase => {
                failed += 1;
                println!("{path}:{}: no case", number + 1);
            }
        }
    }
    println!("{path}: {agreed} agree, {passed} passed over");
    failed
}

fn main() -> ExitCode {
    let arguments: Vec<String> = std::env::args().skip(1).collect();
    let mut failed = 0;
    for pair in arguments.chunks(2) {
        let [kind, path] = pair else {
            eprintln!("usage: cases [desk FILE | queries FILE]...");
            return ExitCode::from(2);
        };
        match std::fs::read_to_string(path) {
            Ok(text) => failed += compare(kind, path, &text),
            Err(error) => {
                eprintln!("{path}: {error}");
                return ExitCode::from(2);
            }
        }
    }
    println!("{failed} differ");
    ExitCode::from((failed > 0) as u8)
}
