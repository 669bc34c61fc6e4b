//! The program: reads a file or standard input, writes to standard output or a file.

#![forbid(unsafe_code)]

mod options;

use std::fs;
use std::io::{self, IsTerminal, Read, Write};
use std::process::ExitCode;

use jobtext::problem::Problem;
use jobtext::symbols::Symbols;
use jobtext::{assemble, dump, explain, hex, sheet};
use options::{Action, HELP, Options, options};

/// The text has mistakes, the bytes do not read, or the job is refused.
const FAULT: u8 = 1;
/// Wrong words on the command line.
const USAGE: u8 = 2;
/// A file cannot be read or written.
const FILES: u8 = 3;

/// The most problems that are shown.
const SHOWN: usize = 20;

/// A status, and what goes to standard error before it is given.
struct Failure(u8, String);

fn main() -> ExitCode {
    let words: Vec<String> = std::env::args().skip(1).collect();
    let status = match options(&words) {
        Err(words) => Err(Failure(USAGE, format!("jobtext: {words}\nTry: jobtext --help\n"))),
        Ok(Options { action: Action::Help, .. }) => put(None, HELP.as_bytes()).map(|()| 0),
        Ok(options) => run(&options),
    };
    match status {
        Ok(status) => ExitCode::from(status),
        Err(Failure(status, words)) => {
            // Nothing is left to be done where standard error is closed.
            let _ = io::stderr().write_all(words.as_bytes());
            ExitCode::from(status)
        }
    }
}

fn run(options: &Options) -> Result<u8, Failure> {
    let terminal = "is a terminal, and bytes are no text; take -o FILE, --hex or --force";
    match options.action {
        Action::Asm => {
            let to_terminal = options.output.is_none() && io::stdout().is_terminal();
            if to_terminal && !options.force && !options.hex {
                return Err(Failure(USAGE, format!("jobtext: standard output {terminal}\n")));
            }
            let (bytes, _) = from_text(options)?;
            let hex = || hex::write(&bytes).into_bytes();
            put(options.output.as_deref(), &if options.hex { hex() } else { bytes.clone() })?;
            Ok(0)
        }
        Action::Dump => {
            let (text, whole) = dump(&from_bytes(options)?);
            put(options.output.as_deref(), text.as_bytes())?;
            Ok(if whole { 0 } else { FAULT })
        }
        Action::Explain | Action::Help => {
            let (bytes, symbols) = from_either(options)?;
            let explained = explain(&bytes, symbols.as_ref(), options.all);
            put(options.output.as_deref(), explained.text.as_bytes())?;
            Ok(if explained.accepted { 0 } else { FAULT })
        }
        Action::Sheet => {
            let (bytes, symbols) = from_either(options)?;
            let (text, accepted) = sheet(&bytes, symbols.as_ref());
            put(options.output.as_deref(), text.as_bytes())?;
            Ok(if accepted { 0 } else { FAULT })
        }
    }
}

/// The name of the input in messages.
fn name(options: &Options) -> &str {
    options.input.as_deref().unwrap_or("standard input")
}

/// The whole input.
fn get(options: &Options) -> Result<Vec<u8>, Failure> {
    let read = match &options.input {
        Some(file) => fs::read(file),
        None => {
            let mut all = Vec::new();
            io::stdin().read_to_end(&mut all).map(|_| all)
        }
    };
    read.map_err(|error| {
        Failure(FILES, format!("jobtext: cannot read {}: {error}\n", name(options)))
    })
}

/// The input as characters.
fn get_text(options: &Options) -> Result<String, Failure> {
    let all = get(options)?;
    String::from_utf8(all).map_err(|error| {
        let before = &error.as_bytes()[..error.utf8_error().valid_up_to()];
        let line = before.iter().filter(|&&byte| byte == b'\n').count() + 1;
        Failure(FAULT, format!("{}:{line}: this is no text (UTF-8)\n", name(options)))
    })
}

/// The bytes and symbols of the input as text of a job.
fn from_text(options: &Options) -> Result<(Vec<u8>, Symbols), Failure> {
    let text = get_text(options)?;
    match assemble(&text) {
        Ok(made) => Ok((made.bytes, made.symbols)),
        Err(problems) => Err(wrong(options, &text, &problems)),
    }
}

/// The bytes of the input, as they are or as hexadecimal text.
fn from_bytes(options: &Options) -> Result<Vec<u8>, Failure> {
    if options.hex {
        let text = get_text(options)?;
        return hex::read(&text).map_err(|problems| wrong(options, &text, &problems));
    }
    if options.input.is_none() && io::stdin().is_terminal() && !options.force {
        let words = "jobtext: standard input is a terminal; give a FILE, or take --force\n";
        return Err(Failure(USAGE, words.to_string()));
    }
    get(options)
}

/// The bytes of the input, and its symbols if it is text.
fn from_either(options: &Options) -> Result<(Vec<u8>, Option<Symbols>), Failure> {
    match options.text {
        true => from_text(options).map(|(bytes, symbols)| (bytes, Some(symbols))),
        false => Ok((from_bytes(options)?, None)),
    }
}

/// The first problems, and how many there are beside them.
fn wrong(options: &Options, text: &str, problems: &[Problem]) -> Failure {
    let first = problems.iter().take(SHOWN);
    let mut shown: String = first.map(|problem| problem.show(name(options), text)).collect();
    if problems.len() > SHOWN {
        shown.push_str(&format!("{}: and {} more\n", name(options), problems.len() - SHOWN));
    }
    Failure(FAULT, shown)
}

/// Writes to a file, or to standard output.
fn put(file: Option<&str>, bytes: &[u8]) -> Result<(), Failure> {
    let written = match file {
        Some(file) => fs::write(file, bytes),
        None => {
            let mut out = io::stdout().lock();
            out.write_all(bytes).and_then(|()| out.flush())
        }
    };
    let name = file.unwrap_or("standard output");
    written.map_err(|error| Failure(FILES, format!("jobtext: cannot write {name}: {error}\n")))
}
