//! The program: options, files, statuses, and what it does where writing fails.

use std::fs::File;
use std::io::Write;
use std::path::PathBuf;
use std::process::{Command, Output, Stdio};

const TEXT: &str = "host depot under top\ntype record = (cell @depot number)\n\
                    value monday : record = 7\nrights {depot}\njob (read monday)\n";

/// Runs the program on an input.
fn run(words: &[&str], input: &[u8]) -> Output {
    let mut child = Command::new(env!("CARGO_BIN_EXE_jobtext"))
        .args(words)
        .stdin(Stdio::piped())
        .stdout(Stdio::piped())
        .stderr(Stdio::piped())
        .spawn()
        .expect("the program starts");
    // A program that does not read its input closes it.
    let _ = child.stdin.take().expect("its input").write_all(input);
    child.wait_with_output().expect("the program ends")
}

fn status(words: &[&str], input: &[u8]) -> i32 {
    run(words, input).status.code().expect("no signal ends it")
}

fn scratch(name: &str) -> PathBuf {
    std::env::temp_dir().join(format!("jobtext-{}-{name}", std::process::id()))
}

#[test]
fn there_and_back() {
    let made = run(&["asm"], TEXT.as_bytes());
    assert_eq!(made.status.code(), Some(0));
    assert_eq!(made.stdout, second::generate::example(4));
    let text = run(&["dump", "-"], &made.stdout);
    assert_eq!(run(&["asm"], &text.stdout).stdout, made.stdout);
    let hex = run(&["asm", "--hex"], TEXT.as_bytes());
    assert_eq!(run(&["dump", "--hex"], &hex.stdout).stdout, text.stdout);
}

#[test]
fn verdicts() {
    assert_eq!(status(&["explain"], &second::generate::example(4)), 0);
    assert_eq!(status(&["explain"], &second::generate::example(0)), 1);
    let said = run(&["explain", "--text", "--all"], TEXT.as_bytes());
    let said = String::from_utf8(said.stdout).expect("text");
    assert!(said.starts_with("accepted 0000000000000004 number\n"), "{said}");
    assert!(said.contains("monday : (cell @depot number)"), "{said}");
    let text = TEXT.replace("rights {depot}", "rights {}");
    let said = run(&["explain", "--text"], text.as_bytes());
    let said = String::from_utf8(said.stdout).expect("text");
    assert!(said.contains("expression 1, `read` (line 5, column 5):"), "{said}");
}

#[test]
fn sheets() {
    let said = |words: &[&str], input: &[u8]| {
        let said = run(words, input);
        (said.status.code(), String::from_utf8(said.stdout).expect("text"))
    };
    let accepted = second::generate::example(4);
    assert_eq!(said(&["sheet"], &accepted), (Some(0), " 2  1 yes   1  host2\n".to_string()));
    let refused = second::generate::example(0);
    assert_eq!(said(&["sheet"], &refused), (Some(1), "refused 14 at 1\n".to_string()));
    assert_eq!(said(&["sheet"], &[]), (Some(1), "refused 4 at 0\n".to_string()));
    let of_text = said(&["sheet", "--text"], TEXT.as_bytes());
    assert_eq!(of_text, (Some(0), " 2  1 yes   1  depot\n".to_string()));
    let hex = run(&["asm", "--hex"], TEXT.as_bytes()).stdout;
    assert_eq!(said(&["sheet", "--hex", "-"], &hex), said(&["sheet"], &accepted));
    let bare = said(&["sheet", "--text"], b"rights {}\njob 5\n");
    assert_eq!(bare, (Some(0), String::new()));
    assert_eq!(status(&["sheet", "--text"], b"job (read x)\nrights {}\n"), 1);
}

#[test]
fn wrong_words() {
    for words in [
        &["as"][..],
        &[],
        &["asm", "--all"],
        &["dump", "a", "b"],
        &["asm", "-o"],
        &["dump", "-x"],
        &["dump", "--text"],
        &["sheet", "--all"],
        &["sheet", "--hex", "--text"],
    ] {
        assert_eq!(status(words, b""), 2, "{words:?}");
    }
    assert_eq!(status(&["--help"], b""), 0);
    assert_eq!(status(&["dump", "--help"], b""), 0);
}

#[test]
fn faults_of_the_input() {
    let said = run(&["asm"], b"job (read x)\nrights");
    assert_eq!(said.status.code(), Some(1));
    let words = String::from_utf8(said.stderr).expect("text");
    assert!(words.starts_with("standard input:1:11: "), "{words}");
    assert_eq!(status(&["dump"], &[1]), 1);
    assert_eq!(status(&["asm"], &[0xFF, 0xFE]), 1);
    let said = run(&["explain", "--hex"], b"01 01\n10 0g\n");
    assert_eq!(said.status.code(), Some(1));
    let words = String::from_utf8(said.stderr).expect("text");
    assert!(words.starts_with("standard input:2:4: `0g` is not two hex"), "{words}");
}

#[test]
fn files() {
    let (text, job) = (scratch("text"), scratch("job"));
    std::fs::write(&text, TEXT).expect("a scratch file");
    let (text_name, job_name) = (text.to_str().expect("a path"), job.to_str().expect("a path"));
    assert_eq!(status(&["asm", text_name, "-o", job_name], b""), 0);
    assert_eq!(std::fs::read(&job).ok(), Some(second::generate::example(4)));
    std::fs::remove_file(&text).expect("the scratch file");
    std::fs::remove_file(&job).expect("the scratch file");
    assert_eq!(status(&["asm", text_name], b""), 3);
    assert_eq!(status(&["asm", "-o", "/no/such/folder/job"], TEXT.as_bytes()), 3);
}

/// A full device and a closed pipe are told, without a panic.
#[test]
fn failed_writes() {
    let Ok(full) = File::options().write(true).open("/dev/full") else {
        return;
    };
    let mut child = Command::new(env!("CARGO_BIN_EXE_jobtext"))
        .arg("asm")
        .stdin(Stdio::piped())
        .stdout(full)
        .stderr(Stdio::piped())
        .spawn()
        .expect("the program starts");
    child.stdin.take().expect("its input").write_all(TEXT.as_bytes()).expect("it reads");
    let said = child.wait_with_output().expect("the program ends");
    assert_eq!(said.status.code(), Some(3));
    assert!(said.stderr.starts_with(b"jobtext: cannot write standard output: "));
}

#[test]
fn closed_pipe() {
    let mut child = Command::new(env!("CARGO_BIN_EXE_jobtext"))
        .arg("asm")
        .stdin(Stdio::piped())
        .stdout(Stdio::piped())
        .stderr(Stdio::piped())
        .spawn()
        .expect("the program starts");
    drop(child.stdout.take());
    child.stdin.take().expect("its input").write_all(TEXT.as_bytes()).expect("it reads");
    let said = child.wait_with_output().expect("the program ends");
    assert_eq!(said.status.code(), Some(3));
}
