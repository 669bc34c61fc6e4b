//! The sample jobs: each text gives the recorded bytes, lines and verdict in words; together they
//! use every command and meet every refusal from 2 to 14 and 16.

use std::collections::BTreeSet;
use std::fs;
use std::path::{Path, PathBuf};

use jobtext::commands::ROWS;
use jobtext::decode::decode;
use jobtext::{assemble, dump, explain, hex, sheet};
use second::desk::STEPS;
use second::value::THREADS;
use second::{Machine, Outcome, Run};

/// Every text of a job.
fn jobs() -> Vec<PathBuf> {
    let list = |folder: &str| fs::read_dir(folder).expect("the examples");
    let all = list("../examples").chain(list("../examples/refused"));
    let paths = all.map(|entry| entry.expect("an entry").path());
    paths.filter(|path| path.extension().is_some_and(|kind| kind == "job")).collect()
}

fn text(path: &Path, kind: &str) -> String {
    let path = path.with_extension(kind);
    fs::read_to_string(&path).unwrap_or_else(|error| panic!("{}: {error}", path.display()))
}

#[test]
fn as_recorded() {
    for path in jobs() {
        let made = assemble(&text(&path, "job")).unwrap_or_else(|p| panic!("{path:?}: {p:?}"));
        let recorded = hex::read(&text(&path, "hex")).expect("hexadecimal digits");
        assert_eq!(made.bytes, recorded, "{path:?}");
        assert_eq!(second::desk(&made.bytes), text(&path, "out"), "{path:?}");
        let explained = explain(&made.bytes, Some(&made.symbols), false);
        assert_eq!(explained.text, text(&path, "explain"), "{path:?}");
        let back = assemble(&dump(&made.bytes).0).expect("the dump is a text");
        assert_eq!(back.bytes, made.bytes, "{path:?}");
        assert_eq!(second::sheet(&made.bytes), recorded_sheet(&path), "{path:?}");
    }
}

/// The sheet of a job; of a refused one it is the desk's line.
fn recorded_sheet(path: &Path) -> String {
    let out = text(path, "out");
    if out.starts_with("refused") { out } else { text(path, "sheet") }
}

#[test]
fn every_command_and_refusal() {
    let (mut words, mut refusals) = (BTreeSet::new(), BTreeSet::new());
    for path in jobs() {
        let bytes = hex::read(&text(&path, "hex")).expect("hexadecimal digits");
        match second::check(&bytes) {
            Ok(_) => words.extend(decode(&bytes).commands.iter().map(|c| (c.row.byte, c.row.word))),
            Err(refusal) => drop(refusals.insert(refusal.number)),
        }
    }
    let all: BTreeSet<_> = ROWS.iter().map(|row| (row.byte, row.word)).collect();
    assert_eq!(words, all);
    assert_eq!(refusals, (2..=14).chain([16]).collect());
}

/// The bytes of a sample job, a line a command.
fn lines(name: &str) -> Vec<String> {
    text(&Path::new("../examples").join(name), "hex").lines().map(str::to_string).collect()
}

/// Fails unless two sample jobs have the same bytes but for one command, which begins so in both.
fn apart_in(command: &str, first: &str, second: &str) {
    let (first, second) = (lines(first), lines(second));
    assert_eq!(first.len(), second.len());
    let differ: Vec<_> = first.iter().zip(&second).filter(|(a, b)| a != b).collect();
    assert!(
        matches!(differ[..], [(a, b)] if a.starts_with(command) && b.starts_with(command)),
        "{differ:?}"
    );
}

/// The agency's bill for two depots is one job, but for the rights; a week with shifts and one
/// without are one, but for the host value that has their number.
#[test]
fn one_job_for_two() {
    apart_in("21 ", "agency_bill_lent", "agency_bill_closed");
    apart_in("20 03 00 ", "week_over_shifts", "week_without_shifts");
}

/// A sample job that was started.
fn started(name: &str) -> Machine {
    let bytes = hex::read(&lines(name).join("\n")).expect("hexadecimal digits");
    Machine::start(&bytes).expect("a job that starts")
}

/// What the cells hold.
fn held(machine: &Machine) -> Vec<u32> {
    machine.cells().iter().map(|cell| cell.data()).collect()
}

/// What is paid for the shifts and what is kept are all the minutes that there were.
#[test]
fn a_week_over_the_shifts() {
    for (name, shifts) in [("week_over_shifts", 7), ("week_without_shifts", 0)] {
        let mut machine = started(name);
        let before = held(&machine);
        assert_eq!(
            (machine.run([STEPS; THREADS]).outcome, before[6]),
            (Outcome::Done, shifts),
            "{name}"
        );
        let (share, after) = (machine.result().expect("a share").data(), held(&machine));
        let kept = after[5];
        assert_eq!(share * shifts + kept, before[..6].iter().sum(), "{name}");
        assert!(kept < shifts || shifts == 0, "{name}");
        assert_eq!((&after[..5], after[6]), (&before[..5], shifts), "{name}");
    }
}

/// Each of four threads leaves a driver's sum, and thread 0 adds them up.
#[test]
fn four_drivers_at_a_time() {
    let mut machine = started("four_drivers");
    let before = held(&machine);
    let Run { outcome, counts, .. } = machine.run([STEPS; THREADS]);
    assert_eq!((outcome, machine.rooms().threads), (Outcome::Done, 5));
    assert!(counts[1..5].iter().all(|&steps| steps == counts[1]), "{counts:?}");
    let after = held(&machine);
    assert_eq!(after[..8], before[..8]);
    let sums: Vec<u32> = before[..8].chunks(2).map(|days| days.iter().sum()).collect();
    assert_eq!(after[8..12], sums);
    assert_eq!(machine.result().map(|value| value.data()), Some(sums.iter().sum()));
}

/// Two threads take more steps than the desk allows one, and the short one's are printed, as the guide says.
#[test]
fn a_short_extract_beside_long_ones() {
    let mut machine = started("short_extract");
    let before = held(&machine);
    let Run { outcome, counts, .. } = machine.run([STEPS; THREADS]);
    assert_eq!((outcome, counts[..4].to_vec()), (Outcome::Done, vec![34, 55_496, 55_496, 0]));
    assert!(counts.iter().sum::<u64>() > STEPS);
    let guide = fs::read_to_string("../docs/JOBS.md").expect("the guide");
    assert!(guide.contains("two threads take 55,496 each, and thread 0's 34 steps"));
    let week = before[..7].iter().sum::<u32>() - before[7..14].iter().sum::<u32>();
    let after = held(&machine);
    assert_eq!([after[14], after[16]], [before[14], before[16]].map(|paid| paid + 430 * week));
    assert_eq!(machine.result().map(|value| value.data()), Some(before[0] - before[7]));
}

/// The table of commands in the guide has every row.
#[test]
fn the_guide_has_every_command() {
    let guide = fs::read_to_string("../docs/JOBS.md").expect("the guide");
    for row in ROWS {
        let wanted = format!("| {:02X} | `", row.byte);
        let lines = guide.lines().filter(|line| line.starts_with(&wanted));
        let named = |line: &str| row.word == "variable" || line.contains(row.word);
        assert!(lines.into_iter().any(named), "{:02X} {}", row.byte, row.word);
    }
}

/// Whether a page shows a text, as a block or set in.
fn shows(page: &str, text: &str) -> bool {
    let page = fs::read_to_string(format!("../{page}")).expect("a page");
    let set_in: String = text.lines().map(|line| format!("    {line}\n")).collect();
    page.contains(&format!("```\n{text}```\n")) || page.contains(&set_in)
}

/// What the pages show of sample jobs is what is recorded.
#[test]
fn the_pages_show_what_is_recorded() {
    let shown = [
        ("README.md", "rest_sum.out"),
        ("README.md", "wall_file.sheet"),
        ("docs/JOBS.md", "payroll_week.explain"),
        ("docs/JOBS.md", "payroll_week.out"),
        ("docs/JOBS.md", "rest_over.out"),
        ("docs/JOBS.md", "week_over_shifts.out"),
        ("docs/JOBS.md", "four_drivers.out"),
        ("docs/VERDICTS.md", "two_agencies.explain"),
        ("docs/VERDICTS.md", "two_agencies.out"),
        ("docs/VERDICTS.md", "agency_bill_lent.explain"),
        ("docs/VERDICTS.md", "agency_bill_closed.explain"),
        ("docs/VERDICTS.md", "four_drivers.explain"),
        ("docs/VERDICTS.md", "refused/13_limit.explain"),
    ];
    for (page, file) in shown {
        let text = fs::read_to_string(format!("../examples/{file}")).expect("a recorded file");
        assert!(shows(page, &text), "{page}: {file}");
    }
}

/// The guide for managers shows the sheet with symbols, and of the verdict in words what the sheet
/// does not say.
#[test]
fn the_sheet_for_managers() {
    let path = Path::new("../examples/wall_file");
    let made = assemble(&text(path, "job")).expect("a text");
    assert!(shows("docs/VERDICTS.md", &sheet(&made.bytes, Some(&made.symbols)).0));
    let explained = text(path, "explain");
    let lines: Vec<&str> = explained.split_inclusive('\n').collect();
    let at = |start: &str| lines.iter().position(|line| line.starts_with(start)).expect(start);
    let rights = at("rights: ")..at("cells that the effect opens:");
    let beside = at("cells that the rights open")..lines.len();
    for part in [rights, beside] {
        assert!(shows("docs/VERDICTS.md", &lines[part].concat()));
    }
}

/// The files that the reading order names are there.
#[test]
fn the_reading_order_names_files() {
    let page = fs::read_to_string("../docs/READING-ORDER.md").expect("the page");
    let named: Vec<&str> = page.split('`').skip(1).step_by(2).collect();
    let is_file = |word: &&&str| word.contains("/specs/") || word.contains("/src/");
    let files: Vec<&&str> = named.iter().filter(is_file).filter(|w| !w.contains(' ')).collect();
    assert!(files.len() > 25, "{files:?}");
    for file in files {
        let path = match file.ends_with(".rt") {
            true => format!("../crates/{file}"),
            false => format!("../crates/{file}.antt"),
        };
        assert!(Path::new(&path).exists(), "{path}");
    }
}
