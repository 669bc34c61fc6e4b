//! Every fault is told from the faultless implementation by some job, generated or of the sweep, or by
//! tables.

use second::generate::{calls_of, job, sweep, tables};
use second::observe::observe;
use second::{desk, sheet, write};
use second_faults::{ALL, Fault, Told};

/// The faults that something tells.
fn told(by: Told) -> impl Iterator<Item = &'static Fault> {
    ALL.iter().filter(move |fault| fault.told == by)
}

#[test]
fn every_fault_is_caught() {
    let cases: Vec<_> = (1..12_000).map(|seed| job(seed).1).collect();
    // Other lists of calls than those of the seeds.
    let calls: Vec<_> = cases.iter().zip(50_000..).map(|(job, seed)| calls_of(seed, job)).collect();
    let cases: Vec<_> = cases.iter().zip(&calls).collect();
    let seen: Vec<_> = cases.iter().map(|(job, calls)| observe(job, calls)).collect();
    for fault in told(Told::Jobs) {
        let mut pairs = cases.iter().zip(&seen);
        let caught = pairs.any(|((job, calls), seen)| fault.observe(job, calls) != *seen);
        assert!(caught, "{}", fault.text);
    }
}

#[test]
fn every_fault_of_the_desk_is_caught() {
    let cases: Vec<_> = (1..12_000).map(|seed| job(seed).1).collect();
    let lines: Vec<_> = cases.iter().map(|job| desk(job)).collect();
    for fault in told(Told::Lines) {
        let mut pairs = cases.iter().zip(&lines);
        assert!(pairs.any(|(job, lines)| fault.desk(job) != *lines), "{}", fault.text);
    }
}

#[test]
fn every_fault_of_the_writer_is_caught() {
    let cases: Vec<_> = (1..12_000).map(tables).collect();
    let written: Vec<_> = cases.iter().map(|case| write(&case.fields, case.room)).collect();
    for fault in told(Told::Tables) {
        let mut pairs = cases.iter().zip(&written);
        let caught = pairs.any(|(case, written)| fault.write(&case.fields, case.room) != *written);
        assert!(caught, "{}", fault.text);
    }
}

#[test]
fn every_fault_of_the_sheet_is_caught() {
    let cases: Vec<_> = (1..12_000).map(|seed| job(seed).1).collect();
    let sheets: Vec<_> = cases.iter().map(|job| sheet(job)).collect();
    for fault in told(Told::Sheets) {
        let mut pairs = cases.iter().zip(&sheets);
        assert!(pairs.any(|(job, sheet)| fault.sheet(job) != *sheet), "{}", fault.text);
    }
}

#[test]
fn every_fault_of_the_widths_is_caught() {
    let cases = sweep();
    let seen: Vec<_> = cases.iter().map(|job| observe(job, &[])).collect();
    for fault in told(Told::Sweep) {
        let mut pairs = cases.iter().zip(&seen);
        assert!(pairs.any(|(job, seen)| fault.observe(job, &[]) != *seen), "{}", fault.text);
    }
}

#[test]
fn faults_have_numbers_of_their_own() {
    assert!(ALL.is_sorted_by(|a, b| a.number < b.number));
    assert_eq!(ALL.len(), 930);
}
