//! Command 40: a look at a key, and a branch for either answer.

mod common;

use common::{prints, refused, runs};
use second::{Kind, Machine, Outcome, check, from_hex};

/// Host names 2 under 1, and 3 and 4 under 2; local name 5 under 2. Types: 0 number, 1 cell of key
/// 3, 2 limit key of 3, 3 limit key of 2 with key 4, 4 limit key of 2 with key 3, 5 limit key of 4
/// with key 3, 6 grant key of 3, 7 number of key 3, 8 number of key 5. Variables 0 to 5 are of the
/// types 1 to 6; the cell holds 7.
fn job(rights: u8, exprs: &str) -> Vec<u8> {
    let hex = format!(
        "0101 0102 0102 0202 1000 12030000 140003 140402 140302 140304 150003 1003 1005
         200100 07000000 200200 00000000 200300 00000000 200400 00000000 200500 00000000
         200600 00000000 21{rights:02x}00000000000000 {exprs} FF"
    );
    from_hex(&hex).expect("hexadecimal digits")
}

/// A look at a variable: the read of the cell if its key is enabled, else 5.
fn look_at(variable: u8) -> String {
    format!("32{variable:02x} 3200 390100 3005000000 40 0000 0200 0300 0000")
}

#[test]
fn one_job_serves_whatever_is_lent() {
    let nothing = "accepted 0000000000000000 number\n";
    // Not lent; lent; lent with the name above it; lent beside it.
    prints(&job(0x00, &look_at(1)), &format!("{nothing}done 4 number 5\n"));
    prints(&job(0x08, &look_at(1)), &format!("{nothing}done 6 number 7\n"));
    prints(&job(0x04, &look_at(1)), &format!("{nothing}done 6 number 7\n"));
    prints(&job(0x10, &look_at(1)), &format!("{nothing}done 4 number 5\n"));
}

#[test]
fn a_lower_key_is_not_enough() {
    // Name 2 is looked at, with 3 and 4 enabled.
    prints(&job(0x18, &look_at(2)), "accepted 0000000000000010 number\ndone 4 number 5\n");
}

#[test]
fn the_key_is_touched() {
    refused(&job(0x00, &look_at(2)), 14, 4);
    runs(&job(0x00, &look_at(2)), Outcome::Denied, 2);
    prints(&job(0x10, &look_at(2)), "accepted 0000000000000010 number\ndone 4 number 5\n");
}

#[test]
fn the_touch_does_not_drop() {
    // The limit key of 2 carries 3, which is below 2.
    prints(&job(0x08, &look_at(3)), "accepted 0000000000000008 number\ndone 4 number 5\n");
}

#[test]
fn the_key_operand_does_not_drop() {
    // The key operand reads the cell of key 3 before it gives the limit key of 3.
    let exprs = "3200 390000 3201 33 0100 0200 34 0300 02 3001000000 3002000000
        40 0400 0500 0600 0000";
    prints(&job(0x08, exprs), "accepted 0000000000000008 number\ndone 12 number 1\n");
    refused(&job(0x00, exprs), 14, 7);
}

#[test]
fn names_drop_below_what_the_key_stands_for() {
    // The limit key of 4 carries 3; the first branch needs 3.
    let accepted = check(&job(0x08, &look_at(4))).unwrap();
    assert_eq!(accepted.effect, 0x08);
    assert_eq!(accepted.exprs[4].effect, 0x08);
    refused(&job(0x10, &look_at(4)), 14, 4);
}

#[test]
fn the_second_branch_keeps_its_effect() {
    let exprs = "3201 3005000000 3200 390200 40 0000 0100 0300 0000";
    prints(&job(0x08, exprs), "accepted 0000000000000008 number\ndone 4 number 5\n");
    refused(&job(0x00, exprs), 14, 4);
    runs(&job(0x00, exprs), Outcome::Denied, 5);
    // Inside a limit without keys too.
    let limited = format!("{exprs} 3C00 FFFFFFFFFFFFFFFF 0400");
    refused(&job(0x08, &limited), 13, 5);
}

#[test]
fn limits_and_grants_around_it_count() {
    let limited = format!("{} 3C00 FFFFFFFFFFFFFFFF 0400", look_at(1));
    prints(&job(0x08, &limited), "accepted 0000000000000000 number\ndone 5 number 5\n");
    let granted = "3205 3201 3200 390200 3005000000 40 0100 0300 0400 0000 3D 0000 0500";
    prints(&job(0x00, granted), "accepted 0000000000000000 number\ndone 9 number 7\n");
}

#[test]
fn a_grant_in_the_key_operand_does_not_count() {
    let exprs = "3205 3201 3D 0000 0100 3200 390300 3005000000 40 0200 0400 0500 0000";
    prints(&job(0x00, exprs), "accepted 0000000000000000 number\ndone 7 number 5\n");
}

#[test]
fn other_kinds_are_no_key() {
    // A grant key, a cell, a number.
    for key in ["3205", "3200", "3001000000"] {
        let job = job(0x02, &format!("{key} 3001000000 3002000000 40 0000 0100 0200 0000"));
        refused(&job, 11, 3);
        runs(&job, Outcome::Stuck, 2);
    }
}

#[test]
fn kinds_come_before_keys_and_types() {
    // A cell of key 3 that is not enabled; the branches are no numbers.
    let exprs = "3200 31 31 40 0000 0100 0200 0000";
    refused(&job(0x00, exprs), 11, 3);
    runs(&job(0x00, exprs), Outcome::Stuck, 2);
}

#[test]
fn both_branches_are_subtypes() {
    for (first, second) in [("31", "3001000000"), ("3001000000", "31")] {
        let job = job(0x00, &format!("3201 {first} {second} 40 0000 0100 0200 0000"));
        refused(&job, 12, 3);
        assert!(Machine::start(&job).is_ok());
    }
}

#[test]
fn the_type_is_the_written_one() {
    let job = job(0x00, "3201 3001000000 3002000000 40 0000 0100 0200 0700");
    let accepted = check(&job).unwrap();
    assert_eq!((accepted.entry, accepted.kind, accepted.effect), (7, Kind::Number, 0));
    // Nine declared types, and an entry for each of the two numbers.
    assert_eq!(accepted.types.len(), 11);
}

#[test]
fn new_keys_can_be_looked_at() {
    // 3E's limit key is looked at; the name above it is enabled or not.
    let exprs = "3202 320A 34 0100 01 3001000000 3002000000 40 0200 0300 0400 0000
        3E 0A 05 0000 0500 0000";
    prints(&job(0x04, exprs), "accepted 0000000000000010 number\ndone 9 number 1\n");
    prints(&job(0x10, exprs), "accepted 0000000000000010 number\ndone 9 number 2\n");
}

#[test]
fn reading_and_scope() {
    let at = job(0x00, "").len() as u32 - 1;
    let one = "3201 3001000000 3002000000";
    let place = at + 12;
    refused(&job(0x00, &format!("{one} 40 0000 0100 0200 00")), 6, place);
    let mut cut = job(0x00, &format!("{one} 40 0000 0100 0200 00"));
    cut.pop();
    refused(&cut, 4, place);
    refused(&job(0x00, &format!("{one} 40 0300 0100 0200 0000")), 6, place);
    refused(&job(0x00, &format!("{one} 40 0000 0100 0200 0900")), 6, place);
    refused(&job(0x00, &format!("{one} 43 0000 0100 0200 0000")), 2, place);
    refused(&job(0x00, &format!("{one} 40 0000 0100 0100 0000")), 8, 1);
    refused(&job(0x00, &format!("{one} 40 0000 0100 0200 0800")), 10, 3);
    let early = from_hex("1000 40 0000 0000 0000 0000").unwrap();
    refused(&early, 3, 2);
}
