//! Command 41: a number divided by another, quotient and rest.

mod common;

use common::{prints, refused, run, runs};
use second::generate::Rng;
use second::{Kind, Machine, Outcome, Shape, Type, check, from_hex};

const TOP: u32 = u32::MAX;

/// A number as the bytes of an operand.
fn operand(number: u32) -> String {
    number.to_le_bytes().map(|byte| format!("{byte:02x}")).concat()
}

/// Host names 2 under 1, and 3 and 4 under 2. Types: 0 number, 1 cell of key 3, 2 limit key of 3, 3
/// limit key of 4, 4 grant key of 3, 5 pair of numbers. Variables 0 to 3 are of the types 1 to 4; the
/// cell holds 7.
fn job(rights: u8, exprs: &str) -> Vec<u8> {
    let hex = format!(
        "0101 0102 0102 1000 12030000 140003 140004 150003 110000000000
         200100 07000000 200200 00000000 200300 00000000 200400 00000000
         21{rights:02x}00000000000000 {exprs} FF"
    );
    from_hex(&hex).expect("hexadecimal digits")
}

/// Part 1 or 2 of a division of two numbers that are written in the job.
fn part(dividend: u32, divisor: u32, part: u8) -> String {
    let (a, b) = (operand(dividend), operand(divisor));
    format!("30{a} 30{b} 41 0000 0100 34 0200 {part:02x}")
}

fn divides(dividend: u32, divisor: u32, quotient: u32, rest: u32) {
    for (place, number) in [(1, quotient), (2, rest)] {
        let lines = format!("accepted 0000000000000000 number\ndone 7 number {number}\n");
        prints(&job(0, &part(dividend, divisor, place)), &lines);
    }
}

#[test]
fn quotient_and_rest() {
    divides(480, 7, 68, 4);
    divides(12, 4, 3, 0);
    divides(4, 5, 0, 4);
    divides(5, 5, 1, 0);
    divides(7, 1, 7, 0);
    divides(0, 9, 0, 0);
    // Just past a half, and just before the next.
    divides(15, 8, 1, 7);
    divides(12, 8, 1, 4);
}

#[test]
fn a_divisor_of_0() {
    divides(0, 0, 0, 0);
    divides(1, 0, 0, 1);
    divides(480, 0, 0, 480);
    divides(TOP, 0, 0, TOP);
}

#[test]
fn high_numbers() {
    divides(TOP, 1, TOP, 0);
    divides(TOP, TOP, 1, 0);
    divides(TOP - 1, TOP, 0, TOP - 1);
    divides(TOP, TOP - 1, 1, 1);
    divides(TOP, 2, (1 << 31) - 1, 1);
    divides(1 << 31, TOP, 0, 1 << 31);
    divides(TOP, 1 << 31, 1, (1 << 31) - 1);
    divides(TOP, 1 << 16, (1 << 16) - 1, (1 << 16) - 1);
}

/// Quotient times divisor and the rest is the dividend, and the rest is less than a divisor above 0.
#[test]
fn nothing_is_lost() {
    let mut rng = Rng::new(5);
    for _ in 0..2_000 {
        let word = |rng: &mut Rng| (rng.word() as u32).checked_shr(rng.below(33) as u32);
        let (a, b) = (word(&mut rng).unwrap_or(0), word(&mut rng).unwrap_or(0));
        let [quotient, rest] = [1, 2].map(|place| {
            let mut machine = Machine::start(&job(0, &part(a, b, place))).unwrap();
            machine.run([100; 8]);
            machine.result().unwrap().data()
        });
        assert_eq!(u64::from(quotient) * u64::from(b) + u64::from(rest), u64::from(a));
        assert!(if b == 0 { quotient == 0 } else { rest < b }, "{a} by {b}");
    }
}

#[test]
fn the_pair_takes_one_place() {
    let job = job(0, "3009000000 3004000000 41 0000 0100");
    prints(&job, "accepted 0000000000000000 pair\ndone 5 pair\n");
    let mut machine = Machine::start(&job).unwrap();
    let before = machine.rooms();
    machine.run([100; 8]);
    assert_eq!(machine.rooms().pairs, before.pairs + 1);
    assert_eq!(machine.rooms().bindings, before.bindings);
    assert_eq!(machine.result().unwrap().key(), 0);
}

/// An entry for the number, then one for the pair, whatever is there.
#[test]
fn two_entries() {
    let accepted = check(&job(0, "3009000000 3004000000 41 0000 0100")).unwrap();
    assert_eq!(accepted.entry, 9);
    assert_eq!(accepted.types.len(), 10);
    assert_eq!(accepted.types[8], Type::unkeyed(Shape::Number));
    assert_eq!(accepted.types[9], Type::unkeyed(Shape::Pair(8, 8)));
    // What comes after it stands after both.
    let more = job(0, "3009000000 3004000000 41 0000 0100 31 33 0200 0300");
    let accepted = check(&more).unwrap();
    assert_eq!(accepted.types[10], Type::unkeyed(Shape::Limit(1)));
    assert_eq!(accepted.types[11], Type::unkeyed(Shape::Pair(9, 10)));
}

/// A number of key 3 on either side, and then one of key 4 as well.
#[test]
fn both_numbers_are_touched() {
    let first = "3009000000 3201 3F 0000 0100 3004000000 41 0200 0300";
    let second = "3009000000 3004000000 3201 3F 0100 0200 41 0000 0300";
    for exprs in [first, second] {
        prints(&job(0x08, exprs), "accepted 0000000000000008 pair\ndone 9 pair\n");
        refused(&job(0x10, exprs), 14, 4);
        runs(&job(0x10, exprs), Outcome::Denied, 8);
    }
    let both = "3009000000 3201 3F 0000 0100 3004000000 3202 3F 0300 0400 41 0200 0500";
    prints(&job(0x04, both), "accepted 0000000000000018 pair\ndone 13 pair\n");
    refused(&job(0x08, both), 14, 6);
    refused(&job(0x10, both), 14, 6);
    // What it gives has no key: a sum with a part of it adds nothing to the effect.
    let parts = format!("{first} 34 0400 02 3001000000 3A00 0500 0600");
    prints(&job(0x08, &parts), "accepted 0000000000000008 number\ndone 15 number 2\n");
}

#[test]
fn limits_and_grants_around_it() {
    let keyed = "3009000000 3201 3F 0000 0100 3004000000 41 0200 0300";
    refused(&job(0x08, &format!("{keyed} 3202 3C01 0500FFFFFFFFFFFF 0400")), 13, 6);
    let limited = job(0x08, &format!("{keyed} 3201 3C01 0500FFFFFFFFFFFF 0400"));
    prints(&limited, "accepted 0000000000000008 pair\ndone 12 pair\n");
    // A grant around it drops both the touch of the number and that of 3F: what is left needs no right.
    let granted = job(0x00, &format!("{keyed} 3203 3D 0500 0400"));
    prints(&granted, "accepted 0000000000000000 pair\ndone 12 pair\n");
}

#[test]
fn wrong_kinds() {
    let (first, second) = ("31 3004000000 41 0000 0100", "3004000000 31 41 0000 0100");
    for exprs in [first, second, "31 31 41 0000 0100", "3004000000 3200 41 0000 0100"] {
        refused(&job(0x02, exprs), 11, 2);
        runs(&job(0x02, exprs), Outcome::Stuck, 4);
    }
    // Kinds come before keys: the dividend's key is not enabled.
    let keyed = "3009000000 3201 3F 0000 0100 31 41 0200 0300";
    runs(&job(0x00, keyed), Outcome::Stuck, 8);
    refused(&job(0x00, keyed), 11, 4);
}

/// The pair is a subtype of pairs that are declared: as an argument, and assigned.
#[test]
fn the_pair_is_compared() {
    let taken = "3009000000 3004000000 41 0000 0100 3204 34 0300 01 350405000400 36 0500 0200";
    prints(&job(0, taken), "accepted 0000000000000000 number\ndone 12 number 2\n");
    let cell = "3009000000 3004000000 41 0000 0100 37 0500 0200 39 0300";
    prints(&job(0, cell), "accepted 0000000000000000 pair\ndone 9 pair\n");
    let wrong = "3009000000 3004000000 41 0000 0100 37 0000 0200 39 0300";
    refused(&job(0, wrong), 12, 3);
}

#[test]
fn reading() {
    let place = job(0, "").len() as u32 - 1;
    let one = "3009000000 3004000000";
    let at = place + 10;
    refused(&job(0, &format!("{one} 41 0000 0200")), 6, at);
    refused(&job(0, &format!("{one} 41 0200 0100")), 6, at);
    refused(&job(0, &format!("{one} 41 0000 0000")), 8, 0);
    refused(&job(0, &format!("{one} 43 0000 0100")), 2, at);
    let mut cut = job(0, &format!("{one} 41 0000 01"));
    cut.pop();
    refused(&cut, 4, at);
    let early = from_hex("1000 41 0000 0000").unwrap();
    refused(&early, 3, 2);
}

/// A function that divides, called 513 times by itself: the last division has no room.
#[test]
fn no_room() {
    // Variables: 0 the counter, 1 the cell that holds the function. The load is a rest.
    let exprs = "3001000000 3000000000 41 0000 0100 34 0200 02
        3200 3A01 0400 0300 3201 39 0600 36 0700 0500
        3200 3003000000 3B 0900 0800 0A00 0000
        35 00 0000 0B00 3201 38 0D00 0C00 30E8030000 36 0E00 0F00
        35 01 0200 1000 3002000000 35 02 0000 1200 37 0100 1300 36 1100 1400";
    let hex = format!("1000 13000000000000000000000000000 12000100 210000000000000000 {exprs} FF");
    let hex = hex.replace("13000000000000000000000000000", "1300000000000000000000000000");
    let job = from_hex(&hex).expect("hexadecimal digits");
    assert_eq!(check(&job).unwrap().kind, Kind::Number);
    let mut machine = Machine::start(&job).unwrap();
    let (outcome, steps) = run(&mut machine, 100_000);
    assert_eq!((outcome, machine.rooms().pairs), (Outcome::NoRoom, 512));
    assert_eq!(run(&mut machine, 5), (Outcome::NoRoom, 0));
    assert!(steps > 512 * 7);
}
