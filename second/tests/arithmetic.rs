//! Command 3A: sums stop at 4294967295 and differences at 0.

use second::{Machine, desk, from_hex};

const TOP: u32 = u32::MAX;

/// A number as the bytes of an operand.
fn operand(number: u32) -> String {
    number.to_le_bytes().map(|byte| format!("{byte:02x}")).concat()
}

fn prints(hex: &str, steps: u32, number: u32) {
    let job = from_hex(hex).expect("hexadecimal digits");
    let lines = format!("accepted 0000000000000000 number\ndone {steps} number {number}\n");
    assert_eq!(desk(&job), lines);
}

/// Both ways to have two numbers: written in the job, and read from host cells.
fn reckons(op: u8, [a, b]: [u32; 2], number: u32) {
    let (a, b) = (operand(a), operand(b));
    let rights = "210000000000000000";
    prints(&format!("{rights} 30{a} 30{b} 3A{op:02x}00000100 FF"), 5, number);
    let cells = format!("1000 12000000 200100{a} 200100{b} {rights}");
    prints(&format!("{cells} 3200 390000 3201 390200 3A{op:02x}01000300 FF"), 9, number);
}

#[test]
fn sums() {
    reckons(0, [2, 3], 5);
    reckons(0, [TOP - 2, 1], TOP - 1);
    reckons(0, [TOP - 1, 1], TOP);
    reckons(0, [TOP, 0], TOP);
    reckons(0, [0, TOP], TOP);
    reckons(0, [TOP, 1], TOP);
    reckons(0, [1, TOP], TOP);
    reckons(0, [TOP, TOP], TOP);
    reckons(0, [1 << 31, (1 << 31) - 1], TOP);
    reckons(0, [1 << 31, 1 << 31], TOP);
}

#[test]
fn differences() {
    reckons(1, [5, 3], 2);
    reckons(1, [5, 4], 1);
    reckons(1, [5, 5], 0);
    reckons(1, [4, 5], 0);
    reckons(1, [0, TOP], 0);
    reckons(1, [TOP, TOP], 0);
    reckons(1, [TOP, 0], TOP);
    reckons(1, [1 << 31, TOP], 0);
    reckons(1, [TOP, 1 << 31], (1 << 31) - 1);
}

/// What stopped is a number like any other: 3 - 5 + 2 is 2, and 4294967295 + 1 - 1 one less.
#[test]
fn what_stopped_is_reckoned_with() {
    let rights = "210000000000000000";
    let less = "3003000000 3005000000 3A0100000100 3002000000 3A0002000300 FF";
    prints(&format!("{rights} {less}"), 9, 2);
    let more = "30FFFFFFFF 3001000000 3A0000000100 3001000000 3A0102000300 FF";
    prints(&format!("{rights} {more}"), 9, TOP - 1);
}

/// A difference that stops is zero to a test.
#[test]
fn a_difference_below_zero_tests_as_zero() {
    let job = "1000 210000000000000000 3003000000 3005000000 3A0100000100
        3007000000 3008000000 3B 0200 0300 0400 0000 FF";
    prints(job, 8, 8);
}

/// A host cell holds what stopped once it is assigned.
#[test]
fn a_host_cell_holds_what_stopped() {
    let job = "1000 12000000 200100FEFFFFFF 210000000000000000
        3200 3200 390100 3009000000 3A00 0200 0300 38 0000 0400 FF";
    let mut machine = Machine::start(&from_hex(job).expect("hexadecimal digits")).unwrap();
    machine.run([100; 8]);
    assert_eq!(machine.cells()[0].data(), TOP);
}
