//! The table of operand widths.

use std::collections::BTreeSet;

use second::generate::{COMMANDS, sweep};
use second::read::{command, width};
use second::widths::WIDTHS;
use second::write::operands;
use second::{Refusal, read};

#[test]
fn every_entry_is_the_sum_of_its_operands_or_255() {
    let of = |byte: u8| match COMMANDS.contains(&byte) {
        true => operands(byte).iter().map(|&(_, width)| width).sum(),
        false => 255,
    };
    let sums: Vec<usize> = (0..=255).map(of).collect();
    assert_eq!(WIDTHS.map(usize::from)[..], sums);
}

#[test]
fn thirty_bytes_are_commands() {
    assert_eq!(WIDTHS.iter().filter(|&&width| width != 255).count(), 30);
    let zero: Vec<u8> = (0..=255).filter(|&byte| WIDTHS[byte as usize] == 0).collect();
    assert_eq!(zero, [0x31, 0xFF]);
    assert_eq!((WIDTHS[0x13], WIDTHS[0x3C]), (13, 11));
    assert_eq!(WIDTHS.iter().filter(|&&width| width != 255).max(), Some(&13));
}

#[test]
fn what_is_asked_of_a_byte_is_its_entry() {
    for byte in 0..=255 {
        let entry = Some(WIDTHS[byte as usize] as usize).filter(|&width| width < 255);
        assert_eq!(command(byte).map(|(_, width)| width), entry, "{byte:02x}");
        assert_eq!(width(byte), entry.map(|width| 1 + width), "{byte:02x}");
    }
}

/// The bytes at which jobs of the sweep are refused with a number, and their places.
fn refused(number: u32) -> BTreeSet<(u8, u32)> {
    let refused = |job: Vec<u8>| match read(&job) {
        Err(Refusal { number: own, place }) if own == number => {
            job.get(place as usize).map(|&byte| (byte, place))
        }
        _ => None,
    };
    sweep().into_iter().filter_map(refused).collect()
}

#[test]
fn the_sweep_meets_every_entry() {
    // Where the six sections of its job end.
    let places = [0, 4, 7, 14, 23, 24];
    let (none, cut) = (refused(2), refused(4));
    for byte in 0..=255 {
        let is_none = !COMMANDS.contains(&byte);
        assert!(places.iter().all(|&at| none.contains(&(byte, at)) == is_none), "{byte:02x}");
        let is_cut = places.iter().any(|&at| cut.contains(&(byte, at)));
        assert_eq!(is_cut, !operands(byte).is_empty(), "{byte:02x}");
    }
}
