//! What jobs of looks, divisions and threads have alike: their names, the types of their keys, their
//! host values, and the rights that they may have.

use super::Rng;
use crate::job::*;
use crate::names::Names;

/// Rights to choose from.
pub const RIGHTS: [u64; 6] = [0, 0b10, 0b100, 0b1000, 0b10000, 0b11000];

/// Host names 2 under 1, and 3 and 4 under 2; then so many local names under 2.
pub fn names(locals: u8) -> Names {
    let mut names = Names::default();
    for upper in [1, 2, 2] {
        names.declare(upper, true);
    }
    for _ in 0..locals {
        names.declare(2, false);
    }
    names
}

/// The types of limit keys and then of grant keys of names 1 to 4, each with one of these keys of its own.
pub fn keys(rng: &mut Rng, own: &[u8]) -> impl Iterator<Item = Type> {
    let shapes = (1..=4).map(Shape::Limit).chain((1..=4).map(Shape::Grant));
    shapes.map(|shape| Type { key: rng.pick(own), shape })
}

/// A host value of each of the last `count` types, with its number.
pub fn hosts(types: &[Type], count: u8, mut number: impl FnMut(u8) -> u32) -> Vec<HostValue> {
    let first = types.len() as u16 - count as u16;
    (0..count).map(|v| HostValue { ty: first + v as u16, number: number(v) }).collect()
}
