//! Subtypes, with the first place where two types part.

use std::collections::HashSet;

use second::names::Names;
use second::{Kind, Shape, Type};

/// How the first type is compared with the second.
#[derive(Clone, Copy, Debug, PartialEq, Eq, Hash)]
pub enum Relation {
    Below,
    Above,
    Equal,
}

impl Relation {
    fn turned(self) -> Self {
        match self {
            Relation::Below => Relation::Above,
            Relation::Above => Relation::Below,
            Relation::Equal => Relation::Equal,
        }
    }
}

/// What differs: of the first type, of the second.
#[derive(Clone, Copy, Debug, PartialEq, Eq)]
pub enum Apart {
    Keys(u8, u8),
    Kinds(Kind, Kind),
    Effects(u64, u64),
    /// The names that limit or grant keys stand for.
    Names(u8, u8),
}

/// Where two types part.
#[derive(Clone, Debug, PartialEq, Eq)]
pub struct Gap {
    /// The way down to the place, from outside.
    pub path: Vec<&'static str>,
    pub relation: Relation,
    pub apart: Apart,
}

/// Compares entries of a type table. What was found to hold is kept.
pub struct Compare<'a> {
    names: &'a Names,
    holds: HashSet<(Relation, u16, u16)>,
}

impl<'a> Compare<'a> {
    pub fn new(names: &'a Names) -> Self {
        Compare { names, holds: HashSet::new() }
    }

    /// Where the first type is not a subtype of the second.
    pub fn below(&mut self, table: &[Type], a: u16, b: u16) -> Option<Gap> {
        let mut path = Vec::new();
        self.gap(table, Relation::Below, a, b, &mut path)
    }

    fn gap(
        &mut self,
        table: &[Type],
        relation: Relation,
        a: u16,
        b: u16,
        path: &mut Vec<&'static str>,
    ) -> Option<Gap> {
        if a == b || self.holds.contains(&(relation, a, b)) {
            return None;
        }
        let (one, other) = (table[a as usize], table[b as usize]);
        if let Some(apart) = self.outside(relation, one, other) {
            return Some(Gap { path: path.clone(), relation, apart });
        }
        for (step, relation, a, b) in parts(relation, one.shape, other.shape) {
            path.push(step);
            if let Some(gap) = self.gap(table, relation, a, b, path) {
                return Some(gap);
            }
            path.pop();
        }
        self.holds.insert((relation, a, b));
        None
    }

    /// What differs before the parts are looked at.
    fn outside(&self, relation: Relation, a: Type, b: Type) -> Option<Apart> {
        let names = self.names;
        let keys = match relation {
            Relation::Below => names.below(a.key, b.key),
            Relation::Above => names.below(b.key, a.key),
            Relation::Equal => a.key == b.key,
        };
        if a.kind() != b.kind() {
            return Some(Apart::Kinds(a.kind(), b.kind()));
        }
        if !keys {
            return Some(Apart::Keys(a.key, b.key));
        }
        match (a.shape, b.shape) {
            (Shape::Limit(a), Shape::Limit(b)) | (Shape::Grant(a), Shape::Grant(b)) => {
                (a != b).then_some(Apart::Names(a, b))
            }
            (Shape::Function(_, _, a), Shape::Function(_, _, b)) => {
                let holds = match relation {
                    Relation::Below => names.set_below(a, b),
                    Relation::Above => names.set_below(b, a),
                    Relation::Equal => a == b,
                };
                (!holds).then_some(Apart::Effects(a, b))
            }
            _ => None,
        }
    }
}

/// The parts of two types of one kind, and how each is compared.
fn parts(relation: Relation, a: Shape, b: Shape) -> Vec<(&'static str, Relation, u16, u16)> {
    match (a, b) {
        (Shape::Pair(a1, a2), Shape::Pair(b1, b2)) => {
            vec![("first part", relation, a1, b1), ("second part", relation, a2, b2)]
        }
        (Shape::Cell(a), Shape::Cell(b)) => vec![("content", Relation::Equal, a, b)],
        (Shape::Function(a1, a2, _), Shape::Function(b1, b2, _)) => {
            vec![("argument", relation.turned(), a1, b1), ("result", relation, a2, b2)]
        }
        _ => vec![],
    }
}
