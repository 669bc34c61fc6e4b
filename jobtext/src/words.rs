//! Types and kinds in words.

use second::{Kind, Shape, Type};

use crate::commands::by_byte;
use crate::layout::Node;
use crate::symbols::Symbols;

/// How many parts of a type are shown before the rest is left out.
const PARTS: usize = 60;

/// The word of a kind in types.
pub fn kind_word(kind: Kind) -> &'static str {
    let byte = match kind {
        Kind::Number => 0x10,
        Kind::Pair => 0x11,
        Kind::Cell => 0x12,
        Kind::Function => 0x13,
        Kind::Limit => 0x14,
        Kind::Grant => 0x15,
    };
    by_byte(byte).next().map_or("", |row| row.word)
}

/// A kind in a sentence.
pub fn kind_words(kind: Kind) -> String {
    format!("a {}", kind_word(kind).replace('-', " "))
}

/// A number of things.
pub fn count(number: usize, thing: &str) -> String {
    match number {
        1 => format!("1 {thing}"),
        _ => format!("{number} {thing}s"),
    }
}

/// A type of a table, written out; parts beyond a count are left out.
pub fn type_words(table: &[Type], symbols: &Symbols, entry: u16) -> String {
    node(table, symbols, entry, &mut PARTS.clone()).flat()
}

fn node(table: &[Type], symbols: &Symbols, entry: u16, left: &mut usize) -> Node {
    if *left == 0 {
        return Node::word("..");
    }
    *left -= 1;
    let Type { key, shape } = table[entry as usize];
    let mut items = vec![Node::word(kind_word(table[entry as usize].kind()))];
    if key != 0 {
        items.push(Node::word(format!("@{}", symbols.name(key as u64))));
    }
    match shape {
        Shape::Number => {}
        Shape::Pair(a, b) | Shape::Function(a, b, _) => {
            items.push(node(table, symbols, a, left));
            items.push(node(table, symbols, b, left));
        }
        Shape::Cell(content) => items.push(node(table, symbols, content, left)),
        Shape::Limit(name) | Shape::Grant(name) => {
            items.push(Node::word(symbols.name(name as u64)));
        }
    }
    if let Shape::Function(_, _, effect) = shape {
        items.push(Node::word(symbols.set(effect)));
    }
    match items.len() {
        1 => items.remove(0),
        _ => Node::list(items),
    }
}
