//! How commands are written, for messages about texts.

use crate::commands::{Form, Operand, Row, Section};

/// A word that stands for nothing, with the one that may be meant.
pub fn unknown(what: &str, word: &str, near: Option<&str>) -> String {
    match near {
        Some(near) => format!("no {what} is called `{word}`; is it `{near}`?"),
        None => format!("no {what} is called `{word}`"),
    }
}

/// A word that must stand in brackets.
pub fn bracketed(row: &Row) -> String {
    format!("`{}` has operands and stands in brackets: {}", row.word, usage(row))
}

/// An operand that is missing.
pub fn lacking(row: &Row, operand: Operand) -> String {
    format!("`{}` lacks its {}: {}", row.word, what(operand), usage(row))
}

/// What an operand is, in words.
fn what(operand: Operand) -> &'static str {
    match operand {
        Operand::Upper => "upper name",
        Operand::Key => "key",
        Operand::Name | Operand::Local => "name",
        Operand::Type => "type",
        Operand::Number => "number",
        Operand::Set => "set of names",
        Operand::Bound | Operand::Variable => "variable",
        Operand::Expr(role) => role,
        Operand::Keys => "limit keys",
        Operand::Fixed(_) => "byte",
    }
}

/// How a command is written.
pub fn usage(row: &Row) -> String {
    let operand = |&place: &usize| match row.operands[place] {
        Operand::Key => "[@KEY]".to_string(),
        Operand::Type if row.section == Section::Expressions => ":TYPE".to_string(),
        Operand::Set => "{NAME ..}".to_string(),
        Operand::Keys => "[LIMIT-KEY ..]".to_string(),
        other => what(other).to_uppercase().replace(' ', "-"),
    };
    let operands: Vec<String> = row.written().iter().map(operand).collect();
    match (row.form, operands.is_empty()) {
        (Form::Bare, _) => operands.join(" "),
        (_, true) => row.word.to_string(),
        _ => format!("({} {})", row.word, operands.join(" ")),
    }
}
