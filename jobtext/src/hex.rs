//! Bytes as hexadecimal text: two digits a byte, blanks between them, a comment from `#` on.

use crate::decode::decode;
use crate::problem::{Problem, Span};

/// The bytes of hexadecimal text.
pub fn read(text: &str) -> Result<Vec<u8>, Vec<Problem>> {
    let (mut bytes, mut problems) = (Vec::new(), Vec::new());
    for (line, source) in text.lines().enumerate() {
        let source = source.split('#').next().unwrap_or_default();
        for (column, word) in words(source) {
            let ascii = word.bytes().all(|byte| byte.is_ascii_hexdigit());
            match u8::from_str_radix(word, 16) {
                Ok(byte) if ascii && word.len() == 2 => bytes.push(byte),
                _ => {
                    let span = Span { line: line + 1, column, length: word.chars().count() };
                    let words = format!("`{word}` is not two hexadecimal digits");
                    problems.push(Problem::new(span, words));
                }
            }
        }
    }
    if problems.is_empty() { Ok(bytes) } else { Err(problems) }
}

/// The words of a line and their columns.
fn words(line: &str) -> impl Iterator<Item = (usize, &str)> {
    let column = |word: &str| {
        let offset = word.as_ptr() as usize - line.as_ptr() as usize;
        line[..offset].chars().count() + 1
    };
    line.split_whitespace().map(move |word| (column(word), word))
}

/// Bytes as hexadecimal text: a line a command, then what does not read.
pub fn write(bytes: &[u8]) -> String {
    let listing = decode(bytes);
    let commands = listing.commands.iter().map(|command| command.bytes());
    let rest = bytes[listing.rest..].chunks(16).map(<[u8]>::to_vec);
    let mut out = String::new();
    for line in commands.chain(rest) {
        let digits: Vec<String> = line.iter().map(|byte| format!("{byte:02X}")).collect();
        out.push_str(&format!("{}\n", digits.join(" ")));
    }
    out
}
