//! Places in a text, and what is wrong there.

/// How much of a line is shown.
const WIDTH: usize = 120;

/// A stretch of a line. Lines and columns count from 1, columns by characters.
#[derive(Clone, Copy, Debug, Default, PartialEq, Eq, PartialOrd, Ord)]
pub struct Span {
    pub line: usize,
    pub column: usize,
    pub length: usize,
}

/// Something wrong in a text.
#[derive(Clone, Debug, PartialEq, Eq, PartialOrd, Ord)]
pub struct Problem {
    pub span: Span,
    pub words: String,
}

impl Problem {
    pub fn new(span: Span, words: impl Into<String>) -> Self {
        Problem { span, words: words.into() }
    }

    /// The problem as `file:line:column: words`, with the line below it and a mark under the place.
    pub fn show(&self, file: &str, text: &str) -> String {
        let Span { line, column, length } = self.span;
        let head = format!("{file}:{line}:{column}: {}\n", self.words);
        let Some(source) = text.lines().nth(line - 1) else {
            return head;
        };
        // Of a long line the part around the place.
        let skipped = if column > WIDTH { column - WIDTH / 2 } else { 0 };
        let part = source.chars().skip(skipped).take(WIDTH);
        let shown: String = part.map(|c| if c == '\t' { ' ' } else { c }).collect();
        let gap = " ".repeat(column - 1 - skipped);
        let room = (shown.chars().count() + skipped + 1).saturating_sub(column).max(1);
        format!("{head}{line:5} | {shown}\n      | {gap}{}\n", "^".repeat(length.clamp(1, room)))
    }
}

/// The word of a list that is nearest to a misspelt one, if one is near.
pub fn nearest<'a>(word: &str, known: impl Iterator<Item = &'a str>) -> Option<&'a str> {
    let far = (word.chars().count() / 2).min(2);
    let near = known.map(|other| (distance(word, other), other));
    near.filter(|&(distance, _)| distance <= far).min().map(|(_, other)| other)
}

/// How many letters are put in, taken out or changed between two words.
fn distance(from: &str, to: &str) -> usize {
    let to: Vec<char> = to.chars().collect();
    let mut row: Vec<usize> = (0..=to.len()).collect();
    for (i, a) in from.chars().enumerate() {
        let mut corner = row[0];
        row[0] = i + 1;
        for (j, &b) in to.iter().enumerate() {
            let changed = corner + (a != b) as usize;
            corner = row[j + 1];
            row[j + 1] = changed.min(row[j] + 1).min(corner + 1);
        }
    }
    row[to.len()]
}
