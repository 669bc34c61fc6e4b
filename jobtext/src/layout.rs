//! Nested text in lines of at most so many columns, where that can be done.

/// The longest line.
const WIDTH: usize = 100;
/// The furthest a line is set in.
const FURTHEST: usize = 48;

/// Nested text: a word, or a group in brackets.
#[derive(Clone, Debug)]
pub enum Node {
    Word(String),
    Group(char, Vec<Node>, char, usize),
}

impl Node {
    pub fn word(word: impl Into<String>) -> Self {
        Node::Word(word.into())
    }

    /// A group in round brackets.
    pub fn list(items: Vec<Node>) -> Self {
        Node::group('(', items, ')')
    }

    /// A group in brackets.
    pub fn group(open: char, items: Vec<Node>, close: char) -> Self {
        let inner: usize = items.iter().map(|item| item.width() + 1).sum();
        Node::Group(open, items, close, inner.max(1) + 1)
    }

    /// The columns of the node in one line.
    pub fn width(&self) -> usize {
        match self {
            Node::Word(word) => word.chars().count(),
            Node::Group(.., width) => *width,
        }
    }

    /// The node in one line.
    pub fn flat(&self) -> String {
        match self {
            Node::Word(word) => word.clone(),
            Node::Group(open, items, close, _) => {
                let items: Vec<String> = items.iter().map(Node::flat).collect();
                format!("{open}{}{close}", items.join(" "))
            }
        }
    }

    /// The node in lines, each after the first set in; `column` is where the first one begins.
    pub fn lines(&self, inset: usize, column: usize) -> String {
        let mut out = String::new();
        self.write(inset, column, &mut out);
        out
    }

    fn write(&self, inset: usize, column: usize, out: &mut String) {
        match self {
            Node::Group(open, items, close, width) if column + width > WIDTH => {
                out.push(*open);
                let inset = (inset + 2).min(FURTHEST);
                let mut at = column + 1;
                let mut broken = false;
                for (place, item) in items.iter().enumerate() {
                    let fits = at + 1 + item.width() <= WIDTH;
                    let word = match item {
                        Node::Word(_) => true,
                        Node::Group(open, ..) => *open == '[' && fits,
                    };
                    broken |= place > 0 && !word;
                    if place > 0 && (broken || !fits) {
                        out.push('\n');
                        out.push_str(&" ".repeat(inset));
                        at = inset;
                    } else if place > 0 {
                        out.push(' ');
                        at += 1;
                    }
                    item.write(inset, at, out);
                    at += item.width();
                }
                out.push(*close);
            }
            _ => out.push_str(&self.flat()),
        }
    }
}
