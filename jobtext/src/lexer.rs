//! Text to tokens. A comment goes from `#` to the end of its line; a comma counts as a blank.

use crate::problem::{Problem, Span};

/// A word, or one of the marks `( ) [ ] { } @ : =`.
#[derive(Clone, Debug, PartialEq, Eq)]
pub enum Token {
    Mark(char),
    Word(String),
}

impl Token {
    /// How the token is written.
    pub fn show(&self) -> String {
        match self {
            Token::Mark(mark) => mark.to_string(),
            Token::Word(word) => word.clone(),
        }
    }
}

/// The tokens of a text, and the characters that have no meaning.
pub fn tokens(text: &str) -> (Vec<(Span, Token)>, Vec<Problem>) {
    let (mut tokens, mut problems) = (Vec::new(), Vec::new());
    for (line, source) in text.lines().enumerate() {
        let letters: Vec<char> = source.chars().collect();
        let mut at = 0;
        while at < letters.len() && letters[at] != '#' {
            let letter = letters[at];
            let word = letters[at..].iter().take_while(|&&c| is_word(c)).count();
            let span = Span { line: line + 1, column: at + 1, length: word.max(1) };
            if word > 0 {
                tokens.push((span, Token::Word(letters[at..at + word].iter().collect())));
            } else if "()[]{}@:=".contains(letter) {
                tokens.push((span, Token::Mark(letter)));
            } else if !letter.is_whitespace() && letter != ',' && letter != '\u{feff}' {
                let shown = letter.escape_debug();
                problems.push(Problem::new(span, format!("`{shown}` has no meaning here")));
            }
            at += word.max(1);
        }
    }
    (tokens, problems)
}

/// Whether a letter may stand in a word.
fn is_word(letter: char) -> bool {
    letter.is_alphanumeric() || "_-.".contains(letter)
}
