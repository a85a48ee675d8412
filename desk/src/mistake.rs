//! A mistake of a stand file: where it stands, what is wrong, and how it should read.

use std::fmt::Write;

/// So many mistakes are shown; the others are counted.
const SHOWN: usize = 20;

#[derive(Clone, PartialEq, Eq, Debug)]
pub struct Mistake {
    /// Line and column, counted from 1; a column counts characters.
    pub line: usize,
    pub column: usize,
    pub what: String,
    pub expected: String,
    pub example: &'static str,
}

/// All mistakes of a file as one message, in the order of its lines.
pub fn message(file: &str, mistakes: &[Mistake]) -> String {
    let mut text = String::new();
    for mistake in mistakes.iter().take(SHOWN) {
        let Mistake { line, column, what, expected, example } = mistake;
        let _ = writeln!(text, "{file}:{line}:{column}: {what}");
        let _ = writeln!(text, "    expected {expected}, for example: {example}");
    }
    let count = mistakes.len();
    if count > SHOWN {
        let _ = writeln!(text, "and {} more mistakes", count - SHOWN);
    }
    let _ = match count {
        1 => writeln!(text, "one mistake; nothing was run"),
        _ => writeln!(text, "{count} mistakes; nothing was run"),
    };
    text
}

/// A word of the file, fit for a message.
pub fn quoted(word: &str) -> String {
    format!("'{}'", shown(word, 40))
}

/// Cut short after so many characters, and nothing unprintable in it.
pub fn shown(text: &str, most: usize) -> String {
    let shown: String = text.chars().take(most).flat_map(char::escape_debug).collect();
    let more = if text.chars().count() > most { ".." } else { "" };
    shown + more
}
