//! One line of a stand file, word by word. Every method that reads a word says,
//! where the word isn't what it should be, where that is and what was expected.

use crate::mistake::{quoted, Mistake};
use crate::stand::Address;

/// The words of the format; a name is none of them.
const WORDS: [&str; 20] = [
    "head", "gauge", "cable", "send", "take", "pull", "plug", "set", "ports", "port", "hops",
    "default", "salt", "on", "address", "from", "to", "everyone", "all", "shuffled",
];

/// A name where it stands in the file.
#[derive(Clone, PartialEq, Eq, Debug)]
pub struct Name {
    pub text: String,
    pub column: usize,
}

pub struct Line<'a> {
    pub number: usize,
    /// Each word with its column.
    words: Vec<(&'a str, usize)>,
    next: usize,
    end: usize,
    /// How a line of this kind reads, for its mistakes.
    pub example: &'static str,
}

impl<'a> Line<'a> {
    /// A comment starts at `#` and is no part of the line.
    pub fn new(number: usize, text: &'a str, example: &'static str) -> Self {
        let text = text.split('#').next().unwrap_or("");
        let (mut words, mut start, mut column) = (Vec::new(), None, 1);
        for (at, c) in text.char_indices() {
            match (c == ' ' || c == '\t', start) {
                (false, None) => start = Some((at, column)),
                (true, Some((from, first))) => {
                    words.push((&text[from..at], first));
                    start = None;
                }
                _ => {}
            }
            column += 1;
        }
        if let Some((from, first)) = start {
            words.push((&text[from..], first));
        }
        Line { number, words, next: 0, end: column, example }
    }

    pub fn is_empty(&self) -> bool {
        self.words.is_empty()
    }

    pub fn peek(&self) -> Option<&'a str> {
        self.words.get(self.next).map(|&(word, _)| word)
    }

    fn column(&self) -> usize {
        self.words.get(self.next).map_or(self.end, |&(_, column)| column)
    }

    /// The mistake that the next word is, or that it isn't there.
    pub fn unexpected(&self, expected: impl Into<String>) -> Mistake {
        let what = match self.peek() {
            Some(word) => format!("{} doesn't belong here", quoted(word)),
            None => "the line ends too early".to_string(),
        };
        self.mistake(what, expected)
    }

    fn mistake(&self, what: String, expected: impl Into<String>) -> Mistake {
        let (line, column) = (self.number, self.column());
        Mistake { line, column, what, expected: expected.into(), example: self.example }
    }

    /// Reads the word if it is the next one.
    pub fn accept(&mut self, word: &str) -> bool {
        let found = self.peek() == Some(word);
        self.next += usize::from(found);
        found
    }

    pub fn word(&mut self, word: &str) -> Result<(), Mistake> {
        match self.accept(word) {
            true => Ok(()),
            false => Err(self.unexpected(format!("the word '{word}'"))),
        }
    }

    pub fn end(&self) -> Result<(), Mistake> {
        match self.peek() {
            None => Ok(()),
            Some(_) => Err(self.unexpected("the end of the line, or a comment after #")),
        }
    }

    /// A number from 0 to `most`, decimal or 0x and hex digits.
    pub fn number(&mut self, what: &str, most: u64) -> Result<u64, Mistake> {
        let expected = format!("{what}, a number from 0 to {most}");
        let Some(value) = self.peek().and_then(number_of) else {
            return Err(self.unexpected(expected));
        };
        if value > u128::from(most) {
            let what = format!("{} is too large", quoted(self.peek().unwrap_or("")));
            return Err(self.mistake(what, expected));
        }
        self.next += 1;
        Ok(value as u64)
    }

    pub fn byte(&mut self, what: &str) -> Result<u8, Mistake> {
        Ok(self.number(what, u64::from(u8::MAX))? as u8)
    }

    /// A name: a letter, then letters, digits, - and _; at most 32, no word of the format.
    pub fn name(&mut self, what: &str) -> Result<Name, Mistake> {
        match self.peek() {
            Some(word) if WORDS.contains(&word) => {
                let found = format!("'{word}' is a word of the format and can't be a name");
                Err(self.mistake(found, what))
            }
            Some(word) if is_name(word) => {
                let name = Name { text: word.to_string(), column: self.column() };
                self.next += 1;
                Ok(name)
            }
            _ => Err(self.unexpected(what)),
        }
    }

    pub fn address(&mut self) -> Result<Address, Mistake> {
        match self.peek().and_then(address_of) {
            Some(address) => {
                self.next += 1;
                Ok(address)
            }
            None => Err(self.unexpected("an address, six pairs of hex digits with colons")),
        }
    }
}

/// None if the word isn't a number at all; as large as u128 holds if it is larger.
fn number_of(word: &str) -> Option<u128> {
    let (digits, radix) = word.strip_prefix("0x").map_or((word, 10), |hex| (hex, 16));
    if digits.is_empty() || !digits.chars().all(|c| c.is_digit(radix)) {
        return None;
    }
    Some(u128::from_str_radix(digits, radix).unwrap_or(u128::MAX))
}

pub fn address_of(word: &str) -> Option<Address> {
    let mut bytes = [0; 6];
    let mut pairs = word.split(':');
    for byte in &mut bytes {
        let pair = pairs.next()?;
        if pair.len() != 2 || !pair.bytes().all(|digit| digit.is_ascii_hexdigit()) {
            return None;
        }
        *byte = u8::from_str_radix(pair, 16).ok()?;
    }
    pairs.next().is_none().then_some(Address(bytes))
}

fn is_name(word: &str) -> bool {
    word.starts_with(char::is_alphabetic)
        && word.chars().all(|c| c.is_alphanumeric() || c == '-' || c == '_')
        && word.chars().count() <= 32
}
