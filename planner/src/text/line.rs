//! One line of a text, read from left to right.

use super::Fault;
use crate::names;

/// How many characters of a line or a word a fault repeats.
const MOST_REPEATED: usize = 60;

/// The largest number that a field of a sheet holds, and the largest that the monitor takes there.
pub struct Limit {
    pub field: u64,
    pub monitor: u64,
}

/// A line without its comment, and what of it is not read yet.
pub struct Line<'a> {
    number: usize,
    text: &'a str,
    unread: &'a str,
}

impl<'a> Line<'a> {
    pub fn new(number: usize, line: &'a str) -> Self {
        let text = line[..comment_start(line)].trim();
        Line { number, text, unread: text }
    }

    /// The number of the line in its file, from 1.
    pub fn number(&self) -> usize {
        self.number
    }

    pub fn ended(&self) -> bool {
        self.unread.is_empty()
    }

    /// The fault of this line: what it holds, and what was expected.
    pub fn as_fault(&self, expected: &str) -> Fault {
        Fault { line: self.number, message: format!("{}: {expected}", shortened(self.text)) }
    }

    pub fn fault<T>(&self, expected: &str) -> Result<T, Fault> {
        Err(self.as_fault(expected))
    }

    /// The fault at the first part that is not read.
    fn fault_here<T>(&self, expected: &str) -> Result<T, Fault> {
        match self.next_word() {
            "" => self.fault(&format!("expected {expected}")),
            found => self.fault(&format!("expected {expected}, found '{}'", shortened(found))),
        }
    }

    fn next_word(&self) -> &'a str {
        self.unread.split_whitespace().next().unwrap_or_default()
    }

    /// Takes so many bytes, and the spaces behind them.
    fn take(&mut self, bytes: usize) -> &'a str {
        let (taken, rest) = self.unread.split_at(bytes);
        self.unread = rest.trim_start();
        taken
    }

    /// Takes everything up to the next space.
    pub fn word(&mut self) -> &'a str {
        self.take(self.next_word().len())
    }

    pub fn expect_word(&mut self, word: &str, behind: &str) -> Result<(), Fault> {
        if self.next_word() != word {
            return self.fault_here(&format!("'{word}' behind {behind}"));
        }
        let (read, _) = self.text.split_at(self.text.len() - self.unread.len());
        if !read.ends_with(char::is_whitespace) {
            return self.fault(&format!("expected a space between {behind} and '{word}'"));
        }
        self.word();
        Ok(())
    }

    /// Takes the word, if it comes next; whether it did.
    pub fn word_if(&mut self, word: &str, behind: &str) -> Result<bool, Fault> {
        if self.next_word() != word {
            return Ok(false);
        }
        self.expect_word(word, behind)?;
        Ok(true)
    }

    pub fn expect_sign(&mut self, sign: char, behind: &str) -> Result<(), Fault> {
        if !self.unread.starts_with(sign) {
            return self.fault_here(&format!("a '{sign}' behind {behind}"));
        }
        self.take(sign.len_utf8());
        Ok(())
    }

    pub fn expect_number(&mut self, expected: &str, limit: Limit) -> Result<u64, Fault> {
        let digits = self.unread.bytes().take_while(u8::is_ascii_digit).count();
        if digits == 0 {
            return self.fault_here(expected);
        }
        match self.unread[..digits].parse() {
            Ok(number) if number <= limit.field => {
                self.take(digits);
                Ok(number)
            }
            _ => {
                let found = shortened(&self.unread[..digits]);
                self.fault(&format!("expected {expected} that is at most {}, found '{found}'", limit.monitor))
            }
        }
    }

    /// The name that is the rest of the line, plain or in quotes.
    pub fn expect_name(&mut self, behind: &str) -> Result<String, Fault> {
        let rest = self.take(self.unread.len()).trim_end();
        let unquoted = match rest.strip_prefix('"') {
            None => rest.to_string(),
            Some(open) => match open.strip_suffix('"').filter(|inside| !inside.replace("\"\"", "").contains('"')) {
                Some(inside) => inside.replace("\"\"", "\""),
                None => {
                    return self
                        .fault(&format!("expected a name in quotes behind {behind}, with each quote inside twice"))
                }
            },
        };
        names::tidy(&unquoted).or_else(|expected| self.fault(&format!("expected {expected} behind {behind}")))
    }

    pub fn expect_end(&self, expected: &str) -> Result<(), Fault> {
        if self.ended() {
            return Ok(());
        }
        self.fault_here(expected)
    }
}

/// Where the comment of a line starts: at the first `#` that is not inside quotes. Quotes open where a word does.
fn comment_start(line: &str) -> usize {
    let (mut quoted, mut before) = (false, ' ');
    for (place, character) in line.char_indices() {
        match character {
            '#' if !quoted => return place,
            '"' if quoted || before.is_whitespace() => quoted = !quoted,
            '"' if before == '"' => quoted = true,
            _ => {}
        }
        before = character;
    }
    line.len()
}

/// A number in digits; the error says what was expected.
pub fn number(word: &str, expected: &str, most: u64) -> Result<u64, String> {
    let number = Some(word).filter(|digits| names::is_number(digits)).and_then(|digits| digits.parse().ok());
    number
        .filter(|&number| number <= most)
        .ok_or_else(|| format!("expected {expected} in digits that is at most {most}, found '{}'", shortened(word)))
}

/// A part of a text as a fault repeats it: its start, if it is long.
pub fn shortened(text: &str) -> String {
    match text.char_indices().nth(MOST_REPEATED) {
        Some((end, _)) => printable(&text[..end]) + "...",
        None => printable(text),
    }
}

/// The text with a mark in place of each character that would steer a terminal.
pub fn printable(text: &str) -> String {
    let shown = |character: char| match character {
        '\t' => ' ',
        steering if steering.is_control() => char::REPLACEMENT_CHARACTER,
        other => other,
    };
    text.chars().map(shown).collect()
}
