//! Lines of fields, parted by a separator. A field in quotes may hold separators, line ends and, written twice, quotes.

use super::SEPARATORS;
use crate::names::quoted;
use crate::text::Fault;

/// The records of a text that are not empty, each with the line on which it starts.
pub struct Records<'a> {
    unread: &'a str,
    separator: char,
    line: usize,
}

impl<'a> Records<'a> {
    pub fn new(text: &'a str, separator: char) -> Records<'a> {
        Records { unread: text, separator, line: 1 }
    }

    /// The line on which what is not read starts, from 1; behind the end, the last line.
    pub fn line(&self) -> usize {
        self.line
    }

    /// Takes so many bytes.
    fn take(&mut self, bytes: usize) -> &'a str {
        let (taken, rest) = self.unread.split_at(bytes);
        self.unread = rest;
        if !rest.is_empty() {
            self.line += taken.matches('\n').count();
        }
        taken
    }

    /// Takes what stands before the next of these characters, or before the end.
    fn take_before(&mut self, ends: &[char]) -> &'a str {
        self.take(self.unread.find(ends).unwrap_or(self.unread.len()))
    }

    /// Takes the end of a line, if it comes next; whether it did. The end of the text is one too.
    fn take_line_end(&mut self) -> bool {
        let ends = ["\r\n", "\n"].iter().find(|end| self.unread.starts_with(**end));
        ends.map(|end| self.take(end.len())).is_some() || self.unread.is_empty()
    }

    /// Takes the fields up to the end of the line, and that.
    fn take_record(&mut self) -> Result<Vec<String>, Fault> {
        let mut fields = Vec::new();
        loop {
            fields.push(self.take_field()?);
            if self.take_line_end() {
                return Ok(fields);
            }
            self.take(self.separator.len_utf8());
        }
    }

    fn take_field(&mut self) -> Result<String, Fault> {
        let ends = [self.separator, '\n'];
        let blank = self.unread.len() - self.unread.trim_start_matches(' ').len();
        if !self.unread[blank..].starts_with('"') {
            let field = self.take_before(&ends);
            let bare = field.strip_suffix('\r').filter(|_| self.unread.starts_with('\n')).unwrap_or(field);
            return Ok(bare.to_string());
        }
        self.take(blank + 1);
        let field = self.take_quoted()?;
        let line = self.line;
        match self.take_before(&ends).trim() {
            "" => Ok(field),
            behind => {
                let message = format!(
                    "expected the next field behind the closing quote, found '{}'",
                    crate::text::shortened(behind)
                );
                Err(Fault { line, message })
            }
        }
    }

    /// Takes a field behind its opening quote, and the closing one.
    fn take_quoted(&mut self) -> Result<String, Fault> {
        let line = self.line;
        let mut field = String::new();
        loop {
            field.push_str(self.take_before(&['"']));
            if self.unread.is_empty() {
                return Err(Fault {
                    line,
                    message: "expected a closing quote for the one that opens here".to_string(),
                });
            }
            self.take(1);
            if !self.unread.starts_with('"') {
                return Ok(field);
            }
            field.push_str(self.take(1));
        }
    }
}

impl Iterator for Records<'_> {
    type Item = (usize, Result<Vec<String>, Fault>);

    fn next(&mut self) -> Option<Self::Item> {
        while !self.unread.is_empty() {
            let line = self.line;
            let record = self.take_record();
            if record.is_err() {
                self.take_before(&['\n']);
                self.take_line_end();
            }
            let blank = |fields: &Vec<String>| fields.iter().all(|field| field.trim().is_empty());
            if !record.as_ref().is_ok_and(blank) {
                return Some((line, record));
            }
        }
        None
    }
}

/// A record as a list has it, with its line end.
pub fn line(fields: &[impl AsRef<str>]) -> String {
    let written: Vec<String> = fields.iter().map(|field| written(field.as_ref())).collect();
    written.join(",") + "\n"
}

/// A field as a list has it: in quotes where a part of it would be taken for something else.
fn written(field: &str) -> String {
    let misleading = field.contains(SEPARATORS) || field.contains('"') || field.trim() != field;
    if misleading {
        quoted(field)
    } else {
        field.to_string()
    }
}
