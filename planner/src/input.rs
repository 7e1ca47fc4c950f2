//! What a command is given to read: a file or standard input, and what that holds.

use crate::cables::{self, is_header, Cable};
use crate::text::{self, Fault, Parsed};
use std::ffi::{OsStr, OsString};
use std::io::{self, Read};

/// What a file can hold.
#[derive(Clone, Copy, Debug, PartialEq, Eq)]
pub enum Kind {
    Text,
    Sheet,
    Cables,
}

impl Kind {
    /// What this is, and which command makes the wanted kind of it.
    fn instead_of(self, wanted: Kind) -> String {
        let this = match self {
            Kind::Text => "a network as text",
            Kind::Sheet => "by its bytes a link sheet",
            Kind::Cables => "a cable list",
        };
        let way = match (self, wanted) {
            (Kind::Text, Kind::Sheet) => "`network sheet` turns it into a link sheet",
            (Kind::Text, _) => "`network export` turns it into a cable list",
            (Kind::Sheet, _) => "`network text` turns it into a network as text",
            (Kind::Cables, _) => "`network import` turns it into a network as text",
        };
        format!("this is {this}: {way}")
    }
}

/// What a file holds, as far as its first record tells; none if that is nothing known.
pub fn recognise(file: &[u8]) -> Option<Kind> {
    // the node count of every sheet that is accepted has a byte 0, and no text in UTF-8 has one
    if file.contains(&0) {
        return Some(Kind::Sheet);
    }
    let text = text::decode(file).ok()?;
    let first = text.lines().map(str::trim).find(|line| !line.is_empty() && !line.starts_with('#'))?;
    let word = first.split_whitespace().next().unwrap_or_default();
    match word {
        "nodes" | "node" | "link" | "tree" => Some(Kind::Text),
        _ => is_header(first).then_some(Kind::Cables),
    }
}

/// A file, or standard input.
pub struct Source(OsString);

impl Source {
    pub fn new(file: &OsStr) -> Source {
        Source(file.to_os_string())
    }

    fn is_input(&self) -> bool {
        self.0 == "-"
    }

    /// The file's name; none of standard input.
    pub fn file(&self) -> Option<String> {
        (!self.is_input()).then(|| text::printable(&self.0.to_string_lossy()))
    }

    pub fn name(&self) -> String {
        self.file().unwrap_or("standard input".to_string())
    }

    /// The bytes, if they may be of that kind. The error names the source.
    pub fn read(&self, wanted: Kind) -> Result<Vec<u8>, String> {
        let read = match self.is_input() {
            false => std::fs::read(&self.0),
            true => {
                let mut bytes = Vec::new();
                io::stdin().read_to_end(&mut bytes).map(|_| bytes)
            }
        };
        let bytes = read.map_err(|error| format!("{}: {error}", self.name()))?;
        if wanted != Kind::Sheet && (bytes.starts_with(&[0xFF, 0xFE]) || bytes.starts_with(&[0xFE, 0xFF])) {
            return Err(format!("{}: this is text in UTF-16: save it as UTF-8", self.name()));
        }
        match recognise(&bytes) {
            Some(kind) if kind != wanted => Err(format!("{}: {}", self.name(), kind.instead_of(wanted))),
            _ => Ok(bytes),
        }
    }

    /// The network of a text, and the text. The error has a line for each fault.
    pub fn text(&self) -> Result<(Parsed, String), String> {
        self.text_by(text::parse)
    }

    /// The same without the trees, for those who do not need them.
    pub fn text_without_trees(&self) -> Result<(Parsed, String), String> {
        self.text_by(text::parse_without_trees)
    }

    fn text_by(&self, parse: fn(&[u8]) -> Result<Parsed, Vec<Fault>>) -> Result<(Parsed, String), String> {
        let bytes = self.read(Kind::Text)?;
        let parsed = parse(&bytes).map_err(|faults| self.faults(&faults))?;
        let text = text::decode(&bytes).map_err(|fault| self.faults(&[fault]))?;
        Ok((parsed, text.to_string()))
    }

    pub fn cables(&self) -> Result<Vec<Cable>, String> {
        cables::read(&self.read(Kind::Cables)?).map_err(|faults| self.faults(&faults))
    }

    fn faults(&self, faults: &[Fault]) -> String {
        let line = |fault: &Fault| format!("{}:{}: {}", self.name(), fault.line, fault.message);
        faults.iter().map(line).collect::<Vec<_>>().join("\n")
    }
}
