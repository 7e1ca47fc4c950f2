//! Networks as text, in document 01's notation, with names: from text to a network or all its faults, each with its line, and back.
//! docs/NETWORKS.md describes the form.

mod line;
mod reader;
#[cfg(test)]
mod tests;

pub use line::{number, printable, shortened};

use crate::mistakes::{self, Mistake};
use crate::names::{self, Names};
use reader::Reader;
use reference::network::{Link, Tree};
use reference::sheet::{Contents, Place, MOST_LINKS, MOST_TREES};
use std::fmt::Write;

/// What is wrong with a line of a file. Lines are numbered from 1.
#[derive(Clone, Debug, PartialEq, Eq)]
pub struct Fault {
    pub line: usize,
    pub message: String,
}

/// What was read from a text, a sound network or not, and the line of each record.
#[derive(Clone, Debug, PartialEq, Eq)]
pub struct Parsed {
    /// The first comment that has a line of its own.
    pub title: Option<String>,
    pub contents: Contents,
    pub names: Names,
    lines: Lines,
}

/// The lines of the records.
#[derive(Clone, Debug, Default, PartialEq, Eq)]
struct Lines {
    nodes: usize,
    links: Vec<usize>,
    trees: Vec<usize>,
}

impl Lines {
    /// The line to look at when the monitor refuses the network's sheet.
    fn of(&self, place: Place, number: u32) -> usize {
        let last = self.trees.last().or(self.links.last()).unwrap_or(&self.nodes);
        let line = match (place, number) {
            (Place::Header, mistakes::LINK_COUNT) => self.links.get(MOST_LINKS).unwrap_or(&self.nodes),
            (Place::Header, mistakes::TREE_COUNT) => self.trees.get(MOST_TREES).unwrap_or(last),
            (Place::Header, _) => &self.nodes,
            (Place::Link(link), _) => self.links.get(link).unwrap_or(last),
            (Place::Tree(tree), _) => self.trees.get(tree).unwrap_or(last),
            (Place::End, _) => last,
        };
        *line
    }
}

impl Parsed {
    /// All for which the monitor refuses the network's sheet, each with the line to look at; it names the first by its number.
    pub fn mistakes(&self) -> Vec<(usize, Mistake)> {
        let mistakes = mistakes::of(&self.contents.network, &self.names);
        mistakes.into_iter().map(|mistake| (self.lines.of(mistake.place, mistake.number), mistake)).collect()
    }

    /// The line of the last link; of the node count, if there is no link.
    pub fn last_link_line(&self) -> usize {
        self.lines.links.last().copied().unwrap_or(self.lines.nodes)
    }

    /// The lines of the trees.
    pub fn tree_lines(&self) -> &[usize] {
        &self.lines.trees
    }
}

/// Reads a text. What it gives fits the fields of a sheet; whether the monitor accepts it is for `mistakes` to say. The faults are all
/// of the file's, by their lines, those for which the monitor would refuse what can be read among them.
pub fn parse(file: &[u8]) -> Result<Parsed, Vec<Fault>> {
    read(file, false)
}

/// The same of a text without its trees, whatever their lines hold.
pub fn parse_without_trees(file: &[u8]) -> Result<Parsed, Vec<Fault>> {
    read(file, true)
}

fn read(file: &[u8], without_trees: bool) -> Result<Parsed, Vec<Fault>> {
    let text = decode(file).map_err(|fault| vec![fault])?;
    let mut reader = Reader::new(text.lines().find_map(title), without_trees);
    for (number, line) in (1..).zip(text.lines()) {
        reader.read(number, line);
    }
    reader.finish(text.lines().count().max(1))
}

/// The file as text, without the mark that some editors put at its start.
pub fn decode(file: &[u8]) -> Result<&str, Fault> {
    match std::str::from_utf8(file) {
        Ok(text) => Ok(text.strip_prefix('\u{feff}').unwrap_or(text)),
        Err(error) => {
            let before = &file[..error.valid_up_to()];
            let line = 1 + before.iter().filter(|&&byte| byte == b'\n').count();
            Err(Fault { line, message: "expected text in UTF-8, found a byte that is none".to_string() })
        }
    }
}

/// The comment of a line that holds nothing else.
fn title(line: &str) -> Option<String> {
    let comment = line.trim().strip_prefix('#')?.trim_start_matches('#').trim();
    (!comment.is_empty()).then(|| line::printable(comment))
}

/// The text of a network, a line for each record: `parse` gives the same network, trunk numbers and names again.
pub fn write(contents: &Contents, names: &Names) -> String {
    let Contents { network, trunks } = contents;
    let mut text = format!("nodes {}\n", network.nodes);
    for (node, name) in names.nodes.iter().enumerate() {
        if let Some(name) = name {
            let _ = writeln!(text, "node {node} {}", names::written(name));
        }
    }
    let mut before = 0;
    for ((link, &trunk), name) in network.links.iter().zip(trunks).zip(&names.links) {
        text.push_str(&link_line(link, (trunk != before).then_some(trunk), name.as_deref()));
        before = trunk;
    }
    network.trees.iter().for_each(|tree| text.push_str(&tree_line(tree)));
    text
}

/// The line of a link, with its trunk number if one is given.
pub fn link_line(link: &Link, trunk: Option<u16>, name: Option<&str>) -> String {
    let mut line = format!("link {}-{}:{}", link.first, link.second, link.weight);
    if let Some(trunk) = trunk {
        let _ = write!(line, " trunk {trunk}");
    }
    if let Some(name) = name {
        let _ = write!(line, " name {}", names::written(name));
    }
    line + "\n"
}

/// The line of a tree.
pub fn tree_line(tree: &Tree) -> String {
    let mut line = format!("tree share {} links", tree.share);
    for member in &tree.members {
        let _ = write!(line, " {member}");
    }
    line + "\n"
}
