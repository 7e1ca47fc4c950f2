//! Reads a text line by line, and goes on behind a fault, so that all are found in one run.

use super::line::{shortened, Limit, Line};
use super::{Fault, Lines, Parsed};
use crate::mistakes;
use crate::names::{self, Names};
use reference::network::{Link, Network, Tree};
use reference::sheet::{Contents, Place, MOST_LINKS, MOST_NODES, MOST_TREES, MOST_WEIGHT};

const NODE_COUNT: Limit = Limit { field: u16::MAX as u64, monitor: MOST_NODES as u64 };
const NODE: Limit = Limit { field: u16::MAX as u64, monitor: MOST_NODES as u64 - 1 };
const LINK: Limit = Limit { field: u16::MAX as u64, monitor: MOST_LINKS as u64 - 1 };
const WEIGHT: Limit = Limit { field: u32::MAX as u64, monitor: MOST_WEIGHT };
const SHARE: Limit = Limit { field: u32::MAX as u64, monitor: u32::MAX as u64 };
const TRUNK: Limit = Limit { field: u16::MAX as u64, monitor: u16::MAX as u64 };
const MOST_LINK_LINES: usize = u16::MAX as usize;
const MOST_TREE_LINES: usize = u8::MAX as usize;

/// What stands in for a link whose line has a fault.
const UNREAD_LINK: Link = Link { first: 0, second: 0, weight: 0 };

/// A node's name, and the line that has it.
struct Named {
    node: usize,
    name: String,
    line: usize,
}

/// What was read so far, and the faults of it. A record with a fault keeps its place, so that those behind it keep their numbers.
#[derive(Default)]
pub struct Reader {
    title: Option<String>,
    /// Whether the lines of trees are only counted, and not read.
    without_trees: bool,
    /// None before the line with the node count, and where that has a fault.
    nodes: Option<usize>,
    names: Vec<Named>,
    links: Vec<Option<Link>>,
    link_names: Vec<Option<String>>,
    trunks: Vec<u16>,
    trees: Vec<Option<Tree>>,
    lines: Lines,
    /// Whether a record came before the node count, which is said once.
    count_missed: bool,
    /// Whether a line was not taken for a record, so that it is not known how many there are.
    line_left_out: bool,
    faults: Vec<Fault>,
}

impl Reader {
    pub fn new(title: Option<String>, without_trees: bool) -> Reader {
        Reader { title, without_trees, ..Reader::default() }
    }

    pub fn read(&mut self, number: usize, line: &str) {
        let mut line = Line::new(number, line);
        if line.ended() {
            return;
        }
        if let Err(fault) = self.read_record(&mut line) {
            self.faults.push(fault);
        }
    }

    fn read_record(&mut self, line: &mut Line) -> Result<(), Fault> {
        let word = line.word();
        if !["nodes", "node", "link", "tree"].contains(&word) {
            let found = shortened(word);
            self.line_left_out = true;
            return line.fault(&format!(
                "expected 'nodes', 'node', 'link' or 'tree' at the start of the line, found '{found}'"
            ));
        }
        if word != "nodes" && self.lines.nodes == 0 && !self.count_missed {
            self.count_missed = true;
            let expected = "expected 'nodes' and the node count before the first name, link and tree";
            self.faults.push(line.as_fault(expected));
        }
        match word {
            "nodes" => self.read_nodes(line),
            "node" => self.read_name(line),
            "link" => self.read_link(line),
            _ => self.read_tree(line),
        }
    }

    fn read_nodes(&mut self, line: &mut Line) -> Result<(), Fault> {
        if self.lines.nodes != 0 {
            return line.fault(&format!("expected one line 'nodes' only, and line {} is one", self.lines.nodes));
        }
        self.lines.nodes = line.number();
        let nodes = line.expect_number("a node count behind 'nodes'", NODE_COUNT)?;
        self.nodes = Some(nodes as usize);
        line.expect_end("nothing more behind the node count")
    }

    fn read_name(&mut self, line: &mut Line) -> Result<(), Fault> {
        let node = line.expect_number("a node number behind 'node'", NODE)? as usize;
        let name = line.expect_name("the node number")?;
        match self.nodes {
            Some(0) => return line.fault("expected no name where there is no node"),
            Some(nodes) if node >= nodes => {
                return line.fault(&format!("expected a node number from 0 to {}, found {node}", nodes - 1));
            }
            _ => {}
        }
        for other in &self.names {
            if other.node == node {
                return line.fault(&format!("expected one name for node {node}, and line {} has one", other.line));
            }
            if other.name == name {
                return line.fault(&format!(
                    "expected another name, since node {} has this one on line {}",
                    other.node, other.line
                ));
            }
        }
        self.names.push(Named { node, name, line: line.number() });
        Ok(())
    }

    fn read_link(&mut self, line: &mut Line) -> Result<(), Fault> {
        if let Some(tree_line) = self.lines.trees.first() {
            self.line_left_out = true;
            return line.fault(&format!("expected all links before the first tree, and line {tree_line} is a tree"));
        }
        if self.links.len() == MOST_LINK_LINES {
            return line.fault(&format!("expected at most {MOST_LINKS} links, found one more than {MOST_LINK_LINES}"));
        }
        self.lines.links.push(line.number());
        self.trunks.push(self.trunks.last().copied().unwrap_or(0));
        self.links.push(None);
        self.link_names.push(None);
        let link = self.read_ends(line)?;
        self.read_trunk_and_name(line)?;
        *self.links.last_mut().expect("the link's place") = Some(link);
        Ok(())
    }

    fn read_ends(&self, line: &mut Line) -> Result<Link, Fault> {
        let first = line.expect_number("a node number behind 'link'", NODE)? as usize;
        line.expect_sign('-', "the first node number")?;
        let second = line.expect_number("a node number behind the '-'", NODE)? as usize;
        line.expect_sign(':', "the second node number")?;
        let weight = line.expect_number("a weight behind the ':'", WEIGHT)?;
        Ok(Link { first, second, weight })
    }

    /// What may stand behind a link's weight. A link without a trunk number has that of the link before.
    fn read_trunk_and_name(&mut self, line: &mut Line) -> Result<(), Fault> {
        let mut last = "'trunk', 'name' or the end of the line behind the weight";
        if line.word_if("trunk", "the weight")? {
            let trunk = line.expect_number("a trunk number behind 'trunk'", TRUNK)?;
            *self.trunks.last_mut().expect("the link's place") = trunk as u16;
            last = "'name' or the end of the line behind the trunk number";
        }
        if line.word_if("name", "what stands before it")? {
            *self.link_names.last_mut().expect("the link's place") = Some(line.expect_name("'name'")?);
        }
        line.expect_end(last)
    }

    fn read_tree(&mut self, line: &mut Line) -> Result<(), Fault> {
        if self.without_trees {
            self.lines.trees.push(line.number());
            return Ok(());
        }
        if self.trees.len() == MOST_TREE_LINES {
            return line.fault(&format!("expected at most {MOST_TREES} trees, found one more than {MOST_TREE_LINES}"));
        }
        self.lines.trees.push(line.number());
        self.trees.push(None);
        line.expect_word("share", "'tree'")?;
        let share = line.expect_number("a share behind 'share'", SHARE)?;
        line.expect_word("links", "the share")?;
        if let Some(members) = self.read_members(line)? {
            *self.trees.last_mut().expect("the tree's place") = Some(Tree { share, members });
        }
        Ok(())
    }

    /// The link numbers up to the end of a tree's line, sorted; none where some are at fault.
    fn read_members(&mut self, line: &mut Line) -> Result<Option<Vec<usize>>, Fault> {
        let links = self.links.len();
        let mut held = vec![false; links];
        let before = self.faults.len();
        while !line.ended() {
            let member = line.expect_number("a link number", LINK)?;
            let expected = match held.get_mut(member as usize) {
                Some(held) if !*held => {
                    *held = true;
                    continue;
                }
                Some(_) => format!("expected each link once, found link {member} twice"),
                None if links == 0 => {
                    format!("expected the number of a link of this file, found {member}, and it has no link")
                }
                None => format!("expected the number of a link of this file, 0 to {}, found {member}", links - 1),
            };
            self.faults.push(line.as_fault(&expected));
        }
        let members = (0..links).filter(|&link| held[link]).collect();
        Ok((self.faults.len() == before).then_some(members))
    }

    /// What was read, or all faults of the file, which has so many lines.
    pub fn finish(mut self, lines: usize) -> Result<Parsed, Vec<Fault>> {
        if self.lines.nodes == 0 && self.faults.is_empty() {
            let message = "expected 'nodes' and the node count, found only comments and blank lines".to_string();
            return Err(vec![Fault { line: lines, message }]);
        }
        self.check_numbers_as_names();
        match self.faults.is_empty() {
            true => Ok(self.parsed()),
            false => Err(self.all_faults()),
        }
    }

    /// A name that is the number of a node without a name could mean either node.
    fn check_numbers_as_names(&mut self) {
        for Named { node, name, line } in self.names.iter().filter(|named| names::is_number(&named.name)) {
            let other = name.parse().ok().filter(|other| other != node && Some(*other) < self.nodes);
            let Some(other) = other.filter(|other| !self.names.iter().any(|named| named.node == *other)) else {
                continue;
            };
            let message = format!("expected a name for node {other} too, since the name of node {node} is its number");
            self.faults.push(Fault { line: *line, message });
        }
    }

    /// The network with a stand-in for each record that has a fault.
    fn parsed(&self) -> Parsed {
        let nodes = self.nodes.unwrap_or_default();
        let links = self.links.iter().map(|link| link.unwrap_or(UNREAD_LINK)).collect();
        let unread_tree = Tree { share: 0, members: vec![] };
        let trees = self.trees.iter().map(|tree| tree.clone().unwrap_or(unread_tree.clone())).collect();
        let mut names = Names::none(nodes, 0);
        names.links = self.link_names.clone();
        for Named { node, name, .. } in self.names.iter().filter(|named| named.node < nodes) {
            names.nodes[*node] = Some(name.clone());
        }
        let contents = Contents { network: Network { nodes, links, trees }, trunks: self.trunks.clone() };
        Parsed { title: self.title.clone(), contents, names, lines: self.lines.clone() }
    }

    /// The faults in the form of the file, and what the monitor would refuse of the records without one. That there is no tree is no
    /// fault of a file: one can be fitted.
    fn all_faults(self) -> Vec<Fault> {
        let all_links = self.links.iter().all(Option::is_some) && !self.line_left_out;
        let read = |place: Place, number: u32| match (place, number) {
            (Place::Link(link), _) => self.links[link].is_some(),
            (Place::Tree(tree), mistakes::MEMBER_COUNT) => self.trees[tree].is_some(),
            (Place::Tree(tree), _) => self.trees[tree].is_some() && all_links,
            (_, mistakes::LINK_COUNT) => !self.line_left_out || self.links.len() > MOST_LINKS,
            (_, mistakes::TREE_COUNT) => !self.trees.is_empty(),
            _ => true,
        };
        let mut faults = self.faults.clone();
        if self.nodes.is_some() {
            let mistakes = self.parsed().mistakes().into_iter();
            let certain = mistakes.filter(|(_, mistake)| read(mistake.place, mistake.number));
            faults.extend(certain.map(|(line, mistake)| Fault { line, message: mistake.to_string() }));
        }
        faults.sort_by_key(|fault| fault.line);
        faults
    }
}
