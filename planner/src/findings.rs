//! What the unit's answers mean for a network: the reported cut and all others as light, held against the network before anything is
//! said of them.

mod cable;
mod cut;
mod overlap;
mod pairs;
mod record;
mod run;
mod scene;
mod sentences;
#[cfg(test)]
mod tests;
mod thickness;

pub use overlap::Overlap;
pub use pairs::Pairs;
pub use record::refusal;
pub use thickness::{Figure, Thickness};

use crate::names::Names;
use crate::text::Parsed;
use crate::unit::{self, Said};
use reference::cuts::{self, Answer};
use reference::list;
use reference::network::Network;
use reference::report::Side;
use reference::sheet;
use std::cmp::Ordering;
use std::ffi::OsStr;

/// An answer, and the list of all cuts as light, for a network.
pub struct Findings<'a> {
    parsed: &'a Parsed,
    answer: Answer,
    /// Every side of the reported weight that a tree shows; the first is the reported one.
    sides: Vec<Side>,
    /// The links that cross the reported side.
    crossing: Vec<usize>,
    /// Three times the shares of the trees that count.
    three_shares: u64,
}

/// What request F-14 promises of the cuts that are not in the list.
#[derive(Clone, Copy, Debug, PartialEq, Eq)]
enum Unlisted {
    /// None is as light.
    Heavier,
    /// None is lighter.
    NotLighter,
    /// None is lighter than three times the shares that count.
    Unknown,
}

/// Asks the unit: its entries or, for the report, the program given. An error if what it says cannot be said of this network.
pub fn find<'a>(parsed: &'a Parsed, program: Option<&OsStr>) -> Result<Said<Findings<'a>>, String> {
    let bytes = sheet::write_contents(&parsed.contents);
    let said = match program {
        Some(program) => unit::run_program(program, &bytes)?,
        None => unit::answer(&bytes),
    };
    match (said, parsed.mistakes().first()) {
        (Ok(answer), None) => {
            let sides = unit::list(&bytes, &parsed.contents.network);
            let sides = sides.map_err(|number| format!("the list must not be refused, number {number}"))?;
            Ok(Ok(Findings::new(parsed, answer, sides)?))
        }
        (Err(number), Some((_, first))) if number == first.number => Ok(Err(number)),
        (_, Some((_, first))) => Err(format!("the sheet has to be refused, number {}", first.number)),
        (Err(number), None) => Err(format!("the sheet must not be refused, number {number}")),
    }
}

impl<'a> Findings<'a> {
    /// An error if answer and list contradict the network, each other or themselves.
    fn new(parsed: &'a Parsed, answer: Answer, sides: Vec<Side>) -> Result<Findings<'a>, &'static str> {
        let network = &parsed.contents.network;
        if !cut::is_side(network, &answer.side) {
            return Err("the side is not some of the nodes behind node 0, rising");
        }
        let crossing = cut::crossing(network, &answer.side);
        let three_shares = cuts::three_shares(run::counted(network));
        let findings = Findings { parsed, answer, sides, crossing, three_shares };
        match findings.contradiction().or_else(|| findings.contradiction_of_list()) {
            None => Ok(findings),
            Some(contradiction) => Err(contradiction),
        }
    }

    fn contradiction(&self) -> Option<&'static str> {
        let (network, Answer { verdict, floor, candidate, .. }) = (self.network(), &self.answer);
        let Some(tree) = network.trees.get(candidate.tree) else {
            return Some("the network has no such tree");
        };
        let named = [candidate.first].into_iter().chain(candidate.second);
        if !named.eq(self.crossing.iter().copied().filter(|link| tree.members.contains(link))) {
            return Some("the links named are not those of the tree that cross the side");
        }
        if cut::weight(network, &self.crossing) != candidate.weight {
            return Some("the links that cross the side have another weight");
        }
        let whole = *verdict == cuts::WHOLE && *floor == candidate.weight;
        let trees_only = *verdict == cuts::TREES_ONLY && *floor < candidate.weight;
        if !whole && !trees_only {
            return Some("verdict, weight and floor do not go together");
        }
        (*floor != candidate.weight.min(self.three_shares)).then_some("the trees that count give another floor")
    }

    fn contradiction_of_list(&self) -> Option<&'static str> {
        let sides = || self.sides.iter().map(list::nodes);
        if sides().next().as_ref() != Some(&self.answer.side) {
            return Some("the list does not begin with the reported side");
        }
        if !sides().all(|nodes| cut::is_side(self.network(), &nodes)) {
            return Some("a side of the list is not some of the nodes behind node 0");
        }
        let weight = |nodes: Vec<usize>| cut::weight(self.network(), &cut::crossing(self.network(), &nodes));
        let same = sides().all(|nodes| weight(nodes) == self.answer.candidate.weight);
        (!same).then_some("a side of the list has another weight than the reported one")
    }

    fn network(&self) -> &'a Network {
        &self.parsed.contents.network
    }

    fn names(&self) -> &'a Names {
        &self.parsed.names
    }

    /// The lines of the report program.
    pub fn lines(&self) -> String {
        unit::lines(&Ok(self.answer.clone()))
    }

    fn unlisted(&self) -> Unlisted {
        match self.three_shares.cmp(&self.answer.candidate.weight) {
            Ordering::Greater => Unlisted::Heavier,
            Ordering::Equal => Unlisted::NotLighter,
            Ordering::Less => Unlisted::Unknown,
        }
    }

    /// A side by its number in the list, from 1.
    fn side(&self, number: usize) -> &Side {
        &self.sides[number - 1]
    }

    /// Whether it is certain that no cut of the whole network weighs less than those of the list.
    fn none_lighter(&self) -> bool {
        self.answer.verdict == cuts::WHOLE
    }

    /// The nodes that the reported cut leaves with node 0.
    fn rest(&self) -> Vec<usize> {
        (0..self.network().nodes).filter(|node| !self.answer.side.contains(node)).collect()
    }
}
