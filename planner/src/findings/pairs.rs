//! All pairs of a tree's links: the weight of each, held against the network before anything is said of it, and lines for a spreadsheet.

#[cfg(test)]
mod tests;

use super::Findings;
use crate::cables::fields;
use crate::names::counted;
use crate::unit;
use reference::cuts;
use reference::network::{Link, Network};
use reference::sheet;

/// What a line has of its pair: number, name, ends and weight of both links, and the weight of the pair.
const COLUMNS: [&str; 11] = [
    "first link",
    "first cable",
    "first from",
    "first to",
    "first capacity",
    "second link",
    "second cable",
    "second from",
    "second to",
    "second capacity",
    "weight",
];

/// Two links of a tree, the first of the lower number, and the weight of the side of nodes below exactly one of them.
#[derive(Clone, Copy, Debug, PartialEq, Eq)]
pub struct Pair {
    pub first: usize,
    pub second: usize,
    pub weight: u64,
}

/// All pairs of a tree, in the order of the unit's slots.
pub struct Pairs<'a> {
    pub(super) findings: &'a Findings<'a>,
    pub(super) tree: usize,
    pub(super) pairs: Vec<Pair>,
}

impl Findings<'_> {
    /// Asks the unit for the weights of all pairs of a tree. An error if there is no such tree, or if what the unit says cannot be said of
    /// this network.
    pub fn pairs(&self, tree: usize) -> Result<Pairs<'_>, String> {
        let trees = &self.network().trees;
        if tree >= trees.len() {
            let count = counted(trees.len(), "tree");
            return Err(format!("there is no tree {tree}: the network has {count}, and they are numbered from 0"));
        }
        let (sheet, slots) = (sheet::write_contents(&self.parsed.contents), by_slot(&trees[tree].members).count());
        let weights = unit::pairs(&sheet, tree as u32, slots);
        let weights = weights.map_err(|number| format!("the pairs must not be refused, number {number}"))?;
        Ok(Pairs::new(self, tree, &weights)?)
    }
}

/// The links of each pair, the lower number first, in the order of the unit's slots: by the second link, then by the first.
fn by_slot(members: &[usize]) -> impl Iterator<Item = (usize, usize)> + '_ {
    (0..members.len()).flat_map(move |rank| members[..rank].iter().map(move |&first| (first, members[rank])))
}

impl<'a> Pairs<'a> {
    /// An error if the weights, by their slots, contradict the network.
    fn new(findings: &'a Findings<'a>, tree: usize, weights: &[u64]) -> Result<Pairs<'a>, &'static str> {
        let pair = |((first, second), &weight): ((usize, usize), &u64)| Pair { first, second, weight };
        let pairs: Vec<Pair> = by_slot(&findings.network().trees[tree].members).zip(weights).map(pair).collect();
        match pairs.len() == weights.len() && pairs == weighed(findings.network(), tree) {
            true => Ok(Pairs { findings, tree, pairs }),
            false => Err("the links that cross the side of a pair have another weight"),
        }
    }

    /// A header line and a line for each pair, with fields as a cable list has them.
    pub fn csv(&self) -> String {
        let line = |pair: &Pair| {
            let mut line = [self.cable(pair.first), self.cable(pair.second)].concat();
            line.push(pair.weight.to_string());
            fields::line(&line)
        };
        fields::line(&COLUMNS) + &self.pairs.iter().map(line).collect::<String>()
    }

    /// What a line has of a link. Without a name that field is empty.
    fn cable(&self, link: usize) -> [String; 5] {
        let (names, Link { first, second, weight }) = (self.findings.names(), self.findings.network().links[link]);
        let name = names.links[link].clone().unwrap_or_default();
        [link.to_string(), name, names.label(first), names.label(second), weight.to_string()]
    }
}

/// All pairs of a tree, in the same order, each with the weight of the links that cross its side.
fn weighed(network: &Network, tree: usize) -> Vec<Pair> {
    let alone = Network { trees: vec![network.trees[tree].clone()], ..network.clone() };
    let mut pairs = Vec::new();
    cuts::each_candidate(&alone, |candidate, _| {
        let pair = |second| Pair { first: candidate.first, second, weight: candidate.weight };
        pairs.extend(candidate.second.map(pair));
    });
    pairs.sort_by_key(|pair| (pair.second, pair.first));
    pairs
}
