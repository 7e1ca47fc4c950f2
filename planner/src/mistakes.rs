//! What the monitor refuses: what its numbers mean, and all that is wrong with a network whose sheet it refuses.

use crate::levels;
use crate::names::Names;
use reference::network::{Link, Network};
use reference::sheet::{Place, LEAST_NODES, MOST_LINKS, MOST_NODES, MOST_TREES};
use std::fmt;

pub const NODE_COUNT: u32 = 4;
pub const LINK_COUNT: u32 = 5;
pub const TREE_COUNT: u32 = 6;
const LINK_ENDS: u32 = 10;
pub const MEMBER_COUNT: u32 = 14;
const NOT_JOINED: u32 = 15;
pub const OUT_OF_REACH: u32 = 20;

/// What the refusal numbers mean, in the words of docs/REFUSALS.md and include/wcut.h. They are document 01's, with request F-2's for 2
/// and 11, request F-9's for 8, request F-7's 18 and 20, request F-5's 19, request F-8's for 1 and 21 and request F-12's 23 and 24.
const MEANINGS: [(u32, &str); 22] = [
    (1, "the side area, or a side map, has fewer than 32 bytes"),
    (2, "the report area has fewer than 24 bytes"),
    (3, "the sheet has fewer than 5 bytes"),
    (NODE_COUNT, "the node count is below 2 or above 256"),
    (LINK_COUNT, "the link count is below the node count less 1, or above 2,048"),
    (TREE_COUNT, "the tree count is 0 or above 32"),
    (7, "no map byte is left for a link"),
    (8, "a map byte exceeds 15, or link 0's map byte is neither 7 nor 15"),
    (9, "the sheet ends before the last byte of a field whose bit stands"),
    (LINK_ENDS, "an end is not below the node count, or both ends are equal"),
    (11, "never: every 4-byte weight is allowed; units already sold refuse one above 1,000,000"),
    (12, "the sheet ends inside or before a tree record"),
    (13, "a link map has a bit set from the link count up"),
    (MEMBER_COUNT, "the ones in a link map are not the node count less 1"),
    (NOT_JOINED, "the member links do not join every node to node 0"),
    (16, "bytes follow the last tree"),
    (18, "a link number is not below the link count"),
    (19, "the area cannot hold every side of the list, at 32 bytes a side"),
    (OUT_OF_REACH, "no 4-byte weight of the link makes the reported weight as large as wanted"),
    (21, "a side map is empty, has node 0, or has a bit set from the node count up"),
    (23, "a tree number is not below the tree count"),
    (24, "the area has fewer numbers than the tree has pairs"),
];

/// What a refusal number means; none for a number that is no refusal.
pub fn meaning(number: u32) -> Option<&'static str> {
    MEANINGS.iter().find(|(refusal, _)| *refusal == number).map(|(_, meaning)| *meaning)
}

/// A record of a sheet in words.
pub fn place_name(place: Place) -> String {
    match place {
        Place::Header => "the header".to_string(),
        Place::Link(link) => format!("link {link}"),
        Place::Tree(tree) => format!("tree {tree}"),
        Place::End => "the end".to_string(),
    }
}

/// Why the monitor refuses a network: its number, the record, and what is wrong with it, in the network's own numbers and names.
#[derive(Clone, Debug, PartialEq, Eq)]
pub struct Mistake {
    pub number: u32,
    pub place: Place,
    pub why: String,
}

impl fmt::Display for Mistake {
    fn fmt(&self, formatter: &mut fmt::Formatter) -> fmt::Result {
        write!(formatter, "the monitor refuses this network, number {}: {}", self.number, self.why)
    }
}

/// All for which the monitor refuses a network, in the order in which it checks: it gives the number of the first. Nothing is said of
/// records that depend on a node count which is wrong.
pub fn of(network: &Network, names: &Names) -> Vec<Mistake> {
    let (nodes, links, trees) = (network.nodes, network.links.len(), network.trees.len());
    let mut mistakes = Vec::new();
    let mut add = |number, place, why| mistakes.push(Mistake { number, place, why });
    if !(LEAST_NODES..=MOST_NODES).contains(&nodes) {
        let why = format!("the node count is {nodes}, and the monitor takes {LEAST_NODES} to {MOST_NODES}");
        add(NODE_COUNT, Place::Header, why);
        return mistakes;
    }
    if links > MOST_LINKS {
        let why = format!("the link count is {links}, and the monitor takes at most {MOST_LINKS}");
        add(LINK_COUNT, Place::Header, why);
    }
    if links < nodes - 1 {
        let why = format!("the link count is {links}, and {nodes} nodes need at least {}", nodes - 1);
        add(LINK_COUNT, Place::Header, why);
    }
    if trees == 0 {
        let why = "there is no tree, and the monitor needs one: `network fit` chooses trees".to_string();
        add(TREE_COUNT, Place::Header, why);
    }
    if trees > MOST_TREES {
        let why = format!("the tree count is {trees}, and the monitor takes at most {MOST_TREES}");
        add(TREE_COUNT, Place::Header, why);
    }
    for (place, link) in network.links.iter().enumerate() {
        if let Some(why) = wrong_ends(nodes, place, link, names) {
            add(LINK_ENDS, Place::Link(place), why);
        }
    }
    let apart = unreached(network, 0..links);
    for (place, tree) in network.trees.iter().enumerate() {
        if let Some((number, why)) = wrong_tree(network, names, place, &tree.members, apart) {
            add(number, Place::Tree(place), why);
        }
    }
    mistakes
}

fn wrong_ends(nodes: usize, place: usize, link: &Link, names: &Names) -> Option<String> {
    let highest = link.first.max(link.second);
    if highest >= nodes {
        let link = names.link(place);
        return Some(format!("link {link} ends at node {highest}, and the nodes are 0 to {}", nodes - 1));
    }
    (link.first == link.second).then(|| format!("link {} has {} at both ends", names.link(place), names.node(highest)))
}

/// Number and reason for which a tree is refused. The node that no links join to node 0 is given, where there is one.
fn wrong_tree(
    network: &Network,
    names: &Names,
    tree: usize,
    members: &[usize],
    apart: Option<usize>,
) -> Option<(u32, String)> {
    let nodes = network.nodes;
    if members.len() != nodes - 1 {
        let members = members.len();
        let why = format!("tree {tree} names {members} of the links, and a tree of {nodes} nodes has {}", nodes - 1);
        return Some((MEMBER_COUNT, why));
    }
    let left = unreached(network, members.iter().copied())?;
    let why = format!("the links of tree {tree} do not join {} to {}", names.node(left), names.node(0));
    let why = match apart {
        None => why,
        Some(apart) => format!("{why}; the whole network falls apart: no links join {} to it", names.node(apart)),
    };
    Some((NOT_JOINED, why))
}

/// The lowest node that these links do not join to node 0. A link with an end that is no node joins nothing.
fn unreached(network: &Network, members: impl Iterator<Item = usize>) -> Option<usize> {
    let between_nodes = |&member: &usize| {
        let Link { first, second, .. } = network.links[member];
        first.max(second) < network.nodes
    };
    let members: Vec<usize> = members.filter(between_nodes).collect();
    levels::unreached(network.nodes, &network.links, &members)
}

#[cfg(test)]
mod tests {
    use super::*;

    #[test]
    fn refusal_numbers_are_1_to_16_and_18_to_21() {
        assert_eq!(meaning(0), None);
        assert_eq!(meaning(1), Some("the side area, or a side map, has fewer than 32 bytes"));
        assert_eq!(meaning(8), Some("a map byte exceeds 15, or link 0's map byte is neither 7 nor 15"));
        assert_eq!(meaning(15), Some("the member links do not join every node to node 0"));
        assert_eq!(meaning(16), Some("bytes follow the last tree"));
        assert_eq!([17, 22, u32::MAX].map(meaning), [None; 3]);
        assert_eq!(meaning(18), Some("a link number is not below the link count"));
        assert_eq!(meaning(19), Some("the area cannot hold every side of the list, at 32 bytes a side"));
        let out_of_reach = "no 4-byte weight of the link makes the reported weight as large as wanted";
        assert_eq!(meaning(20), Some(out_of_reach));
        assert_eq!(meaning(21), Some("a side map is empty, has node 0, or has a bit set from the node count up"));
    }

    #[test]
    fn refusal_numbers_are_1_to_16_18_to_21_23_and_24() {
        assert_eq!(meaning(0), None);
        assert_eq!(meaning(1), Some("the side area, or a side map, has fewer than 32 bytes"));
        assert_eq!(meaning(8), Some("a map byte exceeds 15, or link 0's map byte is neither 7 nor 15"));
        assert_eq!(meaning(15), Some("the member links do not join every node to node 0"));
        assert_eq!(meaning(16), Some("bytes follow the last tree"));
        assert_eq!([17, 22, 25, u32::MAX].map(meaning), [None; 4]);
        assert_eq!(meaning(18), Some("a link number is not below the link count"));
        assert_eq!(meaning(19), Some("the area cannot hold every side of the list, at 32 bytes a side"));
        let out_of_reach = "no 4-byte weight of the link makes the reported weight as large as wanted";
        assert_eq!(meaning(20), Some(out_of_reach));
        assert_eq!(meaning(21), Some("a side map is empty, has node 0, or has a bit set from the node count up"));
        assert_eq!(meaning(23), Some("a tree number is not below the tree count"));
        assert_eq!(meaning(24), Some("the area has fewer numbers than the tree has pairs"));
    }
}
