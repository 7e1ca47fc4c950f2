//! Where one new cable crosses every cut of a list.

use super::cut;
use reference::report::Side;
use std::collections::BTreeMap;

/// Two groups of nodes: a cable from any node of one to any of the other crosses every cut of the list.
#[derive(Clone, Debug, PartialEq, Eq)]
pub struct Groups {
    pub from: Vec<usize>,
    pub to: Vec<usize>,
}

/// All such groups of a network with so many nodes, by their lowest node, which `from` has. A cable crosses a cut if one end is inside
/// its side and the other is not: so a cable crosses all where each end is inside just those sides that the other is not in.
pub fn crossing_all(nodes: usize, sides: &[Side]) -> Vec<Groups> {
    let mut alike: BTreeMap<Vec<u64>, Vec<usize>> = BTreeMap::new();
    let memberships: Vec<Vec<u64>> = (0..nodes).map(|node| membership(node, sides)).collect();
    for (node, membership) in memberships.iter().enumerate() {
        alike.entry(membership.clone()).or_default().push(node);
    }
    let lowest_of_its_group = |node: usize| alike[&memberships[node]][0] == node;
    let pair = |node: usize| {
        let (from, to) = (&alike[&memberships[node]], alike.get(&opposite(&memberships[node], sides.len()))?);
        (node < to[0]).then(|| Groups { from: from.clone(), to: to.clone() })
    };
    (0..nodes).filter(|&node| lowest_of_its_group(node)).filter_map(pair).collect()
}

/// In which of the sides a node is: side i is bit i mod 64 of word i / 64.
fn membership(node: usize, sides: &[Side]) -> Vec<u64> {
    let mut words = vec![0; sides.len().div_ceil(64)];
    for (place, side) in sides.iter().enumerate() {
        words[place / 64] |= u64::from(cut::holds(side, node)) << (place % 64);
    }
    words
}

/// Inside just those of so many sides that the other is not in.
fn opposite(words: &[u64], sides: usize) -> Vec<u64> {
    let used = |word: usize| if (word + 1) * 64 <= sides { u64::MAX } else { (1 << (sides % 64)) - 1 };
    words.iter().enumerate().map(|(place, word)| !word & used(place)).collect()
}
