//! A side of a network, and the links that cross it.

use reference::network::{Link, Network};
use reference::report::Side;

/// Whether a node is in a side.
pub fn holds(side: &Side, node: usize) -> bool {
    side[node / 8] >> (node % 8) & 1 == 1
}

/// The numbers of the links with exactly one end in a side of the network's nodes.
pub fn crossing(network: &Network, side: &[usize]) -> Vec<usize> {
    let mut inside = vec![false; network.nodes];
    side.iter().for_each(|&node| inside[node] = true);
    let crosses = |link: &Link| inside[link.first] != inside[link.second];
    (0..network.links.len()).filter(|&link| crosses(&network.links[link])).collect()
}

pub fn weight(network: &Network, links: &[usize]) -> u64 {
    links.iter().map(|&link| network.links[link].weight).sum()
}

/// Whether these are some of the network's nodes, rising, without node 0.
pub fn is_side(network: &Network, nodes: &[usize]) -> bool {
    let rising = nodes.windows(2).all(|pair| pair[0] < pair[1]);
    rising && nodes.first().is_some_and(|&first| first > 0) && nodes.last().is_some_and(|&last| last < network.nodes)
}
