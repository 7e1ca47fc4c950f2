//! Weights of pairs for request F-12, reckoned by hand from the sides of document 01's networks and of others.

use super::{network, Links, RING};
use crate::network::Network;

/// A tree of a network with the weights of its pairs, by slot.
pub struct PairSheet {
    pub name: &'static str,
    pub network: Network,
    pub tree: u32,
    pub weights: Vec<u64>,
}

/// The weights of one tree's pairs.
fn pair_sheet(name: &'static str, network: &Network, tree: u32, weights: &[u64]) -> PairSheet {
    PairSheet { name, network: network.clone(), tree, weights: weights.to_vec() }
}

/// All of them.
pub fn pair_sheets() -> Vec<PairSheet> {
    [small(), two_trees(), mixed_numbers(), wide(), longest()].into_iter().flatten().collect()
}

/// Networks A, C, E and G, and C with other weights.
fn small() -> Vec<PairSheet> {
    let a = network(3, &[(0, 1, 3), (1, 2, 2), (0, 2, 4)], &[(2, &[0, 2])]);
    let c = network(4, &RING, &[(1, &[0, 1, 2])]);
    let e = network(3, &[(0, 1, 1), (1, 2, 1), (0, 2, 10)], &[(1, &[0, 1])]);
    let g = network(2, &[(0, 1, 0)], &[(7, &[0])]);
    let powers = network(4, &[(0, 1, 1), (1, 2, 2), (2, 3, 4), (3, 0, 8)], &[(0, &[0, 1, 2])]);
    vec![
        // nodes 1 and 2 by links 0 and 2: 3 + 4
        pair_sheet("A", &a, 0, &[7]),
        // node 1, nodes 1 and 2, node 2: all without a gap
        pair_sheet("C", &c, 0, &[2, 2, 2]),
        // node 1: 1 + 1
        pair_sheet("E", &e, 0, &[2]),
        pair_sheet("G", &g, 0, &[]),
        // of a path that a fourth link closes, two links stand for the nodes between them: they alone cross
        pair_sheet("C with weights 1, 2, 4 and 8", &powers, 0, &[3, 5, 6]),
    ]
}

/// Network F, and F with a second tree.
fn two_trees() -> Vec<PairSheet> {
    let links: Links = &[(0, 1, 1), (1, 2, 1), (2, 3, 1), (0, 2, 10), (1, 3, 10)];
    let first: (u64, &[usize]) = (1, &[0, 1, 2]);
    let f = network(4, links, &[first]);
    let both = network(4, links, &[first, (5, &[0, 3, 4])]);
    // by links 0 and 1 node 1: 1 + 1 + 10; by links 0 and 2 nodes 1 and 2: 1 + 1 + 10 + 10; by links 1 and 2 node 2: 1 + 1 + 10
    let of_first = [12, 22, 12];
    // by links 0 and 3 nodes 1, 2 and 3: 1 + 10; by links 0 and 4 node 1: 1 + 1 + 10; by links 3 and 4 nodes 2 and 3: 1 + 10 + 10
    let of_second = [11, 12, 21];
    vec![
        pair_sheet("F", &f, 0, &of_first),
        pair_sheet("F with a second tree, the first", &both, 0, &of_first),
        pair_sheet("F with a second tree, the second", &both, 1, &of_second),
    ]
}

/// A tree whose links are in another order than its nodes, between links that are not in it. Link 3 joins nodes 0 and 2, on which nodes 1
/// and 3 hang by links 1 and 7, and node 4 hangs on node 3 by link 4.
fn mixed_numbers() -> Vec<PairSheet> {
    let links: Links = &[
        (1, 3, 100),
        (1, 2, 1),
        (0, 4, 1000),
        (2, 0, 2),
        (3, 4, 4),
        (2, 1, 10_000),
        (4, 2, 100_000),
        (3, 2, 8),
        (0, 1, 1_000_000),
    ];
    let mixed = network(5, links, &[(1, &[1, 3, 4, 7])]);
    let weights = [
        // links 1 and 3: nodes 2, 3 and 4, apart from nodes 0 and 1
        1 + 2 + 100 + 1000 + 10_000,
        // links 1 and 4: nodes 1 and 4
        1 + 4 + 100 + 1000 + 10_000 + 100_000 + 1_000_000,
        // links 3 and 4: nodes 1, 2 and 3
        2 + 4 + 100_000 + 1_000_000,
        // links 1 and 7: nodes 1, 3 and 4
        1 + 8 + 1000 + 10_000 + 100_000 + 1_000_000,
        // links 3 and 7: nodes 1 and 2
        2 + 8 + 100 + 100_000 + 1_000_000,
        // links 4 and 7: node 3
        4 + 8 + 100,
    ];
    vec![pair_sheet("mixed numbers", &mixed, 0, &weights)]
}

/// A star of three nodes with parallel links between its leaves, and 2,048 links all of which cross the side of a pair.
fn wide() -> Vec<PairSheet> {
    const MOST: u64 = u32::MAX as u64;
    let star = network(3, &[(0, 1, MOST), (1, 2, MOST), (2, 1, MOST), (0, 2, MOST)], &[(1, &[0, 3])]);
    let mut links = vec![(0, 1, MOST); 2048];
    links[2047] = (1, 2, MOST);
    let path = network(3, &links, &[(1, &[0, 2047]), (1, &[2046, 2047])]);
    vec![
        // nodes 1 and 2: the links between them do not cross
        pair_sheet("a wide star", &star, 0, &[8_589_934_590]),
        // node 1: all links
        pair_sheet("2,048 links at a node, tree 0", &path, 0, &[8_796_093_020_160]),
        pair_sheet("2,048 links at a node, tree 1", &path, 1, &[8_796_093_020_160]),
    ]
}

/// A path and a star of 256 nodes without further links: a pair weighs what its two links weigh. Link k weighs k, or k of the 65,536.
fn longest() -> Vec<PairSheet> {
    let of = |name, scale: u64, upper: fn(usize) -> usize| {
        let links: Vec<_> = (0..255).map(|link| (upper(link), link + 1, scale * link as u64)).collect();
        let members: Vec<usize> = (0..255).collect();
        let pairs = (0..255).flat_map(|higher| (0..higher).map(move |lower| scale * (lower + higher)));
        pair_sheet(name, &network(256, &links, &[(1, &members)]), 0, &pairs.collect::<Vec<u64>>())
    };
    vec![of("a path of 256 nodes", 1, |link| link), of("a star of 256 nodes", 65_536, |_| 0)]
}

#[cfg(test)]
mod tests {
    use super::*;
    use crate::every_side;
    use crate::pairs::{self, PairWeights, Question};
    use crate::sheet::Contents;

    #[test]
    fn the_reference_has_the_weights_that_were_reckoned() {
        for PairSheet { name, network, tree, weights } in pair_sheets() {
            let reading = Ok(Contents::without_trunks(network.clone()));
            let question = Question { tree, room: weights.len() };
            assert_eq!(pairs::outcome_of(&reading, question), Ok(weights.clone()), "{name}");
            assert_eq!(pairs::check(&network, question, Ok(&weights)), Ok(()), "{name}");
            if network.nodes <= every_side::MOST_NODES {
                assert_eq!(PairWeights::by_every_side(&network).of_tree(tree), Some(&weights[..]), "{name}");
            }
        }
    }

    #[test]
    fn the_weights_of_256_nodes_fill_the_longest_area() {
        let longest = pair_sheets().pop().expect("a pair sheet");
        assert_eq!(longest.weights.len(), 32_385);
        assert_eq!(longest.weights[..6], [1, 2, 3, 3, 4, 5].map(|sum| 65_536 * sum));
        assert_eq!(longest.weights[32_384], 65_536 * (253 + 254));
    }
}
