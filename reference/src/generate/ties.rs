//! Links of networks in which very many candidates weigh the same.

use crate::network::Link;
use crate::random::Random;
use crate::sheet::MOST_WEIGHT;

/// The least and the greatest weight, which are equal.
pub const WEIGHTS: [(u64, u64); 5] = [(0, 0), (1, 1), (1, 1), (7, 7), (MOST_WEIGHT, MOST_WEIGHT)];

/// With so many nodes, each two can be joined: there are 2,016 links.
pub const MOST_COMPLETE_NODES: usize = 64;

/// How many links a ring of so many nodes has, with a few chords or none.
pub fn ring_links(random: &mut Random, nodes: usize) -> usize {
    nodes + random.pick(&[0, 0, 1, 2, 4])
}

/// How many links there are between so many nodes.
pub fn complete_links(nodes: usize) -> usize {
    nodes * (nodes - 1) / 2
}

fn mixed(random: &mut Random, nodes: usize) -> Vec<usize> {
    let mut order: Vec<usize> = (0..nodes).collect();
    random.shuffle(&mut order);
    order
}

/// The ends of a ring's links, of two parallel ones if there are two nodes. All but the last are a path.
pub fn ring(random: &mut Random, nodes: usize) -> Vec<(usize, usize)> {
    let order = mixed(random, nodes);
    (0..nodes).map(|place| (order[place], order[(place + 1) % nodes])).collect()
}

/// Each two nodes. The first ones are a star around any of the nodes.
pub fn all_pairs(random: &mut Random, nodes: usize) -> Vec<(usize, usize)> {
    let order = mixed(random, nodes);
    let pairs = |first: usize| (first + 1..nodes).map(move |second| (first, second));
    let mut ends: Vec<_> = (0..nodes).flat_map(pairs).map(|(first, second)| (order[first], order[second])).collect();
    random.shuffle(&mut ends[nodes - 1..]);
    ends
}

/// Whether a link has one of these pairs of ends.
pub fn is_between(link: &Link, ends: &[(usize, usize)]) -> bool {
    ends.contains(&(link.first, link.second)) || ends.contains(&(link.second, link.first))
}

#[cfg(test)]
mod tests {
    use super::*;
    use crate::cuts::Candidate;
    use crate::every_side;
    use crate::generate::{self, Feature};
    use crate::network::Network;
    use crate::sold::Answers;
    use std::collections::BTreeSet;

    const NETWORKS: usize = 300;
    const MANY: usize = NETWORKS / 20;
    const FEATURES: [Feature; 3] = [Feature::EqualWeights, Feature::Ring, Feature::Complete];

    /// Some hundred small networks of the feature.
    fn networks(feature: Feature) -> Vec<Network> {
        let mut random = Random::new(10);
        let network = |_| {
            let size = generate::random_size(&mut random, 2, every_side::MOST_NODES, feature);
            generate::network(&mut random, size, feature)
        };
        (0..NETWORKS).map(network).collect()
    }

    /// How many links of the network, or members of a tree, each node has, in rising order.
    fn degrees(network: &Network, links: impl Iterator<Item = usize>) -> Vec<usize> {
        let mut degrees = vec![0; network.nodes];
        for link in links {
            degrees[network.links[link].first] += 1;
            degrees[network.links[link].second] += 1;
        }
        degrees.sort_unstable();
        degrees
    }

    #[test]
    fn all_links_weigh_the_same() {
        for feature in FEATURES {
            let weights = networks(feature).into_iter().map(|network| {
                assert!(network.links.iter().all(|link| link.weight == network.links[0].weight));
                network.links[0].weight
            });
            assert_eq!(weights.collect::<BTreeSet<_>>(), [0, 1, 7, MOST_WEIGHT].into(), "{feature:?}");
        }
    }

    #[test]
    fn rings_have_chords_or_none() {
        let networks = networks(Feature::Ring);
        let without_chord = |network: &&Network| network.links.len() == network.nodes;
        assert!(networks.iter().filter(without_chord).count() > MANY);
        for network in networks {
            let degrees = degrees(&network, 0..network.links.len());
            assert_eq!(network.links.len() > network.nodes, degrees[network.nodes - 1] > 2);
            assert!(degrees[0] >= 2 && network.links.len() <= network.nodes + 4);
        }
    }

    #[test]
    fn each_two_nodes_are_joined_and_trees_are_paths_stars_and_others() {
        let (mut paths, mut stars, mut others) = (0, 0, 0);
        for network in networks(Feature::Complete) {
            let ends = network.links.iter().map(|link| (link.first.min(link.second), link.first.max(link.second)));
            assert_eq!(ends.collect::<BTreeSet<_>>().len(), complete_links(network.nodes));
            assert_eq!(network.links.len(), complete_links(network.nodes));
            for tree in network.trees.iter().filter(|_| network.nodes > 3) {
                match degrees(&network, tree.members.iter().copied())[network.nodes - 1] {
                    2 => paths += 1,
                    most if most == network.nodes - 1 => stars += 1,
                    _ => others += 1,
                }
            }
        }
        assert!(paths > MANY && stars > MANY && others > MANY, "{paths} {stars} {others}");
    }

    /// A candidate, and the nodes below its first link and below its second, as a number whose bit k is node k.
    struct Named {
        candidate: Candidate,
        first: u32,
        second: u32,
    }

    impl Named {
        fn of(network: &Network, tree: usize, first: usize, second: Option<usize>) -> Named {
            let uses = |node: usize, link: usize| {
                let path = every_side::path(network, &network.trees[tree], node, 0);
                path.is_some_and(|path| path.contains(&link))
            };
            let below =
                |link| (0..network.nodes).filter(|&node| uses(node, link)).fold(0, |side, node| side | 1 << node);
            let (below_first, below_second) = (below(first), second.map_or(0, below));
            let side: u32 = below_first ^ below_second;
            let crosses = |link: &&Link| (side >> link.first ^ side >> link.second) & 1 == 1;
            let weight = network.links.iter().filter(crosses).map(|link| link.weight).sum();
            let candidate = Candidate { weight, nodes: side.count_ones() as usize, tree, first, second };
            Named { candidate, first: below_first, second: below_second }
        }

        /// The order in force as a list of numbers, with other numbers for weight and nodes.
        fn key(&self, weight: u64, nodes: u32) -> [u64; 6] {
            let Candidate { tree, first, second, .. } = self.candidate;
            let second = second.map_or(0, |second| second as u64 + 1);
            [weight, u64::from(nodes), tree as u64, first as u64, second.min(1), second]
        }
    }

    fn all_named(network: &Network) -> Vec<Named> {
        let of_tree = |tree: usize| {
            let members = &network.trees[tree].members;
            let links = members.iter().flat_map(|&first| {
                let later = members.iter().copied().filter(move |&second| second > first).map(Some);
                std::iter::once(None).chain(later).map(move |second| (first, second))
            });
            links.map(move |(first, second)| Named::of(network, tree, first, second))
        };
        (0..network.trees.len()).flat_map(of_tree).collect()
    }

    /// A key of a candidate in a network of so many nodes, and what it is called.
    type Reading = (&'static str, fn(&Named, u32) -> [u64; 6]);

    const RIGHT: fn(&Named, u32) -> [u64; 6] = |of, _| of.key(of.candidate.weight, of.candidate.nodes as u32);

    const WRONG: [Reading; 7] = [
        ("the tree first", |of, _| of.key(of.candidate.weight, 0)),
        ("fewer nodes behind the tree", |of, _| {
            let [weight, nodes, tree, first, pair, second] = of.key(of.candidate.weight, of.candidate.nodes as u32);
            [weight, tree, nodes, first, pair, second]
        }),
        ("more nodes first", |of, nodes| of.key(of.candidate.weight, nodes - of.candidate.nodes as u32)),
        ("fewer nodes before the weight", |of, _| {
            let [weight, nodes, tree, first, pair, second] = of.key(of.candidate.weight, of.candidate.nodes as u32);
            [nodes, weight, tree, first, pair, second]
        }),
        ("nested links added", |of, _| of.key(of.candidate.weight, of.first.count_ones() + of.second.count_ones())),
        ("links beside each other subtracted", |of, _| {
            of.key(of.candidate.weight, of.first.count_ones().abs_diff(of.second.count_ones()))
        }),
        ("the lesser of both sides of the cut", |of, nodes| {
            let inside = of.candidate.nodes as u32;
            of.key(of.candidate.weight, inside.min(nodes - inside))
        }),
    ];

    fn first_by(named: &[Named], nodes: usize, key: fn(&Named, u32) -> [u64; 6]) -> Candidate {
        let first = named.iter().min_by_key(|of| key(of, nodes as u32));
        first.expect("a sound network has a tree link").candidate
    }

    #[test]
    fn wrong_readings_of_the_order_give_other_candidates() {
        let mut others = [0; WRONG.len()];
        for mut network in FEATURES.into_iter().chain([Feature::OtherSize]).flat_map(networks) {
            network.trees.truncate(3);
            let named = all_named(&network);
            let right = first_by(&named, network.nodes, RIGHT);
            assert_eq!(right, Answers::of(&network).current.candidate);
            for ((_, wrong), others) in WRONG.iter().zip(&mut others) {
                *others += usize::from(first_by(&named, network.nodes, *wrong) != right);
            }
        }
        for ((name, _), others) in WRONG.iter().zip(others) {
            assert!(others > MANY, "{name}: {others}");
        }
    }

    #[test]
    fn the_order_of_units_already_sold_has_other_sides() {
        for feature in FEATURES {
            let has_other = |network: &Network| {
                let Answers { current, listed, .. } = Answers::of(network);
                current.side != listed.side
            };
            let others = networks(feature).iter().filter(|network| has_other(network)).count();
            assert!(others > MANY, "{feature:?}: {others}");
        }
    }
}
