//! The fitting tool: what its trees and shares have to keep, and what the monitor's entry says to them.

mod networks;

use networks::{network, reached, Size, ANY_LINKS, KINDS};
use planner::fit::{fit, Apart};
use planner::unit;
use reference::cuts::{TREES_ONLY, WHOLE};
use reference::network::{Link, Network, Tree};
use reference::random::Random;
use reference::sheet::{self, MOST_LINKS, MOST_NODES, MOST_TREES, MOST_WEIGHT};
use std::time::{Duration, Instant};

const LEAST_NODES: usize = 5;

/// Verdict and weight that the monitor's entry reports of a network.
fn report(network: &Network) -> (u8, u64) {
    let answer = unit::answer(&sheet::write(network)).expect("an accepted sheet");
    (answer.verdict, answer.candidate.weight)
}

fn sum(trees: &[Tree]) -> u64 {
    trees.iter().map(|tree| tree.share).sum()
}

fn ends(links: &[Link], members: &[usize]) -> Vec<(usize, usize)> {
    members.iter().map(|&member| (links[member].first, links[member].second)).collect()
}

/// Over how many members the node that is farthest from node 0 is reached.
fn height(nodes: usize, members: &[(usize, usize)]) -> usize {
    let mut near = vec![false; nodes];
    near[0] = true;
    let mut height = 0;
    while near.contains(&false) {
        let nearer = near.clone();
        let next = members.iter().filter(|(first, second)| nearer[*first] != nearer[*second]);
        next.for_each(|&(first, second)| (near[first], near[second]) = (true, true));
        height += 1;
    }
    height
}

/// There are 1 to 32 different spanning trees, which load no link past its weight. The first is the flattest, and of such ones that of the
/// largest share; the others have falling shares.
#[track_caller]
fn assert_fit(nodes: usize, links: &[Link], trees: &[Tree]) {
    assert!((1..=MOST_TREES).contains(&trees.len()));
    let mut loads = vec![0; links.len()];
    for (place, tree) in trees.iter().enumerate() {
        assert!(tree.members.windows(2).all(|two| two[0] < two[1]));
        assert_eq!(tree.members.len(), nodes - 1);
        assert!(!reached(nodes, &ends(links, &tree.members)).contains(&false));
        assert!(trees[..place].iter().all(|before| before.members != tree.members));
        tree.members.iter().for_each(|&member| loads[member] += tree.share);
    }
    assert!(loads.iter().zip(links).all(|(&load, link)| load <= link.weight));
    let height_and_share = |tree: &Tree| (height(nodes, &ends(links, &tree.members)), MOST_WEIGHT - tree.share);
    assert!(trees.iter().all(|tree| height_and_share(&trees[0]) <= height_and_share(tree)));
    assert!(trees[1..].windows(2).all(|two| two[0].share >= two[1].share));
}

/// The trees of links that join all nodes.
#[track_caller]
fn fitted(nodes: usize, links: &[Link]) -> Vec<Tree> {
    let trees = fit(nodes, links).expect("links that join all nodes");
    assert_fit(nodes, links, &trees);
    trees
}

#[test]
fn the_monitor_calls_its_answers_whole() {
    const ROUNDS: usize = 91;
    let mut random = Random::new(1);
    let mut all_whole = 0;
    for kind in KINDS {
        let (mut whole, mut complete) = (0, 0);
        for round in 0..ROUNDS {
            let size = match LEAST_NODES + round * (MOST_NODES - LEAST_NODES) / (ROUNDS - 1) {
                MOST_NODES => Size { nodes: MOST_NODES, links: MOST_LINKS },
                nodes => Size::any(&mut random, nodes),
            };
            let (nodes, links) = network(&mut random, kind, size);
            let trees = fitted(nodes, &links);
            let three_shares = 3 * sum(&trees);
            let (verdict, weight) = report(&Network { nodes, links, trees });
            whole += usize::from(verdict == WHOLE);
            complete += usize::from(three_shares > weight);
        }
        println!("{kind:?}: {whole} of {ROUNDS} whole, {complete} lists complete");
        assert!(100 * whole >= 95 * ROUNDS, "{kind:?}");
        all_whole += whole;
    }
    assert!(100 * all_whole >= 99 * ROUNDS * KINDS.len());
}

#[test]
#[cfg_attr(debug_assertions, ignore = "the time is that of a release build")]
fn the_largest_networks_take_less_than_two_seconds() {
    let mut random = Random::new(2);
    for kind in KINDS {
        let mut longest = Duration::ZERO;
        for _ in 0..5 {
            let (nodes, links) = network(&mut random, kind, Size { nodes: MOST_NODES, links: MOST_LINKS });
            assert!(links.len() == MOST_LINKS || !ANY_LINKS.contains(&kind));
            let start = Instant::now();
            let trees = fit(nodes, &links);
            longest = longest.max(start.elapsed());
            assert!(trees.is_ok());
        }
        println!("{kind:?}: {longest:?}");
        assert!(longest < Duration::from_secs(2), "{kind:?}: {longest:?}");
    }
}

#[test]
fn the_lowest_node_that_is_apart_is_named() {
    let mut random = Random::new(3);
    let mut apart = 0;
    for _ in 0..500 {
        let nodes = random.between(2, 40);
        let mut link = |_| {
            let first = random.below(nodes);
            Link { first, second: (first + random.between(1, nodes - 1)) % nodes, weight: random.below(3) as u64 }
        };
        let links: Vec<Link> = (0..2 * nodes).map(&mut link).collect();
        let links = &links[..random.between(0, 2 * nodes)];
        let all: Vec<usize> = (0..links.len()).collect();
        match reached(nodes, &ends(links, &all)).iter().position(|reached| !reached) {
            None => assert_fit(nodes, links, &fit(nodes, links).expect("trees")),
            Some(node) => {
                assert_eq!(fit(nodes, links), Err(Apart { node }));
                apart += 1;
            }
        }
    }
    assert!((100..400).contains(&apart), "{apart}");
}

fn links(of: &[(usize, usize, u64)]) -> Vec<Link> {
    of.iter().map(|&(first, second, weight)| Link { first, second, weight }).collect()
}

/// The trees have these shares, in their order, and the monitor's answer is whole, with this weight.
#[track_caller]
fn assert_shares(nodes: usize, of: &[(usize, usize, u64)], shares: &[u64], weight: u64) {
    let links = links(of);
    let trees = fitted(nodes, &links);
    assert_eq!(trees.iter().map(|tree| tree.share).collect::<Vec<_>>(), shares);
    assert_eq!(report(&Network { nodes, links, trees }), (WHOLE, weight));
}

#[test]
fn a_ring_has_one_tree() {
    assert_shares(3, &[(0, 1, 1), (1, 2, 1), (2, 0, 1)], &[1], 2);
    let ring: Vec<(usize, usize, u64)> = (0..256).map(|node| (node, (node + 1) % 256, 1)).collect();
    assert_shares(256, &ring, &[1], 2);
}

/// A torus of four rows and columns, whose links have one weight.
fn torus(weight: u64) -> Vec<(usize, usize, u64)> {
    let right = |node: usize| (node, node / 4 * 4 + (node + 1) % 4, weight);
    let down = |node: usize| (node, (node + 4) % 16, weight);
    (0..16).map(right).chain((0..16).map(down)).collect()
}

/// Four trees of share 1 would add up to as much as two of share 2.
#[test]
fn a_torus_has_two_trees() {
    assert_shares(16, &torus(1), &[1, 1], 4);
    assert_shares(16, &torus(2), &[2, 2], 8);
}

/// Each tree holds 15 of the 32 links, so that 15 times the sum is at most what they weigh together, 1,056.
#[test]
fn what_trees_of_one_share_leave_raises_shares() {
    assert_eq!(sum(&fitted(16, &links(&torus(33)))), 70);
}

#[test]
fn two_nodes_have_a_tree_for_each_link() {
    assert_shares(2, &[(0, 1, 5)], &[5], 5);
    assert_shares(2, &[(1, 0, 5), (0, 1, 7)], &[7, 5], 12);
    assert_shares(2, &[(1, 0, 5), (0, 1, 0), (0, 1, 2)], &[5, 2], 7);
    assert_shares(2, &[(0, 1, 1); 40], &[1; 32], 40);
}

#[test]
fn links_of_weight_0_join_nodes_and_bear_no_share() {
    assert_shares(2, &[(0, 1, 0)], &[0], 0);
    // node 0 hangs by links of weight 0, and a tree of these alone does not show that
    assert_shares(4, &[(0, 1, 0), (0, 2, 0), (0, 3, 0), (1, 2, 8), (2, 3, 8)], &[0], 0);
    assert_shares(4, &[(0, 1, 0), (1, 2, 8), (0, 2, 0), (3, 0, 8), (3, 2, 0)], &[0], 0);
    assert_shares(3, &[(0, 1, 0), (0, 2, 3), (2, 1, 4)], &[3], 3);
}

#[test]
fn a_bridge_bounds_the_sum() {
    let of = [(0, 1, 5), (1, 2, 5), (2, 0, 5), (2, 3, 2), (3, 4, 5), (4, 5, 5), (5, 3, 5)];
    assert_shares(6, &of, &[2], 2);
}

/// Node 6 hangs by a link of weight 5. The ring of nodes 1 to 5 is thicker than their links to node 0, but a tree along it is higher.
#[test]
fn a_tree_is_as_flat_as_its_share_allows() {
    let ring = [(1, 2, 10), (2, 3, 10), (3, 4, 10), (4, 5, 10), (5, 1, 10)];
    let from_node_0 = [(0, 1, 5), (0, 2, 5), (0, 3, 5), (0, 4, 5), (0, 5, 5)];
    let links = links(&[&ring[..], &from_node_0[..], &[(1, 6, 5)]].concat());
    assert_eq!(fit(7, &links), Ok(vec![Tree { share: 5, members: vec![5, 6, 7, 8, 9, 10] }]));
}

/// Three times 32 shares of 1 are the weight of 96 links, and below that of 97.
#[test]
fn a_cut_can_have_more_thin_links_than_32_trees_can_use() {
    assert_shares(2, &[(0, 1, 1); 96], &[1; 32], 96);
    let links = links(&[(0, 1, 1); 97]);
    let trees = fitted(2, &links);
    assert_eq!(sum(&trees), 32);
    assert_eq!(report(&Network { nodes: 2, links, trees }), (TREES_ONLY, 97));
}

/// Each tree holds three of the four links, so that three times the sum is at most what they weigh together, 220.
#[test]
fn what_trees_of_one_share_leave_makes_further_trees() {
    let links = links(&[(0, 1, 50), (1, 3, 50), (3, 2, 50), (2, 0, 70)]);
    let trees = fitted(4, &links);
    assert_eq!(sum(&trees), 73);
    assert_eq!(report(&Network { nodes: 4, links, trees }), (WHOLE, 100));
}

/// Each tree holds two of the three links.
#[test]
fn the_greatest_weights_are_used_up() {
    let links = links(&[(0, 1, MOST_WEIGHT), (1, 2, MOST_WEIGHT), (2, 0, MOST_WEIGHT)]);
    let trees = fitted(3, &links);
    assert_eq!(sum(&trees), 6_442_450_942);
    assert_eq!(report(&Network { nodes: 3, links, trees }), (WHOLE, 2 * MOST_WEIGHT));
    assert_shares(2, &[(0, 1, MOST_WEIGHT); 3], &[MOST_WEIGHT; 3], 3 * MOST_WEIGHT);
}

/// Nodes 0 to 5 have three links, the others four, and there are too few links for two trees. The tree of links 0 to 12 holds all links of
/// nodes 0 to 5, so that it does not show what is lightest.
#[test]
fn the_one_tree_of_a_network_shows_a_lightest_cut() {
    let tree =
        [(0, 1), (0, 2), (0, 3), (2, 4), (3, 5), (1, 6), (1, 7), (2, 8), (3, 9), (4, 10), (4, 11), (5, 12), (5, 13)];
    let cube =
        [(6, 8), (8, 10), (10, 12), (12, 6), (7, 9), (9, 11), (11, 13), (13, 7), (6, 7), (8, 9), (10, 11), (12, 13)];
    let of: Vec<(usize, usize, u64)> = tree.iter().chain(&cube).map(|&(first, second)| (first, second, 1)).collect();
    let links = links(&of);
    let hidden = Tree { share: 1, members: (0..tree.len()).collect() };
    assert_eq!(report(&Network { nodes: 14, links, trees: vec![hidden] }), (TREES_ONLY, 4));
    assert_shares(14, &of, &[1], 3);
}
