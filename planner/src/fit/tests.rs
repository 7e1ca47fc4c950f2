//! Forests and sums of shares against the formula of Tutte and Nash-Williams, over all partitions of the nodes of small networks.

use super::*;
use reference::random::Random;

/// All partitions of the nodes into two parts or more: the part of each node.
fn partitions(nodes: usize) -> Vec<Vec<usize>> {
    let mut partitions = vec![vec![0]];
    for _ in 1..nodes {
        let with_node = |partition: Vec<usize>| {
            let new_part = 1 + partition.iter().max().unwrap();
            (0..=new_part).map(move |part| [&partition[..], &[part]].concat())
        };
        partitions = partitions.into_iter().flat_map(with_node).collect();
    }
    partitions.retain(|partition| partition.contains(&1));
    partitions
}

/// How many spanning trees there are that hold each link at most so often: the least number over all partitions, by the room that their
/// links have and the parts less 1.
fn most_trees(partitions: &[Vec<usize>], links: &[Link], room: impl Fn(&Link) -> u64) -> u64 {
    let trees = |partition: &Vec<usize>| {
        let crossing = links.iter().filter(|link| partition[link.first] != partition[link.second]);
        crossing.map(&room).sum::<u64>() / *partition.iter().max().unwrap() as u64
    };
    partitions.iter().map(trees).min().unwrap()
}

/// Links between any of the nodes, of weights from 0 to the greatest.
fn random_links(random: &mut Random, nodes: usize, most_weight: usize) -> Vec<Link> {
    let mut link = |_| {
        let first = random.below(nodes);
        let second = (first + random.between(1, nodes - 1)) % nodes;
        Link { first, second, weight: random.between(0, most_weight) as u64 }
    };
    (0..3 * nodes).map(&mut link).collect()
}

#[track_caller]
fn assert_fit(nodes: usize, links: &[Link], trees: &[Tree]) {
    let mut loads = vec![0; links.len()];
    for tree in trees {
        assert_eq!(joining(nodes, links, &tree.members).len(), nodes - 1);
        assert_eq!(tree.members.len(), nodes - 1);
        tree.members.iter().for_each(|&member| loads[member] += tree.share);
    }
    assert!(loads.iter().zip(links).all(|(&load, link)| load <= link.weight), "{links:?} {trees:?}");
}

#[test]
fn the_formula_counts_trees_of_rings_and_of_nodes_all_joined() {
    let unit = |first: usize, second: usize| Link { first, second, weight: 1 };
    for nodes in 2..7 {
        let ring: Vec<Link> = (0..nodes).map(|node| unit(node, (node + 1) % nodes)).collect();
        assert_eq!(most_trees(&partitions(nodes), &ring, |link| link.weight), if nodes == 2 { 2 } else { 1 });
        let all: Vec<Link> = (1..nodes).flat_map(|second| (0..second).map(move |first| unit(first, second))).collect();
        assert_eq!(most_trees(&partitions(nodes), &all, |link| link.weight), nodes as u64 / 2);
    }
}

/// All slots, by falling share and those of one share in any order of the links.
fn random_slots(random: &mut Random, links: &[Link]) -> Vec<Slot> {
    let mut order: Vec<usize> = (0..links.len()).collect();
    random.shuffle(&mut order);
    let slot = |link: usize, number: usize| Slot { share: links[link].weight / number as u64, number, link };
    let of_link = |link| (1..=MOST_TREES).map(move |number| slot(link, number)).filter(|slot| slot.share > 0);
    let mut slots: Vec<Slot> = order.into_iter().flat_map(of_link).collect();
    slots.sort_by_key(|slot| Reverse(slot.share));
    slots
}

/// Slots of larger shares alone do not make one tree more, and what they leave behind does not stand in its way.
#[test]
fn forests_grow_at_the_largest_share_and_as_often_as_the_formula_says() {
    let mut random = Random::new(1);
    for _ in 0..300 {
        let nodes = random.between(2, 6);
        let most_weight = random.between(1, 12);
        let links = random_links(&mut random, nodes, most_weight);
        let slots = random_slots(&mut random, &links);
        let partitions = partitions(nodes);
        let mut forests = Forests::new(nodes, &links);
        for trees in 1..=MOST_TREES {
            let case = format!("{trees} trees of {links:?}");
            let room = |share: &u64| most_trees(&partitions, &links, |link| link.weight / share) >= trees as u64;
            let Some(largest) = (1..=most_weight as u64).rev().find(room) else {
                assert_eq!(forests.grow(&slots), None, "{case}");
                assert_fit(nodes, &links, &forests.trees(1));
                break;
            };
            let larger = slots.partition_point(|slot| slot.share > largest);
            assert_eq!((forests.grow(&slots[..larger]), forests.count()), (None, trees - 1), "{case}");
            assert_eq!((forests.grow(&slots), forests.count()), (Some(largest), trees), "{case}");
            assert_fit(nodes, &links, &forests.trees(largest));
        }
    }
}

#[test]
fn the_sum_is_the_largest_up_to_32_and_near_it_above() {
    let mut random = Random::new(2);
    for _ in 0..500 {
        let nodes = random.between(2, 7);
        let most_weight = random.pick(&[1, 2, 9, 40, 1000, 1_000_000]);
        let links = random_links(&mut random, nodes, most_weight);
        let Ok(trees) = fit(nodes, &links) else { continue };
        assert_fit(nodes, &links, &trees);
        let most = most_trees(&partitions(nodes), &links, |link| link.weight);
        let least = if most <= 32 { most } else { most / 10 * 9 };
        assert!((least..=most).contains(&sum(&trees)), "{} of {most}: {links:?}", sum(&trees));
    }
}
