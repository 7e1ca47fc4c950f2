//! The list of request F-5: every side of the reported weight that some tree shows, each once, in the order of request F-6. A side that
//! several candidates have stands where the first of them stands. For networks of any size by their candidates, for small ones also by
//! every side.

use std::collections::HashMap;

use crate::claims;
use crate::cuts::{self, Candidate};
use crate::every_side::{self, Shown};
use crate::network::Network;
use crate::report::{self, Side};

/// The sides in their order, and how many candidates have one of them: more than there are sides where several trees show a side.
#[derive(Clone, Debug, PartialEq, Eq)]
pub struct List {
    pub sides: Vec<Side>,
    pub candidates: usize,
}

/// The sides of the least weight among the candidates met so far, each with the first of its candidates.
#[derive(Default)]
pub struct Lightest {
    weight: u64,
    firsts: HashMap<Side, Candidate>,
    candidates: usize,
}

impl Lightest {
    pub fn meet(&mut self, candidate: Candidate, inside: &[bool]) {
        if self.candidates == 0 || candidate.weight < self.weight {
            *self = Lightest { weight: candidate.weight, ..Lightest::default() };
        }
        if candidate.weight == self.weight {
            let side = report::side_of(inside);
            self.firsts.entry(side).and_modify(|first| *first = candidate.min(*first)).or_insert(candidate);
            self.candidates += 1;
        }
    }

    pub fn list(self) -> List {
        let mut sides: Vec<(Candidate, Side)> = self.firsts.into_iter().map(|(side, first)| (first, side)).collect();
        sides.sort_unstable();
        List { sides: sides.into_iter().map(|(_, side)| side).collect(), candidates: self.candidates }
    }
}

/// The list of a sound network by its candidates.
pub fn by_candidates(network: &Network) -> List {
    let mut lightest = Lightest::default();
    cuts::each_candidate(network, |candidate, inside| lightest.meet(candidate, inside));
    lightest.list()
}

/// The list of a sound network of at most [`every_side::MOST_NODES`] nodes: each of all its sides is looked at once, with all the trees
/// that show it.
pub fn by_every_side(network: &Network) -> List {
    let mut shown = every_side::shown(network);
    let least = shown.iter().map(|(candidate, _)| candidate.weight).min();
    shown.retain(|(candidate, _)| Some(candidate.weight) == least);
    let by_side = shown.chunk_by(|one, other| one.1 == other.1);
    let mut sides: Vec<&Shown> = by_side.filter_map(|of_one_side| of_one_side.iter().min()).collect();
    sides.sort_unstable();
    let bytes = |&(_, side): &Shown| report::side_bytes(every_side::nodes_of(network, side));
    List { sides: sides.into_iter().map(bytes).collect(), candidates: shown.len() }
}

/// The nodes of a side, rising.
pub fn nodes(side: &Side) -> Vec<usize> {
    (0..8 * side.len()).filter(|node| side[node / 8] >> (node % 8) & 1 == 1).collect()
}

/// What a network's list keeps beside the reported side; the error names a claim that does not hold.
pub fn check(List { sides: list, .. }: &List, reported: &[usize]) -> Result<(), String> {
    let nodes_in = |side: &Side| side.iter().map(|byte| byte.count_ones()).sum::<u32>();
    claims::check([
        (list.first().is_some_and(|first| nodes(first) == reported), "the list begins with the reported side"),
        (list.iter().all(|side| side[0] & 1 == 0), "no listed side holds node 0"),
        (list.windows(2).all(|two| nodes_in(&two[0]) <= nodes_in(&two[1])), "sides of fewer nodes are listed first"),
    ])
}

#[cfg(test)]
mod tests {
    use super::*;
    use crate::documented;
    use crate::generate::{self, FEATURES};
    use crate::random::Random;
    use std::collections::BTreeSet;

    /// Both methods give the list that is named by its nodes.
    #[track_caller]
    fn assert_list(network: &Network, expected: &[&[usize]]) {
        let list = by_candidates(network);
        assert_eq!(list.sides.iter().map(nodes).collect::<Vec<_>>(), expected);
        assert_eq!(by_every_side(network), list);
        assert_eq!(check(&list, &cuts::answer(network).side), Ok(()));
    }

    type Links<'a> = &'a [(usize, usize, u64)];

    const RING: Links = &[(0, 1, 1), (1, 2, 1), (2, 3, 1), (3, 0, 1)];

    #[test]
    fn document_01s_networks_have_these_lists() {
        let triangle: Links = &[(0, 1, 3), (1, 2, 2), (0, 2, 4)];
        assert_list(&documented::network(3, triangle, &[(2, &[0, 2])]), &[&[1]]);
        let thick: Links = &[(0, 1, 1), (1, 2, 1), (0, 2, 10)];
        assert_list(&documented::network(3, thick, &[(1, &[0, 1])]), &[&[1]]);
        // nodes 1 and 3 weigh 3 and cross three tree links; of the sides shown, node 3 and nodes 1, 2 and 3 weigh 11
        let hidden: Links = &[(0, 1, 1), (1, 2, 1), (2, 3, 1), (0, 2, 10), (1, 3, 10)];
        assert_list(&documented::network(4, hidden, &[(1, &[0, 1, 2])]), &[&[3], &[1, 2, 3]]);
        assert_list(&documented::network(2, &[(0, 1, 0)], &[(7, &[0])]), &[&[1]]);
    }

    #[test]
    fn smaller_sides_come_first_and_then_lower_links() {
        let network = documented::network(4, RING, &[(1, &[0, 1, 2])]);
        assert_list(&network, &[&[1], &[2], &[3], &[1, 2], &[2, 3], &[1, 2, 3]]);
    }

    /// Below link 1 lie nodes 1 and 2, below link 2 node 1 alone: links 1 and 2 name node 2.
    #[test]
    fn the_order_is_by_links_and_not_by_nodes() {
        let network = documented::network(3, &[(0, 1, 1), (0, 2, 1), (2, 1, 1)], &[(1, &[1, 2])]);
        assert_list(&network, &[&[2], &[1], &[1, 2]]);
    }

    /// Both trees show all six sides: one has nodes 2 and 3 by links 1 and 3 and nodes 1 and 2 by link 2, the other nodes 1 and 2 by
    /// links 0 and 2 and nodes 2 and 3 by link 1.
    #[test]
    fn a_side_of_two_trees_stands_at_its_first() {
        let network = documented::network(4, RING, &[(0, &[1, 2, 3]), (0, &[0, 1, 2])]);
        assert_list(&network, &[&[1], &[2], &[3], &[2, 3], &[1, 2], &[1, 2, 3]]);
        let equal = documented::network(4, RING, &[(0, &[0, 1, 2]), (0, &[0, 1, 2]), (5, &[0, 1, 2])]);
        assert_list(&equal, &[&[1], &[2], &[3], &[1, 2], &[2, 3], &[1, 2, 3]]);
        assert_eq!([by_candidates(&network).candidates, by_candidates(&equal).candidates], [12, 18]);
    }

    /// The star around node 0 shows all sides of one node and of two, the path also those of three and four without a gap.
    #[test]
    fn a_later_tree_adds_sides_and_the_number_of_nodes_decides_before_the_tree() {
        let links: Links = &[(0, 1, 0), (0, 2, 0), (0, 3, 0), (0, 4, 0), (1, 2, 0), (2, 3, 0), (3, 4, 0)];
        let star: (u64, &[usize]) = (0, &[0, 1, 2, 3]);
        let path: (u64, &[usize]) = (0, &[0, 4, 5, 6]);
        let ones: [&[usize]; 4] = [&[1], &[2], &[3], &[4]];
        let twos: [&[usize]; 6] = [&[1, 2], &[1, 3], &[1, 4], &[2, 3], &[2, 4], &[3, 4]];
        let of_star = [&ones[..], &twos[..]].concat();
        assert_list(&documented::network(5, links, &[star]), &of_star);
        let more: [&[usize]; 3] = [&[1, 2, 3], &[2, 3, 4], &[1, 2, 3, 4]];
        assert_list(&documented::network(5, links, &[star, path]), &[&of_star[..], &more[..]].concat());
        // the path shows those of two nodes without a gap, by links 0 and 5, links 4 and 6, and link 5
        let first_twos: [&[usize]; 6] = [&[1, 2], &[2, 3], &[3, 4], &[1, 3], &[1, 4], &[2, 4]];
        let path_first = [&ones[..], &first_twos[..], &more[..]].concat();
        assert_list(&documented::network(5, links, &[path, star]), &path_first);
    }

    #[test]
    fn both_methods_agree_and_lists_keep_what_they_have_to() {
        let mut random = Random::new(5);
        for feature in FEATURES {
            for _ in 0..60 {
                let size = generate::random_size(&mut random, 2, every_side::MOST_NODES, feature);
                let network = generate::network(&mut random, size, feature);
                let list = by_candidates(&network);
                assert_eq!(list, by_every_side(&network));
                assert_eq!(check(&list, &cuts::answer(&network).side), Ok(()));
                assert_eq!(list.sides.iter().collect::<BTreeSet<_>>().len(), list.sides.len());
            }
        }
    }

    #[test]
    fn another_list_is_noticed() {
        let list = by_candidates(&documented::network(4, RING, &[(1, &[0, 1, 2])]));
        assert_eq!(check(&list, &[1]), Ok(()));
        let begins = Err("the list begins with the reported side".to_string());
        assert_eq!(check(&list, &[2]), begins);
        assert_eq!(check(&List { sides: vec![], candidates: 0 }, &[1]), begins);
        let mut with_root = list.clone();
        with_root.sides[5] = report::side_bytes([0]);
        assert_eq!(check(&with_root, &[1]), Err("no listed side holds node 0".to_string()));
        let mut swapped = list.clone();
        swapped.sides.swap(2, 3);
        assert_eq!(check(&swapped, &[1]), Err("sides of fewer nodes are listed first".to_string()));
    }
}
