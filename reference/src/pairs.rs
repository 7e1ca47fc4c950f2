//! The weights of all pairs of one tree's links (request F-12): of each pair the side that it stands for, weighed by its own crossing
//! links. In small networks also every side that crosses exactly two of the tree's links.

mod rows;

pub use rows::row_start;

use crate::claims;
use crate::cuts::{self, Candidate};
use crate::every_side;
use crate::network::{Network, Tree};
use crate::sheet::Reading;

/// The refusal of a tree number outside the sheet.
pub const NO_TREE: u32 = 23;
/// The refusal of an area with fewer numbers than the tree has pairs.
pub const SHORT_PAIRS: u32 = 24;

/// A tree by its number, and how many numbers the area has.
#[derive(Clone, Copy, Debug, PartialEq, Eq)]
pub struct Question {
    pub tree: u32,
    pub room: usize,
}

/// The weights of a tree's pairs by slot, which an area begins with, or the number of a refusal.
pub type Told<'a> = Result<&'a [u64], u32>;

/// What a sheet that was read is told, with the number of the first refusal.
pub fn outcome_of(reading: &Reading, question: Question) -> Result<Vec<u64>, u32> {
    match reading {
        Ok(contents) => PairWeights::of(&contents.network).told(question).map(<[u64]>::to_vec),
        Err(refusal) => Err(refusal.number),
    }
}

/// The pairs of each tree that were met so far, each with its link of higher rank first, and their weights.
#[derive(Default)]
pub struct Pairs(Vec<Vec<((usize, usize), u64)>>);

impl Pairs {
    pub fn meet(&mut self, candidate: Candidate) {
        let Candidate { weight, tree, first, second, .. } = candidate;
        if self.0.len() <= tree {
            self.0.resize(tree + 1, Vec::new());
        }
        self.0[tree].extend(second.map(|second| ((second, first), weight)));
    }

    /// The weights by slot: the slot of a pair is how many pairs have a lower link of higher rank, or the same and a lower other one.
    pub fn by_slot(self) -> PairWeights {
        let in_order = |mut pairs: Vec<((usize, usize), u64)>| {
            pairs.sort_unstable();
            pairs.into_iter().map(|(_, weight)| weight).collect()
        };
        PairWeights(self.0.into_iter().map(in_order).collect())
    }
}

/// The weights of the pairs of each tree of a network, by slot.
#[derive(Clone, Debug, PartialEq, Eq)]
pub struct PairWeights(Vec<Vec<u64>>);

impl PairWeights {
    /// The weights of a sound network's pairs, by their sides.
    pub fn of(network: &Network) -> PairWeights {
        let mut pairs = Pairs::default();
        cuts::each_candidate(network, |candidate, _| pairs.meet(candidate));
        pairs.by_slot()
    }

    /// The same of a network of at most [`every_side::MOST_NODES`] nodes, by every side that crosses exactly two links of a tree.
    pub fn by_every_side(network: &Network) -> PairWeights {
        let mut pairs = Pairs::default();
        every_side::shown(network).into_iter().for_each(|(candidate, _)| pairs.meet(candidate));
        pairs.by_slot()
    }

    /// The weights of a tree's pairs; none if there is no such tree.
    pub fn of_tree(&self, tree: u32) -> Option<&[u64]> {
        self.0.get(tree as usize).map(Vec::as_slice)
    }

    /// What the network is told.
    pub fn told(&self, question: Question) -> Told<'_> {
        let weights = self.of_tree(question.tree).ok_or(NO_TREE)?;
        if question.room < weights.len() {
            return Err(SHORT_PAIRS);
        }
        Ok(weights)
    }
}

/// The weights of a tree's pairs by document 01's rule: the sum of both single weights less twice the weight of the links whose ends are
/// joined by a tree path using both. A single weight is that of the links whose ends are joined by a path using the one.
fn by_paths(network: &Network, tree: &Tree) -> Vec<u64> {
    let ranks = 0..tree.members.len();
    let rank_of = |member: &usize| tree.members.binary_search(member).expect("a path is of members");
    let mut singles = vec![0; ranks.len()];
    let mut over_both = vec![0; row_start(ranks.len())];
    for link in &network.links {
        let path = every_side::path(network, tree, link.first, link.second).expect("a tree joins all nodes");
        let mut on_path: Vec<usize> = path.iter().map(rank_of).collect();
        on_path.sort_unstable();
        for (place, &rank) in on_path.iter().enumerate() {
            singles[rank] += link.weight;
            let row = &mut over_both[row_start(rank)..];
            on_path[..place].iter().for_each(|&lower| row[lower] += link.weight);
        }
    }
    let of_row = |rank: usize| {
        let row = &over_both[row_start(rank)..][..rank];
        row.iter().zip(&singles).map(|(both, single)| single + singles[rank] - 2 * both).collect::<Vec<u64>>()
    };
    ranks.flat_map(of_row).collect()
}

/// What request F-12 says of what a sound network is told; the error names a claim that does not hold.
pub fn check(network: &Network, question: Question, told: Told) -> Result<(), String> {
    let Some(tree) = network.trees.get(question.tree as usize) else {
        return claims::check([(told == Err(NO_TREE), "a tree number outside the sheet is 23")]);
    };
    let pairs = row_start(tree.members.len());
    if question.room < pairs {
        let short = "an area with fewer numbers than the tree has pairs is 24";
        return claims::check([(told == Err(SHORT_PAIRS), short)]);
    }
    let written = told.unwrap_or_default();
    let mut with_owed = written.iter().zip(by_paths(network, tree));
    claims::check([
        (told.is_ok(), "an area with a number for each pair is not refused"),
        (written.len() == pairs, "a number is written for each pair, and no other"),
        (with_owed.all(|(written, owed)| *written == owed), "each is the weight of the side that its pair stands for"),
    ])
}

#[cfg(test)]
mod tests {
    use super::*;
    use crate::documented::{self, CASE_A};
    use crate::faults;
    use crate::generate::{self, pairs as questions, FEATURES};
    use crate::random::Random;
    use crate::sheet;
    use crate::trunks;

    fn outcome(sheet: &[u8], tree: u32, room: usize) -> Result<Vec<u64>, u32> {
        outcome_of(&sheet::read_contents(sheet), Question { tree, room })
    }

    #[test]
    fn an_area_that_is_too_short_is_refused_and_a_longer_one_is_not() {
        // document 01's ring with weights 1, 2, 4 and 8: links 0 and 1 stand for node 1, links 0 and 2 for nodes 1 and 2, links 1 and 2
        // for node 2
        let links = [(0, 1, 1), (1, 2, 2), (2, 3, 4), (3, 0, 8)];
        let sheet = sheet::write(&documented::network(4, &links, &[(1, &[0, 1, 2])]));
        for room in 0..3 {
            assert_eq!(outcome(&sheet, 0, room), Err(24));
        }
        for room in [3, 4, 5, 1000, usize::MAX] {
            assert_eq!(outcome(&sheet, 0, room), Ok(vec![3, 5, 6]));
        }
    }

    #[test]
    fn a_tree_outside_the_sheet_comes_before_an_area_that_is_too_short() {
        let network = sheet::read(&CASE_A).expect("a sound sheet");
        for trees in [1, 2, 32] {
            let sheet = sheet::write(&Network { trees: vec![network.trees[0].clone(); trees], ..network.clone() });
            for tree in 0..trees as u32 {
                assert_eq!(outcome(&sheet, tree, 0), Err(24));
                assert_eq!(outcome(&sheet, tree, 1), Ok(vec![7]));
            }
            for tree in generate::outside(trees) {
                for room in [0, 1, 1000] {
                    assert_eq!(outcome(&sheet, tree, room), Err(23));
                }
            }
        }
    }

    #[test]
    fn a_tree_of_one_link_has_no_pair_and_needs_no_number() {
        let trees: [(u64, &[usize]); 2] = [(1, &[0]), (1, &[1])];
        let sheet = sheet::write(&documented::network(2, &[(0, 1, 4), (1, 0, 5)], &trees));
        for room in [0, 1, 1000] {
            assert_eq!(outcome(&sheet, 0, room), Ok(vec![]));
            assert_eq!(outcome(&sheet, 1, room), Ok(vec![]));
            assert_eq!(outcome(&sheet, 2, room), Err(23));
        }
    }

    #[test]
    fn the_sheets_refusals_come_first() {
        for base in faults::bases() {
            let Network { nodes, trees, .. } = &base.contents.network;
            let pairs = row_start(nodes - 1);
            for fault in faults::singles(&base) {
                let sheet = faults::damaged(&base, &[&fault]);
                for tree in [0, trees.len() as u32, u32::MAX] {
                    for room in [0, pairs, pairs + 1] {
                        assert_eq!(outcome(&sheet, tree, room), Err(fault.refusal.number));
                    }
                }
            }
        }
    }

    /// The weights by the pairs' sides are those of a network, question by question.
    #[track_caller]
    fn assert_kept(network: &Network, weights: &PairWeights) {
        for question in questions::all(network) {
            assert_eq!(check(network, question, weights.told(question)), Ok(()), "{question:?} {network:?}");
        }
    }

    #[test]
    fn all_methods_agree_on_small_networks() {
        for network in generate::small_networks(20, 20) {
            let weights = PairWeights::of(&network);
            assert_eq!(PairWeights::by_every_side(&network), weights, "{network:?}");
            assert_kept(&network, &weights);
        }
    }

    #[test]
    fn both_methods_agree_on_larger_networks() {
        let mut random = Random::new(21);
        for feature in FEATURES {
            let mut size = generate::random_size(&mut random, 11, 60, feature);
            size.trees = size.trees.min(3);
            let network = generate::network(&mut random, size, feature);
            assert_kept(&network, &PairWeights::of(&network));
        }
    }

    #[test]
    fn trunk_numbers_and_other_trees_do_not_matter() {
        let mut random = Random::new(22);
        for network in generate::small_networks(22, 5) {
            let contents = generate::with_trunks(&mut random, network);
            let sheet = sheet::write_contents(&contents);
            let question = questions::any(&mut random, &contents.network);
            let of = |sheet: &[u8]| outcome(sheet, question.tree, question.room);
            assert_eq!(of(&sheet), of(&trunks::plain(&sheet)));
            let network = &contents.network;
            for (number, tree) in network.trees.iter().enumerate() {
                let alone = Network { trees: vec![tree.clone()], ..network.clone() };
                assert_eq!(PairWeights::of(network).of_tree(number as u32), PairWeights::of(&alone).of_tree(0));
            }
        }
    }

    #[test]
    fn wrong_answers_are_noticed() {
        let links = [(0, 1, 1), (1, 2, 2), (2, 3, 4), (3, 0, 8)];
        let network = documented::network(4, &links, &[(1, &[0, 1, 2])]);
        let checked = |tree, room, told: Told| check(&network, Question { tree, room }, told);
        let broken =
            |tree, room, told: Told, claim: &str| assert_eq!(checked(tree, room, told), Err(claim.to_string()));
        assert_eq!(checked(0, 3, Ok(&[3, 5, 6])), Ok(()));
        assert_eq!(checked(0, 9, Ok(&[3, 5, 6])), Ok(()));
        assert_eq!(checked(0, 2, Err(24)), Ok(()));
        assert_eq!(checked(1, 2, Err(23)), Ok(()));
        let outside = "a tree number outside the sheet is 23";
        broken(1, 2, Err(24), outside);
        broken(1, 3, Ok(&[3, 5, 6]), outside);
        let short = "an area with fewer numbers than the tree has pairs is 24";
        broken(0, 2, Ok(&[3, 5]), short);
        broken(0, 2, Err(23), short);
        broken(0, 3, Err(24), "an area with a number for each pair is not refused");
        let each = "a number is written for each pair, and no other";
        broken(0, 3, Ok(&[3, 5]), each);
        broken(0, 4, Ok(&[3, 5, 6, 0]), each);
        let weight = "each is the weight of the side that its pair stands for";
        let (other_slot, taken_off_once, single_left_out) = ([5, 3, 6], [11, 13, 14], [9, 5, 6]);
        for wrong in [other_slot, taken_off_once, single_left_out] {
            broken(0, 3, Ok(&wrong), weight);
        }
    }

    #[test]
    fn a_tree_without_a_pair_that_is_refused_is_noticed() {
        let network = documented::network(2, &[(0, 1, 4)], &[(1, &[0])]);
        let refused = check(&network, Question { tree: 0, room: 0 }, Err(24));
        assert_eq!(refused, Err("an area with a number for each pair is not refused".to_string()));
    }
}
