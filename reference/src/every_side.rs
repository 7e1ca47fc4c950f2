//! The answer of a small network by every side, and the demands on the reported numbers, checked side by side. A side is a number
//! whose bit k is node k.

mod complete;

pub use complete::{check_list, Beside};

use crate::cuts::{Answer, Candidate, TREES_ONLY, WHOLE};
use crate::network::{Network, Tree};
use crate::report::{side_bytes, Side};
use std::cmp::Ordering;

/// Networks of more nodes have too many sides to try them all.
pub const MOST_NODES: usize = 10;

/// All sides without node 0.
fn sides(network: &Network) -> impl Iterator<Item = u32> {
    (1..1 << (network.nodes - 1)).map(|others: u32| others << 1)
}

pub fn crosses(network: &Network, side: u32, link: usize) -> bool {
    let link = network.links[link];
    (side >> link.first ^ side >> link.second) & 1 == 1
}

fn weigh(network: &Network, side: u32) -> u64 {
    (0..network.links.len()).filter(|&link| crosses(network, side, link)).map(|link| network.links[link].weight).sum()
}

fn crossing_members(network: &Network, tree: &Tree, side: u32) -> Vec<usize> {
    tree.members.iter().copied().filter(|&member| crosses(network, side, member)).collect()
}

pub fn nodes_of(network: &Network, side: u32) -> Vec<usize> {
    (0..network.nodes).filter(|&node| side >> node & 1 == 1).collect()
}

/// The side of these nodes.
fn side_of(nodes: &[usize]) -> u32 {
    nodes.iter().fold(0, |side, &node| side | 1 << node)
}

fn node_count(side: u32) -> usize {
    side.count_ones() as usize
}

/// The least that any side of a network of at most [`MOST_NODES`] nodes weighs, and all sides of that weight.
pub fn lightest(network: &Network) -> (u64, Vec<Side>) {
    let least = sides(network).map(|side| weigh(network, side)).min().expect("a network has a side");
    let lightest = sides(network).filter(|&side| weigh(network, side) == least);
    (least, lightest.map(|side| side_bytes(nodes_of(network, side))).collect())
}

/// A side that a tree shows, named by the members that it crosses.
pub type Shown = (Candidate, u32);

/// Every shown side with its weight, once for each tree that shows it.
pub fn shown(network: &Network) -> Vec<Shown> {
    let mut shown = Vec::new();
    for side in sides(network) {
        let weight = weigh(network, side);
        for (tree, listed) in network.trees.iter().enumerate() {
            let (first, second) = match crossing_members(network, listed, side)[..] {
                [first] => (first, None),
                [first, second] => (first, Some(second)),
                _ => continue,
            };
            let candidate = Candidate { weight, nodes: node_count(side), tree, first, second };
            shown.push((candidate, side));
        }
    }
    shown
}

fn shares<'a>(trees: impl Iterator<Item = &'a Tree>) -> u128 {
    trees.map(|tree| u128::from(tree.share)).sum()
}

/// Whether these trees alone load a link past its weight.
fn overload(network: &Network, trees: &[Tree]) -> bool {
    let load = |link: usize| shares(trees.iter().filter(|tree| tree.members.contains(&link)));
    (0..network.links.len()).any(|link| load(link) > u128::from(network.links[link].weight))
}

/// The lesser of a reported weight and three times the shares of the trees.
fn floor_of(trees: &[Tree], weight: u64) -> u64 {
    let three_shares = 3 * shares(trees.iter());
    if three_shares < u128::from(weight) {
        three_shares as u64
    } else {
        weight
    }
}

/// The trees that count by request F-3. Runs from tree 0 on are tried from all trees down.
fn counted(network: &Network) -> &[Tree] {
    let mut run = &network.trees[..];
    while overload(network, run) {
        run = &run[..run.len() - 1];
    }
    run
}

/// The floor that request F-3 has for a reported weight.
fn floor(network: &Network, weight: u64) -> u64 {
    floor_of(counted(network), weight)
}

/// The answer of a sound network of at most [`MOST_NODES`] nodes.
pub fn answer(network: &Network) -> Answer {
    let first = shown(network).into_iter().min();
    let (candidate, side) = first.expect("a sound network shows a side");
    let floor = floor(network, candidate.weight);
    let verdict = if candidate.weight == floor { WHOLE } else { TREES_ONLY };
    Answer { verdict, floor, candidate, side: nodes_of(network, side) }
}

fn require(holds: bool, otherwise: &str) -> Result<(), String> {
    if holds {
        Ok(())
    } else {
        Err(otherwise.to_string())
    }
}

/// Demand 3 of a reported answer with request F-3's floor and request F-6's order, by every side of the whole network; the error says
/// what does not hold.
pub fn check_demand(network: &Network, answer: &Answer) -> Result<(), String> {
    check_reported(network, answer)?;
    for side in sides(network) {
        let weight = weigh(network, side);
        require(weight >= answer.floor, "a side is below the floor")?;
        for (number, tree) in network.trees.iter().enumerate() {
            let crossed = crossing_members(network, tree, side);
            if crossed.len() <= 2 {
                check_first(&answer.candidate, weight, node_count(side), number, &crossed)?;
            }
        }
    }
    Ok(())
}

/// A side that a tree shows does not stand before the reported one: of weight, nodes, tree, first link, number of links and second link,
/// the first in which the two differ is not less.
fn check_first(reported: &Candidate, weight: u64, nodes: usize, tree: usize, crossed: &[usize]) -> Result<(), String> {
    let links = links_of(reported);
    let steps = [
        (weight.cmp(&reported.weight), "a lighter side is shown"),
        (nodes.cmp(&reported.nodes), "a side as light with fewer nodes is shown"),
        (tree.cmp(&reported.tree), "an earlier tree shows a side as light and as small"),
        (crossed.first().cmp(&links.first()), "a lower first link of the tree shows a side as light and as small"),
        (crossed.len().cmp(&links.len()), "the first link alone shows a side as light and as small"),
        (crossed.last().cmp(&links.last()), "a lower second link shows a side as light and as small"),
    ];
    match steps.into_iter().find(|(step, _)| step.is_ne()) {
        Some((Ordering::Less, before)) => Err(before.to_string()),
        _ => Ok(()),
    }
}

/// The one link or the two of a candidate.
fn links_of(candidate: &Candidate) -> Vec<usize> {
    [candidate.first].into_iter().chain(candidate.second).collect()
}

/// The reported numbers fit the reported side.
fn check_reported(network: &Network, answer: &Answer) -> Result<(), String> {
    let candidate = answer.candidate;
    let tree = network.trees.get(candidate.tree);
    let tree = tree.ok_or("the tree is not listed")?;
    let side = side_of(&answer.side);
    let crossed = crossing_members(network, tree, side);
    let owed_verdict = match candidate.weight == answer.floor {
        true => WHOLE,
        false => TREES_ONLY,
    };
    require(side != 0, "the side is empty")?;
    require(side & 1 == 0, "the side holds node 0")?;
    require(weigh(network, side) == candidate.weight, "the weight")?;
    require(node_count(side) == candidate.nodes, "the number of nodes")?;
    require(crossed == links_of(&candidate), "the side crosses other members")?;
    check_floor(network, answer)?;
    require(answer.verdict == owed_verdict, "the verdict")
}

/// The reported floor is that of the trees that count: a run from tree 0 on that overloads no link, and it is all trees or one tree
/// more overloads a link. Loads only grow with a run, so one run alone is such.
fn check_floor(network: &Network, answer: &Answer) -> Result<(), String> {
    let trees = &network.trees;
    let counts = |&run: &usize| {
        let fits = !overload(network, &trees[..run]);
        fits && (run == trees.len() || overload(network, &trees[..run + 1]))
    };
    let runs: Vec<usize> = (0..=trees.len()).filter(counts).collect();
    let [run] = runs[..] else {
        return Err("the trees that count are not one run".to_string());
    };
    require(answer.floor == floor_of(&trees[..run], answer.candidate.weight), "the floor")
}

/// The members on the tree path between two nodes; none if the tree does not join them.
pub fn path(network: &Network, tree: &Tree, from: usize, to: usize) -> Option<Vec<usize>> {
    fn walk(network: &Network, tree: &Tree, at: usize, to: usize, walked: &mut Vec<usize>) -> bool {
        if at == to {
            return true;
        }
        for &member in &tree.members {
            let link = network.links[member];
            if walked.last() == Some(&member) || (link.first != at && link.second != at) {
                continue;
            }
            walked.push(member);
            if walk(network, tree, link.first + link.second - at, to, walked) {
                return true;
            }
            walked.pop();
        }
        false
    }
    let mut walked = Vec::new();
    walk(network, tree, from, to, &mut walked).then_some(walked)
}

/// Document 01's sides and weights of all candidates: each candidate has exactly one of the shown sides, it is the nodes whose
/// path to node 0 uses exactly one of the candidate's links, and a pair weighs what the single weights and the paths say.
pub fn check_candidates(network: &Network) -> Result<(), String> {
    let mut shown = shown(network);
    shown.sort_by_key(|(candidate, _)| (candidate.tree, candidate.first, candidate.second));
    for (number, tree) in network.trees.iter().enumerate() {
        let of_tree = |(candidate, _): &&Shown| candidate.tree == number;
        let mut of_tree: Vec<Shown> = shown.iter().filter(of_tree).copied().collect();
        check_sides(network, tree, &of_tree)?;
        check_pairs(network, tree, &of_tree)?;
        of_tree.dedup_by_key(|(candidate, _)| (candidate.first, candidate.second));
        let candidates = tree.members.len() * (tree.members.len() + 1) / 2;
        require(of_tree.len() == candidates, "a candidate has no side")?;
    }
    Ok(())
}

/// Each side of a tree is the nodes below exactly one of its links, so no other side has the same links.
fn check_sides(network: &Network, tree: &Tree, shown: &[Shown]) -> Result<(), String> {
    let to_root = paths(network, tree, (0..network.nodes).map(|node| (node, 0)))?;
    for (candidate, side) in shown {
        let below = |node: usize, link: usize| to_root[node].contains(&link);
        let below_one = |node: usize| {
            let below_second = candidate.second.is_some_and(|second| below(node, second));
            below(node, candidate.first) != below_second
        };
        let nodes: Vec<usize> = (0..network.nodes).filter(|&node| below_one(node)).collect();
        require(nodes_of(network, *side) == nodes, "the nodes below")?;
    }
    Ok(())
}

/// Each pair of a tree weighs its single weights less twice the links whose ends are joined by a path over both.
fn check_pairs(network: &Network, tree: &Tree, shown: &[Shown]) -> Result<(), String> {
    let ends = network.links.iter().map(|link| (link.first, link.second));
    let joining = paths(network, tree, ends)?;
    let single = |link: usize| {
        let alone = |(candidate, _): &&Shown| (candidate.first, candidate.second) == (link, None);
        let found = shown.iter().find(alone);
        found.map_or(0, |(candidate, _)| candidate.weight)
    };
    for (candidate, _) in shown {
        let Some(second) = candidate.second else {
            continue;
        };
        let over_both = |path: &Vec<usize>| path.contains(&candidate.first) && path.contains(&second);
        let links = network.links.iter().zip(&joining);
        let both: u64 = links.filter(|(_, path)| over_both(path)).map(|(link, _)| link.weight).sum();
        let singles = single(candidate.first) + single(second);
        require(candidate.weight + 2 * both == singles, "a pair's weight")?;
    }
    Ok(())
}

fn paths(
    network: &Network,
    tree: &Tree,
    ends: impl Iterator<Item = (usize, usize)>,
) -> Result<Vec<Vec<usize>>, String> {
    let between = |(from, to)| path(network, tree, from, to);
    let paths: Option<Vec<Vec<usize>>> = ends.map(between).collect();
    paths.ok_or("a tree does not join all nodes".to_string())
}

#[cfg(test)]
mod tests {
    use super::*;
    use crate::documented;

    /// Document 01's network E, whose answer is `answer 2 2 2 0 0 1 1`, `side 1`.
    fn network() -> Network {
        documented::network(3, &[(0, 1, 1), (1, 2, 1), (0, 2, 10)], &[(1, &[0, 1])])
    }

    #[test]
    fn wrong_answers_are_noticed() {
        let network = network();
        let right = answer(&network);
        assert_eq!(check_demand(&network, &right), Ok(()));
        let changes: [fn(&mut Answer); 9] = [
            |answer| answer.verdict = TREES_ONLY,
            |answer| answer.floor = 1,
            |answer| answer.candidate.weight = 3,
            |answer| answer.candidate.nodes = 2,
            |answer| answer.candidate.tree = 1,
            |answer| answer.candidate.first = 2,
            |answer| answer.candidate.second = None,
            |answer| answer.side = vec![0, 2],
            |answer| answer.side = vec![],
        ];
        for change in changes {
            let mut wrong = right.clone();
            change(&mut wrong);
            assert!(check_demand(&network, &wrong).is_err(), "{wrong:?}");
        }
    }

    /// A network of two parallel links and its right answer. Trees 0 and 1 load link 0 to its weight, tree 2 would overload it, and
    /// tree 3 holds link 1: the floor is three times 2 and 2. Three times all shares is below the weight too.
    fn run_of_two() -> (Network, Answer) {
        let trees: [(u64, &[usize]); 4] = [(2, &[0]), (2, &[0]), (1, &[0]), (3, &[1])];
        let network = documented::network(2, &[(0, 1, 4), (0, 1, 36)], &trees);
        let candidate = Candidate { weight: 40, nodes: 1, tree: 0, first: 0, second: None };
        (network, Answer { verdict: TREES_ONLY, floor: 12, candidate, side: vec![1] })
    }

    #[test]
    fn the_floor_is_that_of_the_longest_run() {
        let (network, right) = run_of_two();
        assert_eq!(answer(&network), right);
        assert_eq!(check_demand(&network, &right), Ok(()));
        let all_shares = 24;
        let one_tree_more = 15;
        let the_later_tree_too = 21;
        let one_tree_fewer = 6;
        let of_units_already_sold = 0;
        for floor in [all_shares, one_tree_more, the_later_tree_too, one_tree_fewer, of_units_already_sold] {
            let wrong = Answer { floor, ..right.clone() };
            assert_eq!(check_demand(&network, &wrong), Err("the floor".to_string()), "{floor}");
        }
    }

    #[test]
    fn no_tree_counts_if_the_first_overloads_a_link() {
        let (mut network, right) = run_of_two();
        network.trees[0].share = 5;
        let none = Answer { floor: 0, ..right.clone() };
        assert_eq!(answer(&network), none);
        assert_eq!(check_demand(&network, &none), Ok(()));
        assert_eq!(check_demand(&network, &right), Err("the floor".to_string()));
    }

    /// A side that is shown and reported with its own numbers is the answer, and another one is noticed for what stands before it.
    #[track_caller]
    fn assert_first(network: &Network, first: (Candidate, &[usize]), other: (Candidate, &[usize]), before: &str) {
        let reported = |(candidate, side): (Candidate, &[usize])| {
            let floor = floor(network, candidate.weight);
            let verdict = if floor == candidate.weight { WHOLE } else { TREES_ONLY };
            Answer { verdict, floor, candidate, side: side.to_vec() }
        };
        assert_eq!(answer(network), reported(first));
        assert_eq!(check_demand(network, &reported(first)), Ok(()));
        assert_eq!(check_reported(network, &reported(other)), Ok(()));
        assert_eq!(check_demand(network, &reported(other)), Err(before.to_string()));
    }

    fn candidate(weight: u64, nodes: usize, tree: usize, first: usize, second: Option<usize>) -> Candidate {
        Candidate { weight, nodes, tree, first, second }
    }

    /// A ring of four nodes with all weights 1: every side without a gap weighs 2.
    fn ring(links: [(usize, usize); 4], trees: &[(u64, &[usize])]) -> Network {
        documented::network(4, &links.map(|(first, second)| (first, second, 1)), trees)
    }

    #[test]
    fn a_heavier_side_of_fewer_nodes_is_noticed() {
        let path = documented::network(3, &[(0, 1, 1), (1, 2, 2)], &[(0, &[0, 1])]);
        let (both, last) = (candidate(1, 2, 0, 0, None), candidate(2, 1, 0, 1, None));
        assert_first(&path, (both, &[1, 2]), (last, &[2]), "a lighter side is shown");
    }

    #[test]
    fn a_side_of_more_nodes_is_noticed() {
        let network = ring([(0, 1), (1, 2), (2, 3), (3, 0)], &[(1, &[0, 1, 2])]);
        let (one, all) = (candidate(2, 1, 0, 0, Some(1)), candidate(2, 3, 0, 0, None));
        assert_first(&network, (one, &[1]), (all, &[1, 2, 3]), "a side as light with fewer nodes is shown");
    }

    #[test]
    fn a_later_tree_is_noticed() {
        let network = ring([(0, 1), (1, 2), (2, 3), (3, 0)], &[(1, &[1, 2, 3]), (0, &[0, 1, 2])]);
        let before = "an earlier tree shows a side as light and as small";
        let (single, pair) = (candidate(2, 1, 0, 1, None), candidate(2, 1, 1, 0, Some(1)));
        assert_first(&network, (single, &[1]), (pair, &[1]), before);
    }

    #[test]
    fn a_higher_first_link_is_noticed() {
        let network = ring([(0, 1), (1, 2), (2, 3), (3, 0)], &[(1, &[0, 1, 2])]);
        let before = "a lower first link of the tree shows a side as light and as small";
        let (node_1, node_2, node_3) =
            (candidate(2, 1, 0, 0, Some(1)), candidate(2, 1, 0, 1, Some(2)), candidate(2, 1, 0, 2, None));
        assert_first(&network, (node_1, &[1]), (node_2, &[2]), before);
        assert_first(&network, (node_1, &[1]), (node_3, &[3]), before);
    }

    /// The lower link is link 0: it shows node 2, and with the upper one node 1.
    #[test]
    fn a_pair_is_noticed_where_its_first_link_shows_as_few_nodes() {
        let triangle = documented::network(3, &[(1, 2, 1), (0, 1, 1), (0, 2, 1)], &[(1, &[0, 1])]);
        let before = "the first link alone shows a side as light and as small";
        let (single, pair) = (candidate(2, 1, 0, 0, None), candidate(2, 1, 0, 0, Some(1)));
        assert_first(&triangle, (single, &[2]), (pair, &[1]), before);
    }

    /// Link 0 joins the middle nodes: with the link above it shows node 1, with the link below it node 2.
    #[test]
    fn a_higher_second_link_is_noticed() {
        let network = ring([(1, 2), (0, 1), (2, 3), (3, 0)], &[(1, &[0, 1, 2])]);
        let before = "a lower second link shows a side as light and as small";
        let (upper, lower) = (candidate(2, 1, 0, 0, Some(1)), candidate(2, 1, 0, 0, Some(2)));
        assert_first(&network, (upper, &[1]), (lower, &[2]), before);
    }

    #[test]
    fn candidates_without_a_side_are_noticed() {
        let mut network = network();
        assert_eq!(check_candidates(&network), Ok(()));
        network.trees[0].members = vec![0, 1, 2];
        assert!(check_candidates(&network).is_err());
        network.trees[0].members = vec![0];
        assert!(check_candidates(&network).is_err());
    }
}
