//! The answer by component search, for networks of any size: each candidate's side is found by flooding its tree from node 0,
//! and weighed by its own crossing links.

use crate::network::{Link, Network, Tree};

pub const TREES_ONLY: u8 = 1;
pub const WHOLE: u8 = 2;

/// A single tree link or a pair, with the weight of its side and the number of nodes in it. The order of the fields is the order among
/// candidates in force: no second link stands before any.
#[derive(Clone, Copy, Debug, PartialEq, Eq, PartialOrd, Ord)]
pub struct Candidate {
    pub weight: u64,
    pub nodes: usize,
    pub tree: usize,
    pub first: usize,
    pub second: Option<usize>,
}

/// What is reported of an accepted sheet.
#[derive(Clone, Debug, PartialEq, Eq)]
pub struct Answer {
    pub verdict: u8,
    pub floor: u64,
    pub candidate: Candidate,
    /// The nodes of the side, rising.
    pub side: Vec<usize>,
}

/// One step of a flood: `node` is reached from the node `from` over `member`.
struct Step {
    node: usize,
    from: usize,
    member: usize,
}

/// The steps by which a flood from node 0 over a tree's members reaches all other nodes.
fn flood(network: &Network, tree: &Tree) -> Vec<Step> {
    let mut neighbours: Vec<Vec<(usize, usize)>> = vec![Vec::new(); network.nodes];
    for &member in &tree.members {
        let Link { first, second, .. } = network.links[member];
        neighbours[first].push((second, member));
        neighbours[second].push((first, member));
    }
    let mut reached = vec![false; network.nodes];
    reached[0] = true;
    let mut steps: Vec<Step> = Vec::new();
    let mut waiting = vec![0];
    while let Some(from) = waiting.pop() {
        for &(node, member) in &neighbours[from] {
            if !reached[node] {
                reached[node] = true;
                steps.push(Step { node, from, member });
                waiting.push(node);
            }
        }
    }
    steps
}

/// Marks the nodes inside: node 0 is outside, and a step over a chosen member changes from one to the other.
fn mark_inside(steps: &[Step], first: usize, second: Option<usize>, inside: &mut [bool]) {
    inside[0] = false;
    for step in steps {
        let chosen = step.member == first || Some(step.member) == second;
        inside[step.node] = inside[step.from] != chosen;
    }
}

/// The weight of the links that have exactly one end inside.
pub fn weigh(links: &[Link], inside: &[bool]) -> u64 {
    let crossing = |link: &Link| u64::from(inside[link.first] != inside[link.second]);
    links.iter().map(|link| crossing(link) * link.weight).sum()
}

/// The links of each candidate of a tree: every member alone, and with every later one.
fn singles_and_pairs(members: &[usize]) -> impl Iterator<Item = (usize, Option<usize>)> + '_ {
    members.iter().enumerate().flat_map(|(place, &first)| {
        let later = members[place + 1..].iter().copied().map(Some);
        std::iter::once(None).chain(later).map(move |second| (first, second))
    })
}

/// Which of two candidates stands before the other. The first of all is reported.
#[derive(Clone, Copy, Debug, PartialEq, Eq)]
pub enum Order {
    /// By weight, tree, first link, a single link before a pair, and second link: document 01's order, of units already sold.
    Listed,
    /// By weight and fewer nodes in the side, and then as listed: the order in force.
    FewerNodes,
}

impl Order {
    fn is_before(self, one: &Candidate, other: &Candidate) -> bool {
        let listed = |of: &Candidate| (of.weight, of.tree, of.first, of.second);
        match self {
            Order::Listed => listed(one) < listed(other),
            Order::FewerNodes => one < other,
        }
    }
}

/// Meets every candidate of a sound network with the nodes inside its side. Each tree of such a network joins all nodes.
pub fn each_candidate(network: &Network, mut meet: impl FnMut(Candidate, &[bool])) {
    let mut inside = vec![false; network.nodes];
    for (tree, record) in network.trees.iter().enumerate() {
        let steps = flood(network, record);
        for (first, second) in singles_and_pairs(&record.members) {
            mark_inside(&steps, first, second, &mut inside);
            let weight = weigh(&network.links, &inside);
            let nodes = inside.iter().filter(|&&inside| inside).count();
            meet(Candidate { weight, nodes, tree, first, second }, &inside);
        }
    }
}

/// A candidate, and which nodes are inside its side.
struct Found {
    candidate: Candidate,
    inside: Vec<bool>,
}

/// The first of the candidates met so far, by either order.
#[derive(Default)]
pub struct Firsts {
    listed: Option<Found>,
    fewer_nodes: Option<Found>,
}

impl Firsts {
    /// The first candidates of a sound network.
    pub fn of(network: &Network) -> Firsts {
        let mut firsts = Firsts::default();
        each_candidate(network, |candidate, inside| firsts.meet(candidate, inside));
        firsts
    }

    pub fn meet(&mut self, candidate: Candidate, inside: &[bool]) {
        keep_first(Order::Listed, &mut self.listed, candidate, inside);
        keep_first(Order::FewerNodes, &mut self.fewer_nodes, candidate, inside);
    }

    /// The answer by those rules of the network whose candidates were met.
    pub fn answer(&self, rules: Rules, network: &Network) -> Answer {
        let first = match rules.order {
            Order::Listed => &self.listed,
            Order::FewerNodes => &self.fewer_nodes,
        };
        let Found { candidate, inside } = first.as_ref().expect("a sound network has a tree link");
        let floor = candidate.weight.min(three_shares(counted(rules.counting, network)));
        let verdict = if floor == candidate.weight { WHOLE } else { TREES_ONLY };
        let side = (0..network.nodes).filter(|&node| inside[node]).collect();
        Answer { verdict, floor, candidate: *candidate, side }
    }
}

/// Puts a candidate in the place of the first one so far, if it stands before that or there is none.
fn keep_first(order: Order, first: &mut Option<Found>, candidate: Candidate, inside: &[bool]) {
    if first.as_ref().is_none_or(|found| order.is_before(&candidate, &found.candidate)) {
        *first = Some(Found { candidate, inside: inside.to_vec() });
    }
}

/// Which trees count: the floor is made of their shares.
#[derive(Clone, Copy, Debug, PartialEq, Eq)]
pub enum Counting {
    /// All, or none where all together overload a link: document 01's rule, of units already sold.
    AllOrNone,
    /// The longest run from tree 0 on that overloads no link: the rule in force.
    LongestRun,
}

/// The load of each link by the trees given.
pub fn loads(links: &[Link], trees: &[Tree]) -> Vec<u64> {
    let mut loads = vec![0; links.len()];
    for tree in trees {
        for &member in &tree.members {
            loads[member] += tree.share;
        }
    }
    loads
}

/// Whether all trees together load a link past its weight.
pub fn overloaded(network: &Network) -> bool {
    let loads = loads(&network.links, &network.trees);
    loads.iter().zip(&network.links).any(|(&load, link)| load > link.weight)
}

/// How many trees from tree 0 on a link bears: all before the first that brings its load past its weight.
fn borne(network: &Network, link: usize) -> usize {
    let mut load = 0;
    let passes = |tree: &Tree| {
        load += if tree.members.contains(&link) { tree.share } else { 0 };
        load > network.links[link].weight
    };
    network.trees.iter().position(passes).unwrap_or(network.trees.len())
}

/// How many trees the longest run from tree 0 on has that overloads no link: as many as every link bears.
pub fn longest_run(network: &Network) -> usize {
    (0..network.links.len()).map(|link| borne(network, link)).min().unwrap_or(network.trees.len())
}

/// The trees that count by that rule, from tree 0 on.
pub fn counted(counting: Counting, network: &Network) -> &[Tree] {
    let count = match counting {
        Counting::AllOrNone if overloaded(network) => 0,
        Counting::AllOrNone => network.trees.len(),
        Counting::LongestRun => longest_run(network),
    };
    &network.trees[..count]
}

/// Three times the sum of the trees' shares.
pub fn three_shares(trees: &[Tree]) -> u64 {
    3 * trees.iter().map(|tree| tree.share).sum::<u64>()
}

/// What the answers of units already sold may differ in.
#[derive(Clone, Copy, Debug, PartialEq, Eq)]
pub struct Rules {
    pub counting: Counting,
    pub order: Order,
}

/// Document 01's rules, of units already sold.
pub const BASE: Rules = Rules { counting: Counting::AllOrNone, order: Order::Listed };
/// Document 01's order with the counting in force, of units already sold too.
pub const LISTED: Rules = Rules { counting: Counting::LongestRun, order: Order::Listed };
/// The rules in force.
pub const CURRENT: Rules = Rules { counting: Counting::LongestRun, order: Order::FewerNodes };

/// The answer of a sound network by the rules in force.
pub fn answer(network: &Network) -> Answer {
    Firsts::of(network).answer(CURRENT, network)
}

#[cfg(test)]
mod tests {
    use super::*;
    use crate::documented;

    /// A candidate of weight 5 with four nodes, in tree 1.
    fn of_tree_1(first: usize, second: Option<usize>) -> Candidate {
        Candidate { weight: 5, nodes: 4, tree: 1, first, second }
    }

    #[test]
    fn by_either_order_a_single_link_stands_before_a_pair_and_after_a_pair_of_a_lower_first_link() {
        let in_order = [
            Candidate { weight: 4, nodes: 9, tree: 9, first: 9, second: Some(10) },
            of_tree_1(2, Some(9)),
            of_tree_1(3, None),
            of_tree_1(3, Some(4)),
            of_tree_1(3, Some(5)),
            of_tree_1(9, None),
            Candidate { tree: 2, ..of_tree_1(0, None) },
        ];
        for order in [Order::Listed, Order::FewerNodes] {
            for (place, one) in in_order.iter().enumerate() {
                assert!(in_order[place + 1..].iter().all(|other| order.is_before(one, other)), "{order:?}: {one:?}");
                assert!(in_order[..=place].iter().all(|other| !order.is_before(one, other)), "{order:?}: {one:?}");
            }
        }
    }

    #[test]
    fn fewer_nodes_stand_before_a_lower_tree_and_behind_a_lower_weight() {
        let small = Candidate { nodes: 3, tree: 2, ..of_tree_1(9, Some(10)) };
        let (large, lighter) = (of_tree_1(0, None), Candidate { weight: 4, ..of_tree_1(0, None) });
        assert!(Order::FewerNodes.is_before(&small, &large) && Order::Listed.is_before(&large, &small));
        assert!(Order::FewerNodes.is_before(&lighter, &small) && Order::Listed.is_before(&lighter, &small));
        let listed_alike = Candidate { nodes: 3, ..large };
        assert!(Order::FewerNodes.is_before(&listed_alike, &large));
        assert!(!Order::Listed.is_before(&listed_alike, &large) && !Order::Listed.is_before(&large, &listed_alike));
    }

    /// How many trees count by either rule. The trees have one link each, of weight 4 or 20.
    fn counts(trees: &[(u64, &[usize])]) -> (usize, usize) {
        let network = documented::network(2, &[(0, 1, 4), (0, 1, 20)], trees);
        let count = |counting| counted(counting, &network).len();
        (count(Counting::AllOrNone), count(Counting::LongestRun))
    }

    #[test]
    fn trees_count_up_to_the_first_that_overloads_a_link() {
        assert_eq!(counts(&[(5, &[0])]), (0, 0));
        assert_eq!(counts(&[(5, &[0]), (1, &[0]), (1, &[1])]), (0, 0));
        assert_eq!(counts(&[(0, &[0]), (21, &[1])]), (0, 1));
        assert_eq!(counts(&[(2, &[0]), (2, &[0]), (1, &[0])]), (0, 2));
        assert_eq!(counts(&[(2, &[0]), (20, &[1]), (3, &[0]), (0, &[0]), (0, &[1])]), (0, 2));
    }

    #[test]
    fn all_trees_count_where_they_overload_no_link() {
        assert_eq!(counts(&[(4, &[0])]), (1, 1));
        assert_eq!(counts(&[(2, &[0]), (2, &[0])]), (2, 2));
        assert_eq!(counts(&[(4, &[0]), (0, &[0]), (20, &[1])]), (3, 3));
    }
}
