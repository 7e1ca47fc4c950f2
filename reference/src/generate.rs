//! Sound random networks of a given size, each with a feature that makes its answer hard to reckon.

pub mod crossing;
mod outside;
pub mod pairs;
pub mod questions;
mod runs;
pub mod sides;
mod ties;
mod trunks;
mod unshown;

pub use outside::outside;
pub use trunks::{contents, with_trunks};

use crate::cuts;
use crate::network::{joining, Link, Network, Tree};
use crate::random::Random;
use crate::shapes::SHAPES;
use crate::sheet::{self, Contents, ALL_FIELDS, BASE, LINK_FIELDS, MOST_LINKS, MOST_TREES, MOST_WEIGHT};

#[derive(Clone, Copy, Debug)]
pub struct Size {
    pub nodes: usize,
    pub links: usize,
    pub trees: usize,
}

impl Size {
    pub const fn new(nodes: usize, links: usize, trees: usize) -> Size {
        Size { nodes, links, trees }
    }
}

#[derive(Clone, Copy, Debug, PartialEq, Eq)]
pub enum Feature {
    /// Any weights and shares.
    Any,
    /// Weights of few values.
    Ties,
    /// Many links of weight 0.
    WeightZero,
    /// Most links have a parallel one.
    Parallel,
    /// Trees that are listed again and again.
    EqualTrees,
    /// No load exceeds its link's weight, and some equal it.
    LoadAtWeight,
    /// By all trees together one load is its link's weight and 1.
    LoadAboveWeight,
    /// Three times the shares of the trees that count, all or some, is the lightest weight, 1 less or 1 more.
    SharesAtWeight,
    /// Shares whose sums need more than 32 bits, some with a small remainder of 32 bits.
    WideSums,
    /// Weights around the greatest of units already sold, around 2^31, and up to the greatest, in a range each.
    HeavyLinks,
    /// A light side that the first trees do not show and a later one does.
    LaterTree,
    /// The same, and all trees show another side of its weight, of more nodes in some networks, of as many or fewer in others.
    OtherSize,
    /// A side that no tree shows weighs three times the shares of the trees that count, or 1 more. The reported side weighs as much as
    /// these shares, 1 less or 1 more.
    Unshown,
    /// The first, a middle or the last tree ends the run of those that count, most often with a load one above its link's weight.
    RunEnds,
    /// The same with weights and shares up to the greatest.
    WideRun,
    /// All links weigh the same, nothing in some networks.
    EqualWeights,
    /// A ring of all nodes, as far as the links go, sometimes with chords. All links weigh the same.
    Ring,
    /// Links between all nodes, as far as they go, and trees of any shape. All links weigh the same.
    Complete,
}

pub const FEATURES: [Feature; 18] = [
    Feature::Any,
    Feature::Ties,
    Feature::WeightZero,
    Feature::Parallel,
    Feature::EqualTrees,
    Feature::LoadAtWeight,
    Feature::LoadAboveWeight,
    Feature::SharesAtWeight,
    Feature::WideSums,
    Feature::HeavyLinks,
    Feature::LaterTree,
    Feature::OtherSize,
    Feature::Unshown,
    Feature::RunEnds,
    Feature::WideRun,
    Feature::EqualWeights,
    Feature::Ring,
    Feature::Complete,
];

impl Feature {
    pub fn name(self) -> &'static str {
        match self {
            Feature::Any => "any weights and shares",
            Feature::Ties => "ties",
            Feature::WeightZero => "weight 0",
            Feature::Parallel => "parallel links",
            Feature::EqualTrees => "equal trees",
            Feature::LoadAtWeight => "load at its link's weight",
            Feature::LoadAboveWeight => "load one above its link's weight",
            Feature::SharesAtWeight => "three shares at the weight",
            Feature::WideSums => "sums of more than 32 bits",
            Feature::HeavyLinks => "heavy links",
            Feature::LaterTree => "a later tree shows the lightest",
            Feature::OtherSize => "a later tree shows another size",
            Feature::Unshown => "three shares at an unshown side",
            Feature::RunEnds => "a tree ends the run",
            Feature::WideRun => "a tree ends the run, wide shares",
            Feature::EqualWeights => "equal weights",
            Feature::Ring => "rings of equal weights",
            Feature::Complete => "all nodes joined, equal weights",
        }
    }

    /// The least size of a network of the feature, and for runs the least with a middle tree. With more nodes it takes as many more links.
    fn least_size(self) -> Size {
        match self {
            Feature::LaterTree => Size::new(4, 5, 2),
            Feature::OtherSize => Size::new(5, 6, 2),
            Feature::Unshown => Size::new(5, 6, 1),
            Feature::RunEnds | Feature::WideRun => Size::new(2, 1, 3),
            _ => Size::new(2, 1, 1),
        }
    }

    pub fn least_nodes(self) -> usize {
        self.least_size().nodes
    }
}

/// A size that a network of the feature can have, with nodes between the limits. Often few links and trees, sometimes many.
pub fn random_size(random: &mut Random, least_nodes: usize, most_nodes: usize, feature: Feature) -> Size {
    let least = feature.least_size();
    let most_nodes = match feature {
        Feature::Complete => most_nodes.min(ties::MOST_COMPLETE_NODES),
        _ => most_nodes,
    };
    let nodes = random.between(least_nodes.max(least.nodes), most_nodes);
    let links = match feature {
        Feature::Ring => ties::ring_links(random, nodes),
        Feature::Complete => ties::complete_links(nodes),
        _ => nodes - least.nodes + least.links + more_links(random, nodes),
    };
    let links = links.min(MOST_LINKS);
    let most_trees = random.pick(&[1, 2, 3, 5, 8, MOST_TREES]);
    let trees = random.between(1, most_trees).max(least.trees);
    Size::new(nodes, links, trees)
}

/// How many links there are beside those that are needed: often few, sometimes many.
fn more_links(random: &mut Random, nodes: usize) -> usize {
    let most = match random.below(8) {
        0 => 0,
        1..4 => 4,
        4..7 => 2 * nodes,
        _ => 8 * nodes,
    };
    random.between(0, most)
}

/// A sound network of that size.
pub fn network(random: &mut Random, size: Size, feature: Feature) -> Network {
    let mut network = match feature {
        Feature::Unshown => return unshown::network(random, size),
        Feature::LaterTree => with_light_side(random, size, 0),
        Feature::OtherSize => {
            let hung = some_hung(random, size);
            with_light_side(random, size, hung)
        }
        _ => {
            let mut network = joined(random, size, feature);
            set_weights(random, &mut network, feature);
            network
        }
    };
    set_shares(random, &mut network, feature);
    match feature {
        Feature::LoadAtWeight => fit_weights(random, &mut network),
        Feature::LoadAboveWeight => {
            fit_weights(random, &mut network);
            overload_one(random, &mut network);
        }
        Feature::SharesAtWeight => fit_shares(random, &mut network),
        Feature::RunEnds | Feature::WideRun => runs::end_run(random, &mut network),
        _ => {}
    }
    network
}

/// Small networks, so many of each feature.
#[cfg(test)]
pub fn small_networks(seed: u64, of_each_feature: usize) -> Vec<Network> {
    let mut random = Random::new(seed);
    let network = |feature| {
        let size = random_size(&mut random, 2, crate::every_side::MOST_NODES, feature);
        network(&mut random, size, feature)
    };
    FEATURES.into_iter().flat_map(|feature| vec![feature; of_each_feature]).map(network).collect()
}

/// Map bytes with some fields, or all, written though they equal those of the link before; in half of the cases not the trunk numbers.
pub fn longer_maps(random: &mut Random, contents: &Contents) -> Vec<u8> {
    let mut maps = sheet::shortest_maps(contents);
    let fields = random.pick(&[LINK_FIELDS, ALL_FIELDS]);
    let all = random.once_in(4);
    for map in &mut maps {
        *map |= if all { fields } else { random.byte() & fields };
    }
    maps
}

/// The ends of links that join all nodes as a tree of any shape.
fn base_tree(random: &mut Random, nodes: usize) -> Vec<(usize, usize)> {
    let mut order: Vec<usize> = (0..nodes).collect();
    random.shuffle(&mut order);
    random.pick(&SHAPES).ends(random, &order)
}

/// The ends of so many links. The first join all nodes as a tree.
fn joining_ends(random: &mut Random, size: Size, feature: Feature) -> Vec<(usize, usize)> {
    let nodes: Vec<usize> = (0..size.nodes).collect();
    let mut ends = match feature {
        Feature::Ring => ties::ring(random, size.nodes),
        Feature::Complete => ties::all_pairs(random, size.nodes),
        _ => base_tree(random, size.nodes),
    };
    ends.truncate(size.links);
    while ends.len() < size.links {
        let again = match feature {
            Feature::Parallel => !random.once_in(4),
            _ => random.once_in(8),
        };
        let pair = match again {
            true => random.pick(&ends),
            false => two_of(random, &nodes),
        };
        ends.push(pair);
    }
    for pair in &mut ends {
        if random.once_in(2) {
            *pair = (pair.1, pair.0);
        }
    }
    ends
}

/// Two different nodes.
pub fn two_of(random: &mut Random, nodes: &[usize]) -> (usize, usize) {
    let first = random.below(nodes.len());
    let second = (first + random.between(1, nodes.len() - 1)) % nodes.len();
    (nodes[first], nodes[second])
}

/// Links and trees without weights and shares.
fn joined(random: &mut Random, size: Size, feature: Feature) -> Network {
    let ends = joining_ends(random, size, feature);
    let places = arrange(random, &ends);
    let mut network = without_trees(size.nodes, &ends, &places, |_| 0);
    let base: Vec<usize> = (0..size.links).filter(|&link| places[link] < size.nodes - 1).collect();
    for _ in 0..size.trees {
        let members = members(random, &network, &base, feature);
        network.trees.push(Tree { share: 0, members });
    }
    network
}

/// The links in the order of their places, weighed by place.
fn without_trees(
    nodes: usize,
    ends: &[(usize, usize)],
    places: &[usize],
    mut weight: impl FnMut(usize) -> u64,
) -> Network {
    let link = |&place: &usize| Link { first: ends[place].0, second: ends[place].1, weight: weight(place) };
    Network { nodes, links: places.iter().map(link).collect(), trees: Vec::new() }
}

/// An order of the links: as they are, shuffled, or by their ends, so that ends repeat.
fn arrange(random: &mut Random, ends: &[(usize, usize)]) -> Vec<usize> {
    let mut places: Vec<usize> = (0..ends.len()).collect();
    match random.below(4) {
        0 => {}
        1 => places.sort_by_key(|&place| ends[place].0),
        _ => random.shuffle(&mut places),
    }
    places
}

/// The members of one more tree: the base tree, a tree that is listed already, or another.
fn members(random: &mut Random, network: &Network, base: &[usize], feature: Feature) -> Vec<usize> {
    let listed = &network.trees;
    let again = if feature == Feature::EqualTrees { !random.once_in(4) } else { random.once_in(6) };
    if !listed.is_empty() && again {
        return listed[random.below(listed.len())].members.clone();
    }
    if random.once_in(if listed.is_empty() { 2 } else { 4 }) {
        return base.to_vec();
    }
    let mut order: Vec<usize> = (0..network.links.len()).collect();
    random.shuffle(&mut order);
    if feature == Feature::Complete {
        let shape = base_tree(random, network.nodes);
        order.sort_by_key(|&link| !ties::is_between(&network.links[link], &shape));
    }
    spanning_members(network, &order)
}

/// The members of the tree that grows when the links are added in that order.
fn spanning_members(network: &Network, order: &[usize]) -> Vec<usize> {
    let mut members = joining(network.nodes, &network.links, order);
    members.sort_unstable();
    members
}

/// Ranges of weights: around the limit of units already sold, around half of 2^32, so that two of them pass it or not, and up to
/// the greatest.
const HEAVY_WEIGHTS: [(u64, u64); 6] = [
    (BASE.most_weight - 1, BASE.most_weight + 1),
    ((1 << 31) - 1, (1 << 31) + 1),
    (MOST_WEIGHT - 2, MOST_WEIGHT),
    (MOST_WEIGHT, MOST_WEIGHT),
    (0, MOST_WEIGHT),
    (1 << 30, MOST_WEIGHT),
];

/// The greatest weight with which a share of four bytes, three times, is as much as all links weigh.
fn most_for_one_share(network: &Network) -> u64 {
    (3 * MOST_WEIGHT / network.links.len() as u64).min(MOST_WEIGHT)
}

fn set_weights(random: &mut Random, network: &mut Network, feature: Feature) {
    let (least, most) = match feature {
        Feature::Any | Feature::WideSums => (0, random.pick(&[10, 1000, MOST_WEIGHT])),
        Feature::Ties | Feature::EqualTrees => random.pick(&[(1, 1), (1, 2), (0, 2), (5, 7)]),
        Feature::SharesAtWeight => {
            let most = most_for_one_share(network);
            random.pick(&[(2, 4), (10, 20), (1000, 2000), (most / 2, most)])
        }
        Feature::HeavyLinks => random.pick(&HEAVY_WEIGHTS),
        Feature::RunEnds => random.pick(&[(0, 3), (5, 50), (1000, 2000)]),
        Feature::WideRun => (MOST_WEIGHT - random.pick(&[0, 0, 2, MOST_WEIGHT / 2]), MOST_WEIGHT),
        Feature::EqualWeights | Feature::Ring | Feature::Complete => random.pick(&ties::WEIGHTS),
        _ => (0, random.pick(&[2, 5, 100])),
    };
    for link in &mut network.links {
        link.weight = random.between(least as usize, most as usize) as u64;
        if feature == Feature::WeightZero && !random.once_in(3) {
            link.weight = 0;
        }
    }
}

fn set_shares(random: &mut Random, network: &mut Network, feature: Feature) {
    let bits = random.between(0, 32);
    let most = random.pick(&[1, 2, 30]);
    for tree in &mut network.trees {
        tree.share = match feature {
            Feature::Any => random.number() & ((1 << bits) - 1),
            Feature::LoadAtWeight | Feature::LoadAboveWeight => random.between(1, 1 + most) as u64,
            Feature::WideSums => u64::from(u32::MAX) - random.pick(&[0, 0, 1, u64::from(u32::MAX / 3 * 2)]),
            Feature::HeavyLinks => random.pick(&[0, MOST_WEIGHT / 32, MOST_WEIGHT / 3, MOST_WEIGHT - 1, MOST_WEIGHT]),
            _ => random.between(0, most) as u64,
        };
    }
    if feature == Feature::WideSums && network.trees.len() >= 2 && !random.once_in(3) {
        wrap_shares(random, network);
    }
    if feature == Feature::HeavyLinks && random.once_in(2) {
        share_evenly(network);
    }
}

/// Gives all trees the same share, the greatest that loads no link more than the lightest bears.
fn share_evenly(network: &mut Network) {
    network.trees.iter_mut().for_each(|tree| tree.share = 1);
    let most_holders = cuts::loads(&network.links, &network.trees).into_iter().max().unwrap_or(1);
    let lightest = network.links.iter().map(|link| link.weight).min().unwrap_or(0);
    let share = lightest / most_holders;
    network.trees.iter_mut().for_each(|tree| tree.share = share);
}

/// Makes all trees equal, with shares whose sum is 2^32 and a little more, and weights that bear tree 0 and that little.
fn wrap_shares(random: &mut Random, network: &mut Network) {
    let little = random.below(4) as u64;
    let members = network.trees[0].members.clone();
    for tree in &mut network.trees {
        *tree = Tree { share: 0, members: members.clone() };
    }
    let first = 1 + random.number() % u64::from(u32::MAX);
    network.trees[0].share = first;
    network.trees[1].share = ((1 << 32) - first + little).min(u64::from(u32::MAX));
    for link in &mut network.links {
        link.weight = link.weight.max(first).max(little);
    }
}

/// Weights that no load exceeds; about half of the loads equal their link's weight.
fn fit_weights(random: &mut Random, network: &mut Network) {
    let tight = random.pick(&network.trees[0].members);
    for (link, load) in cuts::loads(&network.links, &network.trees).into_iter().enumerate() {
        let spare = if random.once_in(2) { random.below(20) as u64 } else { 0 };
        network.links[link].weight = load + if link == tight { 0 } else { spare };
    }
}

/// Takes the weight of one member to one below its load.
fn overload_one(random: &mut Random, network: &mut Network) {
    let member = random.pick(&network.trees[0].members);
    network.links[member].weight = cuts::loads(&network.links, &network.trees)[member] - 1;
}

/// Shares of the first trees, often of all, whose threefold sum is as near to the lightest weight as can be, and weights that the loads
/// do not exceed where a few attempts reach that. A tree behind them ends the run.
fn fit_shares(random: &mut Random, network: &mut Network) {
    const ATTEMPTS: usize = 6;
    let most = most_for_one_share(network);
    let third = |network: &Network| (cuts::answer(network).candidate.weight + 1) / 3;
    let run = runs::often_all(random, network);
    for _ in 0..ATTEMPTS {
        let shares = third(network);
        runs::share_out(random, network, run, shares);
        if !cuts::overloaded(network) {
            return runs::end_behind(random, network, run);
        }
        for (link, load) in cuts::loads(&network.links, &network.trees).into_iter().enumerate() {
            network.links[link].weight = network.links[link].weight.max(load).min(most);
        }
    }
    let shares = third(network);
    runs::share_out(random, network, 1, shares);
}

/// How many light links [`light_side_ends`] starts with.
const LIGHT_LINKS: usize = 3;

/// The ends of so many links: first the light ones, a path that crosses a side three times, then the link that so many further nodes
/// hang by, if there are any, then links that do not cross from one of these parts to another.
fn light_side_ends(random: &mut Random, size: Size, hung: usize) -> Vec<(usize, usize)> {
    let mut order: Vec<usize> = (0..size.nodes).collect();
    random.shuffle(&mut order);
    let (hung, others) = order.split_at(hung);
    let (inside, outside) = others.split_at(random.between(2, others.len() - 2));
    let mut ends = vec![(inside[0], outside[0]), (outside[0], inside[1]), (inside[1], outside[1])];
    ends.extend(hung.first().map(|&node| (node, random.pick(others))));
    for part in [inside, outside, hung] {
        ends.extend((1..part.len()).map(|place| (part[random.below(place)], part[place])));
    }
    let large: Vec<&[usize]> = [inside, outside, hung].into_iter().filter(|part| part.len() > 1).collect();
    while ends.len() < size.links {
        let part = random.pick(&large);
        ends.push(two_of(random, part));
    }
    ends
}

/// How many nodes of a network with a light side hang by a link, where some do.
fn some_hung(random: &mut Random, size: Size) -> usize {
    random.between(1, size.nodes - Feature::LaterTree.least_nodes())
}

/// A network with one light side, or another one of its weight if so many nodes hang by a link. The first trees hold all three links
/// across the light side, the later ones a single one.
fn with_light_side(random: &mut Random, size: Size, hung: usize) -> Network {
    let light = [0; LIGHT_LINKS].map(|_| random.below(4) as u64);
    let hiding = match random.once_in(2) {
        true => size.trees - 1,
        false => random.between(1, size.trees - 1),
    };
    hiding_side(random, size, hung, hiding, |random, place| match place {
        0..LIGHT_LINKS => light[place],
        LIGHT_LINKS if hung > 0 => light.iter().sum(),
        _ => random.between(100, 200) as u64,
    })
}

/// A network with the links of [`light_side_ends`], weighed by place, and trees without shares. So many first trees hold all three links
/// across the side, the later ones a single one.
fn hiding_side(
    random: &mut Random,
    size: Size,
    hung: usize,
    hiding: usize,
    mut weight: impl FnMut(&mut Random, usize) -> u64,
) -> Network {
    let ends = light_side_ends(random, size, hung);
    let mut places: Vec<usize> = (0..ends.len()).collect();
    random.shuffle(&mut places);
    let mut network = without_trees(size.nodes, &ends, &places, |place| weight(random, place));
    for tree in 0..size.trees {
        let mut order: Vec<usize> = (0..ends.len()).collect();
        random.shuffle(&mut order);
        order.sort_by_key(|&link| (places[link] < LIGHT_LINKS) != (tree < hiding));
        let members = spanning_members(&network, &order);
        network.trees.push(Tree { share: 0, members });
    }
    network
}

#[cfg(test)]
mod tests {
    use super::*;
    use crate::cuts::Counting;
    use crate::every_side;
    use crate::sold::Answers;
    use std::cmp::Ordering;
    use std::collections::BTreeSet;

    fn small(random: &mut Random, feature: Feature) -> Network {
        let size = random_size(random, 2, every_side::MOST_NODES, feature);
        network(random, size, feature)
    }

    #[test]
    fn networks_are_sound_and_both_methods_agree() {
        let mut random = Random::new(1);
        for feature in FEATURES {
            for _ in 0..40 {
                let network = small(&mut random, feature);
                assert_eq!(sheet::read(&sheet::write(&network)), Ok(network.clone()));
                let contents = contents(&mut random, network.clone());
                assert_eq!(sheet::read_contents(&sheet::write_contents(&contents)), Ok(contents.clone()));
                let longer = sheet::write_with_maps(&contents, &longer_maps(&mut random, &contents));
                assert_eq!(sheet::read_contents(&longer), Ok(contents));
                let answers = Answers::of(&network);
                assert_eq!(answers.current, every_side::answer(&network));
                assert_eq!(every_side::check_demand(&network, &answers.current), Ok(()));
                assert_eq!(every_side::check_candidates(&network), Ok(()));
                assert_eq!(answers.check(&network), Ok(()));
            }
        }
    }

    #[test]
    fn loads_stand_at_the_edge() {
        let mut random = Random::new(2);
        for _ in 0..50 {
            let at = small(&mut random, Feature::LoadAtWeight);
            let loads = cuts::loads(&at.links, &at.trees);
            assert!(loads.iter().zip(&at.links).any(|(&load, link)| load > 0 && load == link.weight));
            assert_eq!(cuts::longest_run(&at), at.trees.len());
        }
    }

    #[test]
    fn one_load_is_above_its_weight_from_the_last_tree_on_that_holds_its_link() {
        let mut random = Random::new(2);
        for _ in 0..50 {
            let above = small(&mut random, Feature::LoadAboveWeight);
            let loads = cuts::loads(&above.links, &above.trees);
            let is_above = |&link: &usize| loads[link] > above.links[link].weight;
            let links: Vec<usize> = (0..above.links.len()).filter(is_above).collect();
            let [link] = links[..] else { panic!("above: {links:?}") };
            assert_eq!(loads[link], above.links[link].weight + 1);
            let last_holder = above.trees.iter().rposition(|tree| tree.members.contains(&link));
            assert_eq!(Some(cuts::longest_run(&above)), last_holder);
        }
    }

    #[test]
    fn three_shares_stand_at_the_weight_below_and_above() {
        let mut random = Random::new(3);
        let mut seen = BTreeSet::new();
        let mut none_count = 0;
        for _ in 0..4000 {
            let network = small(&mut random, Feature::SharesAtWeight);
            let counted = cuts::counted(Counting::LongestRun, &network);
            if counted.is_empty() {
                none_count += 1;
                continue;
            }
            let weight = cuts::answer(&network).candidate.weight as i64;
            let difference = cuts::three_shares(counted) as i64 - weight;
            assert!(difference.abs() <= 1);
            seen.insert((difference, weight > i64::from(u32::MAX), counted.len() == network.trees.len()));
        }
        assert!(none_count < 400, "{none_count}");
        assert_eq!(seen.len(), 3 * 2 * 2, "{seen:?}");
    }

    #[test]
    fn sums_wrap_in_32_bits_without_overload_there() {
        let mut random = Random::new(4);
        let wraps = |network: &Network| {
            let Some(past) = network.trees.get(..=cuts::longest_run(network)) else {
                return false;
            };
            let fits = |(load, link): (u64, &Link)| u64::from(load as u32) <= link.weight;
            cuts::loads(&network.links, past).into_iter().zip(&network.links).all(fits)
        };
        assert!((0..100).filter(|_| wraps(&small(&mut random, Feature::WideSums))).count() > 30);
    }

    #[test]
    fn heavy_links_pass_four_bytes_or_not() {
        let mut random = Random::new(6);
        let mut seen = BTreeSet::new();
        for _ in 0..300 {
            let network = small(&mut random, Feature::HeavyLinks);
            let answer = cuts::answer(&network);
            let wide = |number: u64| number > u64::from(u32::MAX);
            seen.insert((wide(answer.candidate.weight), wide(answer.floor), answer.verdict == cuts::WHOLE));
        }
        let narrow = [(false, false, false), (false, false, true)];
        let wide = [(true, false, false), (true, true, false), (true, true, true)];
        assert_eq!(seen, narrow.into_iter().chain(wide).collect());
    }

    #[test]
    fn later_trees_are_reported() {
        let mut random = Random::new(5);
        let mut behind_the_run = 0;
        for _ in 0..100 {
            let network = small(&mut random, Feature::LaterTree);
            let tree = cuts::answer(&network).candidate.tree;
            assert!(tree > 0);
            behind_the_run += usize::from(tree >= cuts::longest_run(&network));
        }
        assert!((30..100).contains(&behind_the_run), "{behind_the_run}");
    }

    #[test]
    fn later_trees_show_sides_of_other_sizes() {
        let mut random = Random::new(5);
        let (mut smaller, mut as_small) = (0, 0);
        for _ in 0..400 {
            let network = small(&mut random, Feature::OtherSize);
            let of = |trees: &[Tree]| cuts::answer(&Network { trees: trees.to_vec(), ..network.clone() });
            let (first, later) = (of(&network.trees[..1]), of(&network.trees[1..]));
            assert_eq!(first.candidate.weight, later.candidate.weight);
            let reported = cuts::answer(&network);
            match later.candidate.nodes.cmp(&first.candidate.nodes) {
                Ordering::Less => smaller += usize::from(reported.candidate.tree > 0 && reported.side == later.side),
                Ordering::Equal => as_small += usize::from(reported.side == first.side && first.side != later.side),
                Ordering::Greater => panic!("the later trees show the first tree's side too"),
            }
        }
        assert!(smaller > 100 && as_small > 4, "{smaller} {as_small}");
    }
}
