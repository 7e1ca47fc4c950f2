//! Shapes of trees, and sound networks whose listed trees have one.

use std::collections::BTreeMap;

use crate::generate::{two_of, Size};
use crate::network::{Link, Network, Tree};
use crate::random::Random;

/// How the nodes of a tree hang together, one after another: the first is the top, each later one hangs on one before it.
#[derive(Clone, Copy, Debug, PartialEq, Eq)]
pub enum Shape {
    /// On any.
    Random,
    /// On the last.
    Path,
    /// Half of the nodes are a path, the others hang on any of these.
    Caterpillar,
    /// On the top.
    Star,
    /// Half of the nodes are a path, the others hang on its last.
    Broom,
}

pub const SHAPES: [Shape; 5] = [Shape::Random, Shape::Path, Shape::Caterpillar, Shape::Star, Shape::Broom];

impl Shape {
    pub fn name(self) -> &'static str {
        match self {
            Shape::Random => "random",
            Shape::Path => "path",
            Shape::Caterpillar => "caterpillar",
            Shape::Star => "star",
            Shape::Broom => "broom",
        }
    }

    /// The ends of the links of a tree with the nodes in that order, the upper end first.
    pub fn ends(self, random: &mut Random, order: &[usize]) -> Vec<(usize, usize)> {
        let path = order.len().div_ceil(2);
        let mut upper = |place: usize| match self {
            Shape::Random => random.below(place),
            Shape::Path => place - 1,
            Shape::Star => 0,
            Shape::Caterpillar | Shape::Broom if place < path => place - 1,
            Shape::Caterpillar => random.below(path),
            Shape::Broom => path - 1,
        };
        (1..order.len()).map(|place| (order[upper(place)], order[place])).collect()
    }
}

/// Where the links go that no tree needs.
#[derive(Clone, Copy, Debug, PartialEq, Eq)]
pub enum Further {
    /// Between any nodes, or parallel to others.
    Anywhere,
    /// Between the leaves of one tree two by two, again and again: two such leaves together are light, each alone is not.
    Leaves,
}

/// What a network is made of.
pub struct Form<'a> {
    /// Each tree has one of these shapes.
    pub shapes: &'a [Shape],
    /// Whether the root is the top of every tree, or any of its nodes.
    pub root_on_top: bool,
    /// So many trees at most differ in more than parallel links.
    pub different: usize,
    pub further: Further,
    /// The least and the greatest weight.
    pub weights: (u64, u64),
}

/// The ends of links.
type Ends = Vec<(usize, usize)>;

/// A sound network of that size. Links are numbered in mixed order; trees are listed in mixed order, and again where there are more.
pub fn network(random: &mut Random, size: Size, form: &Form) -> Network {
    let different = different_trees(random, size, form);
    let links = links(random, size, form, &different);
    let between = by_ends(&links);
    let mut trees = Vec::new();
    for _ in 0..size.trees {
        let ends = &different[random.below(different.len())];
        let mut members: Vec<usize> = ends.iter().map(|&ends| random.pick(&between[&sorted(ends)])).collect();
        members.sort_unstable();
        trees.push(Tree { share: random.below(3) as u64, members });
    }
    Network { nodes: size.nodes, links, trees }
}

/// The trees by the ends of their links; as many as there are links for.
fn different_trees(random: &mut Random, size: Size, form: &Form) -> Vec<Ends> {
    let room = size.links / (size.nodes - 1);
    let mut order: Vec<usize> = (0..size.nodes).collect();
    let tree = |_| {
        random.shuffle(&mut order[usize::from(form.root_on_top)..]);
        random.pick(form.shapes).ends(random, &order)
    };
    (0..form.different.min(size.trees).min(room)).map(tree).collect()
}

/// The links of all trees and the further ones.
fn links(random: &mut Random, size: Size, form: &Form, trees: &[Ends]) -> Vec<Link> {
    let mut ends = trees.concat();
    let further = size.links - ends.len();
    ends.extend(match form.further {
        Further::Anywhere => anywhere(random, size.nodes, further, &ends),
        Further::Leaves => leaf_pairs(random, size.nodes, &trees[0]).into_iter().cycle().take(further).collect(),
    });
    random.shuffle(&mut ends);
    let (least, most) = form.weights;
    let link = |(upper, lower)| {
        let (first, second) = if random.once_in(2) { (upper, lower) } else { (lower, upper) };
        Link { first, second, weight: random.between(least as usize, most as usize) as u64 }
    };
    ends.into_iter().map(link).collect()
}

/// So many links that are parallel to one of the given, or between any nodes.
fn anywhere(random: &mut Random, nodes: usize, count: usize, given: &[(usize, usize)]) -> Ends {
    let nodes: Vec<usize> = (0..nodes).collect();
    let parallel_or_any = |_| if random.once_in(2) { random.pick(given) } else { two_of(random, &nodes) };
    (0..count).map(parallel_or_any).collect()
}

/// The leaves of a tree two by two, the last one with another if they are odd.
fn leaf_pairs(random: &mut Random, nodes: usize, tree: &[(usize, usize)]) -> Ends {
    let links_at = |node: usize| tree.iter().filter(|ends| ends.0 == node || ends.1 == node).count();
    let mut leaves: Vec<usize> = (0..nodes).filter(|&node| links_at(node) == 1).collect();
    random.shuffle(&mut leaves);
    leaves.chunks(2).map(|pair| (pair[0], if pair.len() == 2 { pair[1] } else { leaves[0] })).collect()
}

/// The numbers of the links between each two nodes, the lower one first.
fn by_ends(links: &[Link]) -> BTreeMap<(usize, usize), Vec<usize>> {
    let mut between: BTreeMap<_, Vec<usize>> = BTreeMap::new();
    for (number, link) in links.iter().enumerate() {
        between.entry(sorted((link.first, link.second))).or_default().push(number);
    }
    between
}

fn sorted((one, other): (usize, usize)) -> (usize, usize) {
    (one.min(other), one.max(other))
}

#[cfg(test)]
mod tests {
    use super::*;
    use crate::{cuts, every_side, sheet};

    /// The upper ends of a tree of nine nodes in rising order.
    fn upper_ends(random: &mut Random, shape: Shape) -> Vec<usize> {
        let order: Vec<usize> = (0..9).collect();
        let ends = shape.ends(random, &order);
        assert!(ends.iter().map(|ends| ends.1).eq(1..9));
        ends.into_iter().map(|ends| ends.0).collect()
    }

    #[test]
    fn nodes_hang_together_as_the_shape_says() {
        let mut random = Random::new(1);
        assert_eq!(upper_ends(&mut random, Shape::Path), [0, 1, 2, 3, 4, 5, 6, 7]);
        assert_eq!(upper_ends(&mut random, Shape::Star), [0; 8]);
        assert_eq!(upper_ends(&mut random, Shape::Broom), [0, 1, 2, 3, 4, 4, 4, 4]);
        for _ in 0..100 {
            let caterpillar = upper_ends(&mut random, Shape::Caterpillar);
            assert_eq!(caterpillar[..4], [0, 1, 2, 3]);
            assert!(caterpillar.iter().all(|&upper| upper < 5));
            assert!(upper_ends(&mut random, Shape::Random).iter().zip(1..9).all(|(&upper, lower)| upper < lower));
        }
    }

    #[test]
    fn listed_trees_have_the_shape_with_the_root_on_top() {
        let mut random = Random::new(2);
        for (shape, root_links, most_links) in [(Shape::Path, 1, 2), (Shape::Star, 8, 8), (Shape::Broom, 1, 5)] {
            let form =
                Form { shapes: &[shape], root_on_top: true, different: 3, further: Further::Anywhere, weights: (0, 9) };
            let network = network(&mut random, Size::new(9, 40, 8), &form);
            for tree in &network.trees {
                let touches =
                    |member: usize, node| network.links[member].first == node || network.links[member].second == node;
                let links_at = |node| tree.members.iter().filter(|&&member| touches(member, node)).count();
                assert_eq!(links_at(0), root_links);
                assert_eq!((0..9).map(links_at).max(), Some(most_links));
            }
        }
    }

    #[test]
    fn networks_are_sound_and_both_methods_agree() {
        let mut random = Random::new(3);
        for further in [Further::Anywhere, Further::Leaves] {
            for nodes in 2..=every_side::MOST_NODES {
                for weights in [(0, 0), (1, 1), (0, 1), (1, 2), (0, 9)] {
                    let root_on_top = random.once_in(2);
                    let form = Form { shapes: &SHAPES, root_on_top, different: 3, further, weights };
                    let size = Size::new(nodes, random.between(nodes - 1, 4 * nodes), 4);
                    let network = network(&mut random, size, &form);
                    assert_eq!(sheet::read(&sheet::write(&network)), Ok(network.clone()));
                    let answer = cuts::answer(&network);
                    assert_eq!(answer, every_side::answer(&network));
                    assert_eq!(every_side::check_demand(&network, &answer), Ok(()));
                    assert_eq!(every_side::check_candidates(&network), Ok(()));
                }
            }
        }
    }

    #[test]
    fn links_between_leaves_make_pairs_light() {
        let mut random = Random::new(4);
        for (shape, links) in [(Shape::Path, 10), (Shape::Star, 16)] {
            let form =
                Form { shapes: &[shape], root_on_top: true, different: 1, further: Further::Leaves, weights: (1, 1) };
            let candidate = cuts::answer(&network(&mut random, Size::new(9, links, 2), &form)).candidate;
            assert_eq!((candidate.weight, candidate.second.is_some()), (2, true));
        }
    }
}
