//! Networks with lightest sides that cross: parts in a ring, where the links from each part to the next weigh the same together, and no
//! part can be split by a side that weighs less than two of these steps.

use std::cmp::Reverse;
use std::collections::BTreeMap;

use super::{spanning_members, two_of};
use crate::network::{Link, Network, Tree};
use crate::random::Random;
use crate::sheet::MOST_WEIGHT;

/// What the parts are.
#[derive(Clone, Copy, Debug, PartialEq, Eq)]
pub enum Layout {
    /// Single nodes.
    Ring,
    /// Rings.
    RingOfRings,
    /// The four parts into which two lines split a grid.
    Grid,
}

pub const LAYOUTS: [Layout; 3] = [Layout::Ring, Layout::RingOfRings, Layout::Grid];

impl Layout {
    pub fn name(self) -> &'static str {
        match self {
            Layout::Ring => "rings",
            Layout::RingOfRings => "rings of rings",
            Layout::Grid => "grids",
        }
    }

    /// The greatest weight of a step: that of a few links, or half of the greatest, since a link inside a part of a grid weighs two steps
    /// or more.
    fn most_weight(self) -> u64 {
        match self {
            Layout::Ring | Layout::RingOfRings => 3 * MOST_WEIGHT,
            Layout::Grid => MOST_WEIGHT / 2,
        }
    }
}

/// In a ring of fewer parts no lightest sides cross.
const LEAST_PARTS: usize = 4;

/// A sound network of four to so many nodes.
pub fn network(random: &mut Random, layout: Layout, most_nodes: usize) -> Network {
    let (rows, columns) = match layout {
        Layout::Ring | Layout::RingOfRings => (1, random.between(LEAST_PARTS, most_nodes)),
        Layout::Grid => grid_size(random, most_nodes),
    };
    let mut order: Vec<usize> = (0..rows * columns).collect();
    random.shuffle(&mut order);
    let most_weight = random.pick(&[1, 3, 1000, layout.most_weight()]);
    let weight = random.between(1, most_weight as usize) as u64;
    let mut links = match layout {
        Layout::Ring => ring(random, &singles(&order), weight),
        Layout::RingOfRings => ring_of_rings(random, &order, weight),
        Layout::Grid => grid(random, &order.chunks(columns).collect::<Vec<_>>(), weight),
    };
    for _ in 0..random.below(4) {
        let (first, second) = two_of(random, &order);
        links.push(Link { first, second, weight: 0 });
    }
    random.shuffle(&mut links);
    with_trees(random, Network { nodes: order.len(), links, trees: Vec::new() })
}

fn grid_size(random: &mut Random, most_nodes: usize) -> (usize, usize) {
    let rows = random.between(2, most_nodes / 2);
    (rows, random.between(2, most_nodes / rows))
}

/// A tree of heaviest links with the greatest share that they bear, and a few trees of any links.
fn with_trees(random: &mut Random, mut network: Network) -> Network {
    let mut order: Vec<usize> = (0..network.links.len()).collect();
    order.sort_by_key(|&link| Reverse(network.links[link].weight));
    let members = spanning_members(&network, &order);
    let share = members.iter().map(|&member| network.links[member].weight).min().unwrap_or(0);
    network.trees.push(Tree { share, members });
    for _ in 0..random.below(3) {
        random.shuffle(&mut order);
        let members = spanning_members(&network, &order);
        network.trees.push(Tree { share: 0, members });
    }
    network
}

/// Links with these ends that weigh so much together.
fn step(random: &mut Random, ends: &[(usize, usize)], weight: u64) -> Vec<Link> {
    let mut left = weight;
    let link = |(place, &(first, second)): (usize, &(usize, usize))| {
        let later = (ends.len() - place - 1) as u64 * MOST_WEIGHT;
        let weight = random.between(left.saturating_sub(later) as usize, left.min(MOST_WEIGHT) as usize) as u64;
        left -= weight;
        Link { first, second, weight }
    };
    ends.iter().enumerate().map(link).collect()
}

/// Each node alone.
fn singles(order: &[usize]) -> Vec<&[usize]> {
    order.chunks(1).collect()
}

/// Steps of one link or a few from each part to the next, and from the last to the first.
fn ring(random: &mut Random, parts: &[&[usize]], weight: u64) -> Vec<Link> {
    let mut links = Vec::new();
    for (place, part) in parts.iter().enumerate() {
        let next = parts[(place + 1) % parts.len()];
        let count = random.pick(&[1, 1, 1, 2, 3]).max(weight.div_ceil(MOST_WEIGHT));
        let ends: Vec<_> = (0..count).map(|_| (random.pick(part), random.pick(next))).collect();
        links.extend(step(random, &ends, weight));
    }
    links
}

/// A ring in which each part of several nodes is a ring of the same steps.
fn ring_of_rings(random: &mut Random, order: &[usize], weight: u64) -> Vec<Link> {
    let mut bounds: Vec<usize> = (1..order.len()).collect();
    random.shuffle(&mut bounds);
    bounds.truncate(random.between(LEAST_PARTS - 1, order.len() - 1));
    bounds.extend([0, order.len()]);
    bounds.sort_unstable();
    let parts: Vec<&[usize]> = bounds.windows(2).map(|bounds| &order[bounds[0]..bounds[1]]).collect();
    let mut links = ring(random, &parts, weight);
    for part in parts.into_iter().filter(|part| part.len() > 1) {
        links.extend(ring(random, &singles(part), weight));
    }
    links
}

/// A grid with one line between two rows and one between two columns. The links over a line are those of the four steps.
fn grid(random: &mut Random, rows: &[&[usize]], weight: u64) -> Vec<Link> {
    let columns = rows[0].len();
    let (row_line, column_line) = (random.between(1, rows.len() - 1), random.between(1, columns - 1));
    let part = |(row, column)| (row < row_line, column < column_line);
    let node = |(row, column): (usize, usize)| rows[row][column];
    let mut between: BTreeMap<_, Vec<_>> = BTreeMap::new();
    for cell in (0..rows.len()).flat_map(|row| (0..columns).map(move |column| (row, column))) {
        let next = [(cell.0 + 1, cell.1), (cell.0, cell.1 + 1)];
        for next in next.into_iter().filter(|&(row, column)| row < rows.len() && column < columns) {
            between.entry((part(cell), part(next))).or_default().push((node(cell), node(next)));
        }
    }
    let mut links = Vec::new();
    for ((one, other), ends) in between {
        if one != other {
            links.extend(step(random, &ends, weight));
        } else {
            let mut heavy = || random.between(2 * weight as usize, MOST_WEIGHT as usize) as u64;
            links.extend(ends.into_iter().map(|(first, second)| Link { first, second, weight: heavy() }));
        }
    }
    links
}

#[cfg(test)]
mod tests {
    use super::*;
    use crate::corners::{self, Relation};
    use crate::cuts::WHOLE;
    use crate::{cuts, every_side, sheet};

    const NETWORKS: usize = 60;

    fn networks(layout: Layout, most_nodes: usize) -> Vec<Network> {
        let mut random = Random::new(11);
        (0..NETWORKS).map(|_| network(&mut random, layout, most_nodes)).collect()
    }

    #[test]
    fn networks_are_sound_and_of_many_sizes() {
        for layout in LAYOUTS {
            for most_nodes in [4, every_side::MOST_NODES, 256] {
                let networks = networks(layout, most_nodes);
                for network in &networks {
                    assert_eq!(sheet::read(&sheet::write(network)).as_ref(), Ok(network));
                }
                let nodes = networks.iter().map(|network| network.nodes);
                assert!(nodes.clone().all(|nodes| (4..=most_nodes).contains(&nodes)));
                assert!(nodes.max() > Some(most_nodes - most_nodes / 8 - 1), "{layout:?}");
            }
        }
    }

    /// How many pairs of lightest sides cross.
    fn crossing_pairs(network: &Network) -> usize {
        let (least, sides) = every_side::lightest(network);
        let mut crossing = 0;
        for first in &sides {
            for second in &sides {
                let table = corners::table(network, first, second);
                let cross = corners::check_lightest(network, least, first, second, &table);
                assert_eq!(cross, Ok(Relation::of(first, second) == Relation::Crossing));
                crossing += usize::from(cross == Ok(true));
            }
        }
        crossing
    }

    #[test]
    fn each_has_lightest_sides_that_cross() {
        for layout in LAYOUTS {
            let networks = networks(layout, every_side::MOST_NODES);
            assert!(networks.iter().all(|network| crossing_pairs(network) > 0), "{layout:?}");
            let wide = networks.iter().filter(|network| every_side::lightest(network).0 > u64::from(u32::MAX));
            assert_eq!(wide.count() > 5, layout != Layout::Grid, "{layout:?}");
        }
    }

    /// Each two of its four steps are one lightest side. Two of these sides cross, in either order.
    #[test]
    fn a_ring_of_four_has_six_lightest_sides() {
        for network in networks(Layout::Ring, 4) {
            assert_eq!((every_side::lightest(&network).1.len(), crossing_pairs(&network)), (6, 2));
        }
    }

    #[test]
    fn many_are_whole_and_many_are_not() {
        for layout in LAYOUTS {
            let networks = networks(layout, 20);
            let whole = networks.iter().filter(|network| cuts::answer(network).verdict == WHOLE).count();
            assert!((5..NETWORKS - 5).contains(&whole), "{layout:?}: {whole}");
        }
    }
}
