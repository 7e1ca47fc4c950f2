//! Random networks without trees, whose links join all nodes: such as works have, and such as are hard to fit trees to.
#![allow(dead_code)] // no test uses all of it

use reference::network::Link;
use reference::random::Random;
use reference::sheet::{MOST_LINKS, MOST_WEIGHT};

#[derive(Clone, Copy, Debug, PartialEq, Eq)]
pub enum Kind {
    /// Few links more than a tree has.
    Sparse,
    /// Every two nodes are joined, or nearly so, as far as the links go.
    Dense,
    /// Any links, of one weight.
    EqualWeights,
    /// Any links, of weights up to 9 or up to 1,000.
    UnevenWeights,
    /// Any links, of weights up to the greatest.
    WideWeights,
    Grid,
    /// A grid whose rows and columns are rings.
    Torus,
    /// Rings, each with a link to the next, and the last to the first.
    Rings,
    /// A core switch in a ring of distribution switches with thin stretches and a radio bridge, and leaves with one link or two.
    Works,
    /// Every node has three links of weight 1, but for one if the nodes are odd in number.
    ThreeLinks,
    /// Every node has four links of weight 1.
    FourLinks,
}

pub const KINDS: [Kind; 11] = [
    Kind::Sparse,
    Kind::Dense,
    Kind::EqualWeights,
    Kind::UnevenWeights,
    Kind::WideWeights,
    Kind::Grid,
    Kind::Torus,
    Kind::Rings,
    Kind::Works,
    Kind::ThreeLinks,
    Kind::FourLinks,
];

/// The kinds that have any number of links.
pub const ANY_LINKS: [Kind; 4] = [Kind::Dense, Kind::EqualWeights, Kind::UnevenWeights, Kind::WideWeights];

/// How many nodes a network has, 5 or more, and how many links if it is of a kind that has any number of them. A grid and a torus may have
/// fewer nodes.
#[derive(Clone, Copy, Debug)]
pub struct Size {
    pub nodes: usize,
    pub links: usize,
}

impl Size {
    /// So many nodes, and links up to twice as many, four times as many, or as many as join every two nodes.
    pub fn any(random: &mut Random, nodes: usize) -> Size {
        let most = random.pick(&[2 * nodes, 4 * nodes, MOST_LINKS]).min(nodes * (nodes - 1) / 2);
        Size { nodes, links: random.between(nodes - 1, most) }
    }
}

/// Which weights a network's links have.
#[derive(Clone, Copy)]
enum Weights {
    Equal(u64),
    /// From 1 to that.
    UpTo(u64),
    /// From 1 to the greatest, those of few digits as often as those of many.
    Spread,
}

impl Weights {
    fn of(random: &mut Random, kind: Kind) -> Weights {
        let equal = Weights::Equal(random.pick(&[1, 2, 3, 100, MOST_WEIGHT]));
        let uneven = Weights::UpTo(random.pick(&[9, 1000]));
        let wide = random.pick(&[Weights::UpTo(MOST_WEIGHT), Weights::Spread]);
        match kind {
            Kind::EqualWeights => equal,
            Kind::UnevenWeights => uneven,
            Kind::WideWeights => wide,
            Kind::ThreeLinks | Kind::FourLinks => Weights::Equal(1),
            _ => random.pick(&[equal, uneven, wide]),
        }
    }

    fn weight(self, random: &mut Random) -> u64 {
        match self {
            Weights::Equal(weight) => weight,
            Weights::UpTo(most) => random.between(1, most as usize) as u64,
            Weights::Spread => {
                let power = 1 << random.below(32);
                random.between(power, 2 * power - 1) as u64
            }
        }
    }
}

/// Node count and links of a network. Its nodes and links are numbered in mixed order, but for those of works.
pub fn network(random: &mut Random, kind: Kind, size: Size) -> (usize, Vec<Link>) {
    if kind == Kind::Works {
        return (size.nodes, works(random, size.nodes));
    }
    let (nodes, mut ends) = nodes_and_ends(random, kind, size);
    let weights = Weights::of(random, kind);
    let numbers = mixed(random, nodes);
    random.shuffle(&mut ends);
    let link = |(first, second): (usize, usize)| Link {
        first: numbers[first],
        second: numbers[second],
        weight: weights.weight(random),
    };
    (nodes, ends.into_iter().map(link).collect())
}

/// The ends of links.
type Ends = Vec<(usize, usize)>;

fn nodes_and_ends(random: &mut Random, kind: Kind, size: Size) -> (usize, Ends) {
    let Size { nodes, links } = size;
    let ends = match kind {
        Kind::Grid | Kind::Torus => {
            let rows = random.between(2, (nodes as f64).sqrt() as usize);
            return (nodes / rows * rows, grid(rows, nodes / rows, kind == Kind::Torus));
        }
        Kind::Sparse => {
            let further = random.below(nodes);
            any(random, nodes, nodes - 1 + further)
        }
        Kind::Dense => dense(random, nodes, links),
        Kind::Rings => rings(random, nodes),
        Kind::ThreeLinks => so_many_each(random, nodes, 3),
        Kind::FourLinks => so_many_each(random, nodes, 4),
        _ => any(random, nodes, links),
    };
    (nodes, ends)
}

fn mixed(random: &mut Random, nodes: usize) -> Vec<usize> {
    let mut order: Vec<usize> = (0..nodes).collect();
    random.shuffle(&mut order);
    order
}

/// So many links. Half of the networks are rings over all nodes in one order after another, so that no node has few links. In the others
/// every node has a link to one before it, and the further links are between any two.
fn any(random: &mut Random, nodes: usize, links: usize) -> Ends {
    let mut ends = Vec::new();
    if random.once_in(2) {
        while ends.len() < links {
            let order = mixed(random, nodes);
            ends.extend((0..nodes).map(|place| (order[place], order[(place + 1) % nodes])));
        }
        ends.truncate(links);
    } else {
        ends.extend((1..nodes).map(|node| (random.below(node), node)));
        ends.extend((nodes - 1..links).map(|_| two_of(random, nodes)));
    }
    ends
}

fn two_of(random: &mut Random, nodes: usize) -> (usize, usize) {
    let first = random.below(nodes);
    (first, (first + random.between(1, nodes - 1)) % nodes)
}

/// Links between every two nodes that follow each other, and as many others as there may be, no two parallel.
fn dense(random: &mut Random, nodes: usize, links: usize) -> Ends {
    let follow = (1..nodes).map(|node| (node - 1, node));
    let mut others: Ends = (2..nodes).flat_map(|second| (0..second - 1).map(move |first| (first, second))).collect();
    random.shuffle(&mut others);
    follow.chain(others).take(links).collect()
}

fn grid(rows: usize, columns: usize, closed: bool) -> Ends {
    let mut ends = Vec::new();
    for node in 0..rows * columns {
        let (row, column) = (node / columns, node % columns);
        if closed || column + 1 < columns {
            ends.push((node, row * columns + (column + 1) % columns));
        }
        if closed || row + 1 < rows {
            ends.push((node, (row + 1) % rows * columns + column));
        }
    }
    ends
}

/// Rings of two nodes or more.
fn rings(random: &mut Random, nodes: usize) -> Ends {
    let count = random.between(2, nodes / 2);
    let starts: Vec<usize> = (0..=count).map(|ring| ring * nodes / count).collect();
    let mut ends = Vec::new();
    for ring in 0..count {
        let (start, end) = (starts[ring], starts[ring + 1]);
        ends.extend((start..end).map(|node| (node, if node + 1 < end { node + 1 } else { start })));
        let next = (ring + 1) % count;
        ends.push((random.between(start, end - 1), random.between(starts[next], starts[next + 1] - 1)));
    }
    ends
}

/// Every node has so many links; the last has one more if the ends are odd in number.
fn so_many_each(random: &mut Random, nodes: usize, each: usize) -> Ends {
    let mut ends: Vec<usize> = (0..(nodes * each).next_multiple_of(2)).map(|end| (end / each).min(nodes - 1)).collect();
    loop {
        random.shuffle(&mut ends);
        let links: Ends = ends.chunks(2).map(|two| (two[0], two[1])).collect();
        if links.iter().all(|(first, second)| first != second) && !reached(nodes, &links).contains(&false) {
            return links;
        }
    }
}

/// Nodes from 0 on are the ring, and the others leaves.
fn works(random: &mut Random, nodes: usize) -> Vec<Link> {
    let ring = random.between(3, (nodes / 4).clamp(3, 20));
    let mut links = Vec::new();
    for first in 0..ring {
        let link = Link { first, second: (first + 1) % ring, weight: random.pick(&[10_000, 10_000, 1000, 100]) };
        links.extend(vec![link; random.between(1, 2)]);
    }
    let (first, second) = two_of(random, ring);
    links.push(Link { first, second, weight: 50 });
    let least = random.pick(&[100, 1000]);
    for leaf in ring..nodes {
        let (first, any) = (random.below(ring), random.below(leaf));
        let weight = random.pick(&[least, 1000, 1000, 10_000]);
        links.push(Link { first, second: leaf, weight });
        if random.once_in(2) {
            let first = random.pick(&[first, (first + 1) % ring, any]);
            links.push(Link { first, second: leaf, weight });
        }
    }
    links
}

/// Which nodes links join to node 0, over any other nodes.
pub fn reached(nodes: usize, links: &[(usize, usize)]) -> Vec<bool> {
    let mut reached = vec![false; nodes];
    reached[0] = true;
    let mut more = true;
    while more {
        more = false;
        for &(first, second) in links {
            if reached[first] != reached[second] {
                (reached[first], reached[second]) = (true, true);
                more = true;
            }
        }
    }
    reached
}
