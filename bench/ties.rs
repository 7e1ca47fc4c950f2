//! Networks whose trees have many candidates of the least weight, or of one that a later tree undercuts.

use reference::network::{joining, Link, Network, Tree};
use reference::random::Random;

const HEAVY: u64 = 1_000_000;

/// A ring, every so many links of which are light, with further links beside the heavy ones; each tree is the ring without one link of it.
/// Every tree shows each of the sides, which cross two light links.
pub fn ring(nodes: usize, links: usize, trees: usize, every: usize) -> Network {
    let link = |k: usize| {
        let weight = if k < nodes && k % every == 0 { 1 } else { HEAVY };
        let first = if k < nodes { k } else { 1 };
        Link { first, second: (first + 1) % nodes, weight }
    };
    let tree = |i: usize| Tree { share: 0, members: (0..nodes).filter(|k| *k != i * 7 % nodes).collect() };
    Network { nodes, links: (0..links).map(link).collect(), trees: (0..trees).map(tree).collect() }
}

/// Random trees, and some nodes whose links all weigh 0: each tree shows sides of such nodes that no tree before it does.
pub fn idle_nodes(nodes: usize, links: usize, trees: usize, idle: usize) -> Network {
    let mut random = Random::new(1);
    let per_tree = nodes - 1;
    let different = trees.min(links / per_tree);
    let mut all = Vec::new();
    let weight = |first: usize, second: usize| if first.max(second) + idle < nodes { HEAVY } else { 0 };
    let mut order: Vec<usize> = (0..nodes).collect();
    for _ in 0..different {
        random.shuffle(&mut order[1..]);
        for place in 1..nodes {
            let (first, second) = (order[random.below(place)], order[place]);
            all.push(Link { first, second, weight: weight(first, second) });
        }
    }
    let tree =
        |i: usize| Tree { share: 0, members: (i % different * per_tree..(i % different + 1) * per_tree).collect() };
    Network { nodes, links: all, trees: (0..trees).map(tree).collect() }
}

/// The links of a ring, which weigh 1, and then those from node 0 to each other node of it, which weigh 0.
fn wheel_links(nodes: usize) -> Vec<Link> {
    let ring = (0..nodes).map(|node| Link { first: node, second: (node + 1) % nodes, weight: 1 });
    let spokes = (1..nodes).map(|node| Link { first: 0, second: node, weight: 0 });
    ring.chain(spokes).collect()
}

/// Trees of a wheel.
#[derive(Clone, Copy)]
pub enum Wheel {
    /// So many times all links from node 0.
    Stars(usize),
    /// So many times the ring without one link, in turns another.
    Paths(usize),
}

impl Wheel {
    fn trees(self, nodes: usize) -> Vec<Tree> {
        let path = |i: usize| of_members((0..nodes).filter(|&link| link != i * 7 % nodes));
        match self {
            Wheel::Stars(count) => vec![of_members(nodes..2 * nodes - 1); count],
            Wheel::Paths(count) => (0..count).map(path).collect(),
        }
    }
}

fn of_members(members: impl IntoIterator<Item = usize>) -> Tree {
    let mut members: Vec<usize> = members.into_iter().collect();
    members.sort_unstable();
    Tree { share: 0, members }
}

/// A path shows all sides that cross two ring links, a star few of them: a path's ties are held against all stars before it.
pub fn wheel(nodes: usize, trees: &[Wheel]) -> Network {
    Network { nodes, links: wheel_links(nodes), trees: trees.iter().flat_map(|trees| trees.trees(nodes)).collect() }
}

/// A wheel, and the last node beside it, whose links have that weight together. Only tree 31 shows it alone: weight 1 undercuts all ties of
/// the paths before, which were held against 15 stars; weight 2 is one more tie, so that no tree can be left out.
pub fn late_side(nodes: usize, weight: u64) -> Network {
    let last = nodes - 1;
    let (third, half, two_thirds) = (last / 3, last / 2, 2 * last / 3);
    let mut links = wheel_links(last);
    let own = links.len();
    links.extend([0, third, two_thirds, half - 1, half + 1].map(|first| Link { first, second: last, weight: 0 }));
    links.push(Link { first: half, second: last, weight });
    // in each of these the last node has three members
    let spokes = (1..last).filter(|&node| node != third && node != two_thirds).map(|node| last + node - 1);
    let star = of_members(spokes.chain(own..own + 3));
    let path = |i: usize| {
        let left_out = [i * 5 % (half - 1), half - 1, half];
        of_members((0..last).filter(|link| !left_out.contains(link)).chain(own + 3..own + 6))
    };
    let mut trees = vec![star; 15];
    trees.extend((0..16).map(path));
    trees.push(of_members((0..last - 1).chain([own + 5])));
    Network { nodes, links, trees }
}

/// The numbers below the limit in random order.
fn shuffled(random: &mut Random, limit: usize) -> Vec<usize> {
    let mut numbers: Vec<usize> = (0..limit).collect();
    random.shuffle(&mut numbers);
    numbers
}

/// All links weigh 0, so that all candidates are ties, and hardly two sides are equal: each of the trees, which are nearly paths, has others.
pub fn all_weights_0(nodes: usize, rings: usize, trees: usize) -> Network {
    let mut random = Random::new(1);
    let mut links = Vec::new();
    for _ in 0..rings {
        let order = shuffled(&mut random, nodes);
        links.extend((0..nodes).map(|k| Link { first: order[k], second: order[(k + 1) % nodes], weight: 0 }));
    }
    let trees = (0..trees).map(|_| depth_first(&mut random, nodes, &links)).collect();
    Network { nodes, links, trees }
}

/// A tree that goes on from the node reached last, by links in random order.
fn depth_first(random: &mut Random, nodes: usize, links: &[Link]) -> Tree {
    let mut untried = vec![Vec::new(); nodes];
    for link in shuffled(random, links.len()) {
        untried[links[link].first].push(link);
        untried[links[link].second].push(link);
    }
    let (mut path, mut reached, mut members) = (vec![0], vec![false; nodes], Vec::new());
    reached[0] = true;
    while let Some(&node) = path.last() {
        let Some(link) = untried[node].pop() else {
            path.pop();
            continue;
        };
        let other = links[link].first + links[link].second - node;
        if !reached[other] {
            reached[other] = true;
            members.push(link);
            path.push(other);
        }
    }
    of_members(members)
}

/// Links of weight 0 between all nodes.
fn all_joined(nodes: usize) -> Vec<Link> {
    let to_later = |first: usize| (first + 1..nodes).map(move |second| Link { first, second, weight: 0 });
    (0..nodes).flat_map(to_later).collect()
}

/// Few nodes, so that the search is soon done, and random trees: all candidates of each are ties, and held against the trees before it.
pub fn dense(nodes: usize, trees: usize) -> Network {
    let mut random = Random::new(1);
    let links = all_joined(nodes);
    let tree = |_| of_members(joining(nodes, &links, &shuffled(&mut random, links.len())));
    let trees = (0..trees).map(tree).collect();
    Network { nodes, links, trees }
}

/// The same with so many random paths, each some times in a row: more nodes for as many sides, so that each path has more ties.
pub fn paths_again(nodes: usize, different: usize, trees: usize) -> Network {
    let mut random = Random::new(1);
    let links = all_joined(nodes);
    let paths: Vec<Tree> = (0..different).map(|_| depth_first(&mut random, nodes, &links)).collect();
    let trees = (0..trees).map(|i| paths[i * different / trees].clone()).collect();
    Network { nodes, links, trees }
}
