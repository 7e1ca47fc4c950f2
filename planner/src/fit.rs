//! The fitting tool: spanning trees and shares for a network, so that no link is loaded past its weight and the shares add up to as much
//! as it finds.
//!
//! For one tree, for two and so on it finds the largest share that so many trees can have alike. What these leave of the weights raises
//! shares and makes further trees, and of all that the largest sum is taken. Trees of one share are found by augmenting paths, as Edmonds
//! did for the partition of matroids (1965) and Roskind and Tarjan for spanning trees (1985). By Tutte and Nash-Williams (1961) there are
//! as many of share 1 as half the weight of the lightest cut, rounded down. The monitor's verdict is whole from a third on: so it is where
//! the lightest cut weighs up to 95, and if it is heavier, unless it has more thin links than 32 trees can use.

mod forests;
#[cfg(test)]
mod tests;

use crate::levels::{levels, unreached};
use forests::{Forests, Slot};
use reference::network::{joining, Link, Tree};
use reference::sheet::MOST_TREES;
use std::cmp::Reverse;

/// The lowest node that no link joins to node 0, over any other nodes.
#[derive(Clone, Copy, Debug, PartialEq, Eq)]
pub struct Apart {
    pub node: usize,
}

/// Trees and shares for 2 to 256 nodes and links with two different ends: 1 to 32 spanning trees. The flattest is the first, since pictures
/// are laid out by it; the others follow by falling share.
pub fn fit(nodes: usize, links: &[Link]) -> Result<Vec<Tree>, Apart> {
    let wiring = Wiring::new(nodes, links)?;
    let slots = wiring.slots();
    let bound = wiring.lightest_node();
    let mut forests = Forests::new(nodes, links);
    let mut best = wiring.filled(Vec::new());
    while forests.count() < MOST_TREES && sum(&best) < bound {
        let Some(share) = forests.grow(&slots) else { break };
        let trees = wiring.filled(forests.trees(share));
        if (sum(&trees), Reverse(trees.len())) > (sum(&best), Reverse(best.len())) {
            best = trees;
        }
    }
    // Three times a sum of 0 or 1 may just equal the lightest cut, and then the one tree has to show such a cut. If that weighs 0, the
    // heaviest tree does. If it weighs 3, the tree does that is left when no second could grow: it and the unfinished forest have taken all
    // slots between clumps, and if it had taken all three of each clump with three, the forest would have to take more of the others, which
    // have four or more, than it can without a ring. Any other trees are made flat.
    let trees = match sum(&best) {
        0 => best,
        1 if bound > 2 => forests.trees(1),
        _ => merged(wiring.flattened(best)),
    };
    Ok(wiring.flattest_first(trees))
}

fn sum(trees: &[Tree]) -> u64 {
    trees.iter().map(|tree| tree.share).sum()
}

/// The same trees, each once, with the sum of its shares.
fn merged(mut trees: Vec<Tree>) -> Vec<Tree> {
    trees.sort_by(|one, other| one.members.cmp(&other.members));
    trees.dedup_by(|later, earlier| {
        let equal = later.members == earlier.members;
        earlier.share += if equal { later.share } else { 0 };
        equal
    });
    trees
}

/// Takes from what is left of the weights as much as a tree with these members can have, and gives that.
fn take(left: &mut [u64], members: &[usize]) -> u64 {
    let share = members.iter().map(|&member| left[member]).min().unwrap_or(0);
    members.iter().for_each(|&member| left[member] -= share);
    share
}

/// The members in an order in which those nearest to node 0 are first.
fn nearest_first(nodes: usize, links: &[Link], mut members: Vec<usize>) -> Vec<usize> {
    let levels = levels(nodes, links, &members);
    members.sort_by_key(|&member| levels[links[member].first].min(levels[links[member].second]));
    members
}

/// What trees are fitted to: nodes, links, and the links' numbers, those nearest to node 0 first. In this order trees take links of one
/// weight, which makes them flat.
struct Wiring<'a> {
    nodes: usize,
    links: &'a [Link],
    nearest: Vec<usize>,
}

impl<'a> Wiring<'a> {
    fn new(nodes: usize, links: &'a [Link]) -> Result<Wiring<'a>, Apart> {
        let all: Vec<usize> = (0..links.len()).collect();
        match unreached(nodes, links, &all) {
            Some(node) => Err(Apart { node }),
            None => Ok(Wiring { nodes, links, nearest: nearest_first(nodes, links, all) }),
        }
    }

    /// The weight of all links of one node, where it is least: no sum of shares is above it.
    fn lightest_node(&self) -> u64 {
        let mut weights = vec![0; self.nodes];
        for link in self.links {
            weights[link.first] += link.weight;
            weights[link.second] += link.weight;
        }
        weights.into_iter().min().unwrap_or(0)
    }

    /// All slots of shares above 0, by falling share and for each link by rising number.
    fn slots(&self) -> Vec<Slot> {
        let slot = |link: usize, number: usize| Slot { share: self.links[link].weight / number as u64, number, link };
        let of_link = |&link: &usize| (1..=MOST_TREES).map(move |number| slot(link, number));
        let mut slots: Vec<Slot> = self.nearest.iter().flat_map(of_link).filter(|slot| slot.share > 0).collect();
        slots.sort_by_key(|slot| Reverse(slot.share));
        slots
    }

    /// The trees with shares raised as far as they can be, and further trees as long as there is room. At least one tree.
    fn filled(&self, mut trees: Vec<Tree>) -> Vec<Tree> {
        let mut left = self.left(&trees);
        for tree in &mut trees {
            tree.share += take(&mut left, &tree.members);
        }
        while trees.len() < MOST_TREES {
            let mut order = self.nearest.clone();
            order.sort_by_key(|&link| Reverse(left[link]));
            let members = self.spanning(&order);
            let share = take(&mut left, &members);
            if share == 0 && !trees.is_empty() {
                break;
            }
            trees.push(Tree { share, members });
        }
        trees
    }

    /// What the trees leave of each link's weight.
    fn left(&self, trees: &[Tree]) -> Vec<u64> {
        let mut left: Vec<u64> = self.links.iter().map(|link| link.weight).collect();
        for tree in trees {
            tree.members.iter().for_each(|&member| left[member] -= tree.share);
        }
        left
    }

    /// The spanning tree that takes links in this order, if they join nodes that those before do not.
    fn spanning(&self, order: &[usize]) -> Vec<usize> {
        let mut members = joining(self.nodes, self.links, order);
        members.sort_unstable();
        members
    }

    /// Trees of the same shares, each as flat as the others let it be.
    fn flattened(&self, mut trees: Vec<Tree>) -> Vec<Tree> {
        let mut left = self.left(&trees);
        for Tree { share, members } in &mut trees {
            members.iter().for_each(|&member| left[member] += *share);
            let with_room = (0..left.len()).filter(|&link| left[link] >= *share).collect();
            *members = self.spanning(&nearest_first(self.nodes, self.links, with_room));
            members.iter().for_each(|&member| left[member] -= *share);
        }
        trees
    }

    fn flattest_first(&self, mut trees: Vec<Tree>) -> Vec<Tree> {
        let height = |tree: &Tree| levels(self.nodes, self.links, &tree.members).into_iter().max();
        trees.sort_by_key(|tree| Reverse(tree.share));
        let flattest = (0..trees.len()).min_by_key(|&place| height(&trees[place])).unwrap_or(0);
        trees[..=flattest].rotate_right(1);
        trees
    }
}
