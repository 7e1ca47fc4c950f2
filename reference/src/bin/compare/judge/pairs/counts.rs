//! Counts calls of the entry of the pairs by kinds.

use std::collections::HashSet;

use reference::generate::pairs::MUCH_LONGER;
use reference::network::{Network, Tree};
use reference::pairs::{row_start, Question, Told, NO_TREE};
use reference::sheet::{self, Refusal, LEAST_NODES, MOST_LINKS, MOST_NODES, MOST_TREES, MOST_WEIGHT};

use super::super::corners::node_count;
use super::super::kinds::{count, named, Kind};
use super::super::{Read, LAST_REFUSAL};

/// The one of the sheet's refusals that does not occur: every weight is allowed.
const NEVER: usize = 11;

/// A question about a sheet of so many trees, each of which has so many pairs. Those of a refused sheet are the header's.
struct Asked {
    trees: usize,
    pairs: usize,
    question: Question,
}

impl Asked {
    fn of(network: &Network, question: Question) -> Asked {
        Asked { trees: network.trees.len(), pairs: row_start(network.nodes - 1), question }
    }

    fn of_refused(sheet: &[u8], question: Question) -> Asked {
        Asked { trees: sheet::tree_count(sheet), pairs: row_start(node_count(sheet) - 1), question }
    }

    fn is_outside(&self) -> bool {
        self.question.tree as usize >= self.trees
    }

    fn is_short(&self) -> bool {
        self.question.room < self.pairs
    }

    /// Whether the tree is the last of several.
    fn is_last(&self) -> bool {
        self.trees > 1 && self.question.tree as usize == self.trees - 1
    }

    /// Whether the area has so many numbers beside those that are needed.
    fn has_more(&self, more: usize) -> bool {
        self.question.room == self.pairs + more
    }

    /// Whether so many numbers are missing.
    fn lacks(&self, missing: usize) -> bool {
        self.question.room + missing == self.pairs
    }

    /// Whether there is another tree with the same number in so many lower bits.
    fn is_inside_by(&self, bits: u32) -> bool {
        self.is_outside() && ((self.question.tree % (1 << bits)) as usize) < self.trees
    }
}

/// An accepted question, and what is written.
struct Written {
    asked: Asked,
    nodes: usize,
    shape: Shape,
    /// The tree's last link, and whether its links are the first ones of the sheet.
    last_link: usize,
    first_links: bool,
    /// Whether the tree's share is above the weight of one of its links, and whether its pairs weigh otherwise than tree 0's.
    overloads: bool,
    unlike_tree_0: bool,
    least: Option<u64>,
    most: Option<u64>,
    /// Whether there are several weights, and no two are equal.
    all_differ: bool,
}

impl Written {
    fn new(read: &Read, tree: &Tree, asked: Asked, weights: &[u64]) -> Written {
        let network = &read.contents.network;
        let last_link = tree.members[tree.members.len() - 1];
        Written {
            asked,
            nodes: network.nodes,
            shape: Shape::of(network, tree),
            last_link,
            first_links: last_link + 1 == tree.members.len(),
            overloads: tree.members.iter().any(|&member| tree.share > network.links[member].weight),
            unlike_tree_0: read.answers.pairs.of_tree(0) != Some(weights),
            least: weights.iter().copied().min(),
            most: weights.iter().copied().max(),
            all_differ: weights.len() > 1 && HashSet::<&u64>::from_iter(weights).len() == weights.len(),
        }
    }
}

/// How the links of a tree hang together.
#[derive(PartialEq, Eq)]
enum Shape {
    /// At least three, all at one node.
    Star,
    /// At least three, no three of them at one node.
    Path,
    Other,
}

impl Shape {
    fn of(network: &Network, tree: &Tree) -> Shape {
        let mut links_at = vec![0; network.nodes];
        for link in tree.members.iter().map(|&member| network.links[member]) {
            links_at[link.first] += 1;
            links_at[link.second] += 1;
        }
        match (tree.members.len(), links_at.into_iter().max()) {
            (links, Some(most)) if links > 2 && most == links => Shape::Star,
            (links, Some(2)) if links > 2 => Shape::Path,
            _ => Shape::Other,
        }
    }
}

const WRITTEN: [Kind<Written>; 24] = [
    ("a tree of 1 link and no number", |of| of.nodes == LEAST_NODES && of.asked.has_more(0)),
    ("a tree of 1 link and some numbers", |of| of.nodes == LEAST_NODES && !of.asked.has_more(0)),
    ("as many numbers as pairs", |of| of.asked.pairs > 0 && of.asked.has_more(0)),
    ("one number more than pairs", |of| of.asked.pairs > 0 && of.asked.has_more(1)),
    ("two numbers more than pairs", |of| of.asked.pairs > 0 && of.asked.has_more(2)),
    ("a much longer area", |of| of.asked.pairs > 0 && of.asked.has_more(MUCH_LONGER)),
    ("as many numbers as pairs of 256 nodes", |of| of.nodes == MOST_NODES && of.asked.has_more(0)),
    ("more numbers than pairs of 256 nodes", |of| of.nodes == MOST_NODES && !of.asked.has_more(0)),
    ("the pairs of the only tree", |of| of.asked.trees == 1 && of.asked.pairs > 0),
    ("the pairs of the first of several trees", |of| of.asked.trees > 1 && of.asked.question.tree == 0),
    ("the pairs of the last of several trees", |of| of.asked.is_last() && of.unlike_tree_0),
    ("the pairs of the last of 32 trees", |of| of.asked.trees == MOST_TREES && of.asked.is_last() && of.unlike_tree_0),
    ("the pairs of the last of 32 trees, of 256 nodes", |of| {
        of.asked.trees == MOST_TREES && of.nodes == MOST_NODES && of.asked.is_last() && of.unlike_tree_0
    }),
    ("the pairs of a tree in between", |of| of.asked.question.tree > 0 && !of.asked.is_last() && of.unlike_tree_0),
    ("the pairs of a tree that overloads a link", |of| of.overloads && of.unlike_tree_0),
    ("the pairs of a star", |of| of.shape == Shape::Star),
    ("the pairs of a path", |of| of.shape == Shape::Path),
    ("the pairs of another tree", |of| of.shape == Shape::Other && of.asked.pairs > 1),
    ("ranks that are link numbers", |of| of.first_links && of.asked.pairs > 1),
    ("ranks that are not link numbers, with link 2,047", |of| of.last_link == MOST_LINKS - 1 && !of.first_links),
    ("pairs all of which weigh otherwise", |of| of.all_differ),
    ("pairs without weight", |of| of.least == Some(0)),
    ("a pair of more than four bytes", |of| of.most.is_some_and(|most| most > MOST_WEIGHT)),
    ("a pair that 2,048 links of the greatest weight cross", |of| of.most == Some(MOST_LINKS as u64 * MOST_WEIGHT)),
];

const SHORT: [Kind<Asked>; 6] = [
    ("no number for a tree with pairs", |of| of.question.room == 0),
    ("one number fewer than pairs", |of| of.lacks(1)),
    ("two numbers fewer than pairs", |of| of.lacks(2)),
    ("one number fewer than pairs of 256 nodes", |of| of.pairs == row_start(MOST_NODES - 1) && of.lacks(1)),
    ("too few numbers for tree 0", |of| of.question.tree == 0),
    ("too few numbers for the last of several trees", Asked::is_last),
];

const OUTSIDE: [Kind<Asked>; 11] = [
    ("the tree count as a tree number", |of| of.question.tree as usize == of.trees),
    ("one more than the tree count", |of| of.question.tree as usize == of.trees + 1),
    ("tree number 32 where there are 32 trees", |of| of.trees == MOST_TREES && of.question.tree as usize == MOST_TREES),
    ("a tree number outside whose lower 5 bits are inside", |of| of.is_inside_by(5)),
    ("a tree number outside whose lower 8 bits are inside", |of| of.is_inside_by(8)),
    ("a tree number outside whose lower 16 bits are inside", |of| of.is_inside_by(16)),
    ("a tree number outside whose lower 31 bits are inside", |of| of.is_inside_by(31)),
    ("2^32 - 1 as a tree number", |of| of.question.tree == u32::MAX),
    ("a tree outside and too few numbers", Asked::is_short),
    ("a tree outside and enough numbers", |of| !of.is_short() && of.pairs > 0),
    ("a tree outside where trees have no pairs", |of| of.pairs == 0),
];

const REFUSED: [Kind<Asked>; 4] = [
    ("a refused sheet, one of its trees and enough numbers", |of| !of.is_outside() && !of.is_short()),
    ("a refused sheet, one of its trees and too few numbers", |of| !of.is_outside() && of.is_short()),
    ("a refused sheet, a tree outside and enough numbers", |of| of.is_outside() && !of.is_short()),
    ("a refused sheet, a tree outside and too few numbers", |of| of.is_outside() && of.is_short()),
];

/// How many calls of the entry of the pairs are of each kind.
#[derive(Default)]
pub struct Pairs {
    written: [u64; WRITTEN.len()],
    short: [u64; SHORT.len()],
    outside: [u64; OUTSIDE.len()],
    refused: [u64; REFUSED.len()],
    /// Of refused sheets, by the number of the refusal.
    refusals: [u64; LAST_REFUSAL + 1],
    /// Answers by paths too, and those of 256 nodes among them.
    by_paths: u64,
    large_by_paths: u64,
    /// Of a sheet with trunk numbers, and of the same without.
    pub with_and_without_trunks: u64,
    /// Of all trees of a sheet of several, with other weights for each.
    pub of_unlike_trees: u64,
}

impl Pairs {
    /// Counts a call for an accepted sheet.
    pub fn count(&mut self, read: &Read, question: Question, told: Told) {
        let network = &read.contents.network;
        let asked = Asked::of(network, question);
        match (told, network.trees.get(question.tree as usize)) {
            (Ok(weights), Some(tree)) => {
                count(&WRITTEN, &mut self.written, &Written::new(read, tree, asked, weights));
            }
            (Err(NO_TREE), _) => count(&OUTSIDE, &mut self.outside, &asked),
            _ => count(&SHORT, &mut self.short, &asked),
        }
    }

    pub fn count_refused(&mut self, sheet: &[u8], refusal: Refusal, question: Question) {
        count(&REFUSED, &mut self.refused, &Asked::of_refused(sheet, question));
        self.refusals[refusal.number as usize] += 1;
    }

    /// Counts an answer that was found by paths too.
    pub fn count_by_paths(&mut self, network: &Network, told: Told) {
        self.by_paths += u64::from(told.is_ok());
        self.large_by_paths += u64::from(told.is_ok() && network.nodes == MOST_NODES);
    }

    /// Every kind of calls, each of which has to be among them, and how many there are.
    pub fn counts(&self) -> Vec<(u64, &'static str)> {
        let mut refusals = (3..=LAST_REFUSAL).filter(|&number| number != NEVER).map(|number| self.refusals[number]);
        let of_each = if refusals.all(|count| count > 0) { self.refusals.iter().sum() } else { 0 };
        let others = vec![
            (of_each, "a refused sheet, with each of the sheet's refusals among them"),
            (self.with_and_without_trunks, "a sheet with trunk numbers, asked for pairs without them too"),
            (self.of_unlike_trees, "a sheet of several trees, no two with the same weights"),
            (self.by_paths, "pairs that were reckoned by paths too"),
            (self.large_by_paths, "pairs of 256 nodes that were reckoned by paths too"),
        ];
        let written = named(&WRITTEN, &self.written);
        let refused = [named(&SHORT, &self.short), named(&OUTSIDE, &self.outside), named(&REFUSED, &self.refused)];
        [written, refused.concat(), others].concat()
    }
}
