//! The entry's search, plainly: from a network's links to the first candidate of all its trees, with its side.

use crate::answer::Found;
use crate::places::{AtNodes, Grown, Placed};
use crate::read::Sheet;
use crate::rows::Rows;

/// A single link, which stands in both places, or two, the lower one first. The order of the fields is the order among candidates.
#[derive(Clone, Copy, PartialEq, Eq, PartialOrd, Ord)]
struct Candidate {
    weight: u64,
    nodes: u16,
    tree: u8,
    first: u16,
    second: u16,
}

pub fn search(sheet: &Sheet) -> Found {
    let links = AtNodes::list(sheet.nodes, sheet.links.iter().map(|l| (l.first, l.second, l.weight)));
    let degrees = degrees(sheet);
    let mut best = Candidate { weight: u64::MAX, nodes: 0, tree: 0, first: 0, second: 0 };
    let mut side = Vec::new();
    for (number, record) in sheet.trees.iter().enumerate() {
        let grown = Grown::new(sheet.nodes, &sheet.links, &record.members);
        let placed = Placed::new(&grown, &degrees);
        let found = search_tree(&links, &placed, number as u8, best);
        if found < best {
            best = found;
            side = mark_side(&placed, &best);
        }
    }
    let Candidate { weight, nodes, tree, first, second } = best;
    Found { weight, nodes, tree, first, second, side }
}

/// The weight of the links at each node.
fn degrees(sheet: &Sheet) -> Vec<u64> {
    let mut degrees = vec![0; sheet.nodes];
    for link in &sheet.links {
        degrees[link.first as usize] += link.weight as u64;
        degrees[link.second as usize] += link.weight as u64;
    }
    degrees
}

/// The first of what was found before and a tree's candidates.
fn search_tree(links: &AtNodes<u32>, placed: &Placed, tree: u8, before: Candidate) -> Candidate {
    let mut rows = Rows::new(links, placed);
    let mut best = before;
    for u in (1..placed.nodes.len()).rev() {
        rows.make(u);
        search_row(&rows, u, tree, &mut best);
    }
    best
}

/// Keeps the first of what was found before and the candidates of the row of place `u`. As part of its caller, the loop would not keep
/// all its values in registers.
#[inline(never)]
fn search_row(rows: &Rows, u: usize, tree: u8, best: &mut Candidate) {
    let placed = rows.placed;
    let weight = rows.single(u);
    if weight <= best.weight {
        let link = placed.uplinks[u];
        *best = (*best).min(Candidate { weight, nodes: placed.below(u), tree, first: link, second: link });
    }
    for (behind, weight) in rows.pairs(u).enumerate() {
        if weight <= best.weight {
            keep_first(placed, u, behind, tree, weight, best);
        }
    }
}

/// Keeps the first of what was found before and the pair of place `u` and the one so many behind the next. Few pairs are so light; as part
/// of its caller's loop, it would take registers from the others.
#[cold]
#[inline(never)]
fn keep_first(placed: &Placed, u: usize, behind: usize, tree: u8, weight: u64, best: &mut Candidate) {
    let v = u + 1 + behind;
    let (one, other) = (placed.uplinks[u], placed.uplinks[v]);
    let nodes = placed.below_one(u, v);
    *best = (*best).min(Candidate { weight, nodes, tree, first: one.min(other), second: one.max(other) });
}

/// Marks the nodes below exactly one of a candidate's links.
fn mark_side(placed: &Placed, candidate: &Candidate) -> Vec<u8> {
    let mut side = vec![0; placed.nodes.len()];
    for (place, &link) in placed.uplinks.iter().enumerate() {
        if link == candidate.first || link == candidate.second {
            for &node in &placed.nodes[place..placed.stops[place]] {
                side[node as usize] ^= 1;
            }
        }
    }
    side
}
