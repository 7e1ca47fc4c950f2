//! The plain method: every pair is weighed by a pass over the nodes and links.

use crate::answer::{self, Found, Outcome};
use crate::read::{grow_tree, read_sheet, Link, Sheet, Tree};

pub fn report(sheet: &[u8]) -> Outcome {
    match read_sheet(sheet) {
        Ok(sheet) => answer::accepted(&sheet, &search_trees(&sheet)),
        Err(refusal) => Outcome::unwritten(refusal),
    }
}

/// Marks the nodes below a member.
fn mark_below(marks: &mut [u8], tree: &Tree, link: u16) {
    marks.fill(0);
    for &node in &tree.order[1..] {
        let node = node as usize;
        marks[node] = if tree.uplinks[node] == link { 1 } else { marks[tree.parents[node] as usize] };
    }
}

fn search_trees(sheet: &Sheet) -> Found {
    let mut best = Found { weight: u64::MAX, nodes: 0, tree: 0, first: 0, second: 0, side: vec![0; sheet.nodes] };
    for (number, record) in sheet.trees.iter().enumerate() {
        if let Some(tree) = grow_tree(record.map, sheet.nodes, &sheet.links) {
            search_tree(&tree, number as u8, sheet, &mut best);
        }
    }
    best
}

/// Each member alone, then with each later one, where the two single weights are not too far apart.
fn search_tree(tree: &Tree, number: u8, sheet: &Sheet, best: &mut Found) {
    let singles = weigh_singles(tree, sheet);
    let mut lower = vec![0; sheet.nodes];
    let mut side = vec![0; sheet.nodes];
    for (i, &first) in tree.members.iter().enumerate() {
        mark_below(&mut lower, tree, first);
        keep_first(best, number, first, first, singles[i], &lower);
        for (j, &second) in tree.members.iter().enumerate().skip(i + 1) {
            if singles[i].abs_diff(singles[j]) <= best.weight {
                mark_below(&mut side, tree, second);
                differ(&mut side, &lower);
                let weight = weigh(&side, &sheet.links);
                keep_first(best, number, first, second, weight, &side);
            }
        }
    }
}

fn weigh_singles(tree: &Tree, sheet: &Sheet) -> Vec<u64> {
    let mut side = vec![0; sheet.nodes];
    let mut single = |&link: &u16| {
        mark_below(&mut side, tree, link);
        weigh(&side, &sheet.links)
    };
    tree.members.iter().map(&mut single).collect()
}

fn differ(side: &mut [u8], other: &[u8]) {
    for (mark, other) in side.iter_mut().zip(other) {
        *mark ^= other;
    }
}

fn weigh(side: &[u8], links: &[Link]) -> u64 {
    let crossed = |l: &Link| side[l.first as usize] ^ side[l.second as usize];
    links.iter().map(|l| crossed(l) as u64 * l.weight as u64).sum()
}

/// Keeps the side if it is lighter, or as light with fewer nodes: the candidates come in the order of trees and links.
fn keep_first(best: &mut Found, tree: u8, first: u16, second: u16, weight: u64, side: &[u8]) {
    if weight > best.weight {
        return;
    }
    let nodes = side.iter().map(|&mark| mark as u16).sum();
    if weight < best.weight || nodes < best.nodes {
        best.weight = weight;
        best.nodes = nodes;
        best.tree = tree;
        best.first = first;
        best.second = second;
        best.side.copy_from_slice(side);
    }
}
