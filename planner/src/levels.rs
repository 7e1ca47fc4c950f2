//! How far the nodes of a network are from node 0.

use reference::network::Link;
use std::collections::VecDeque;

/// For each node, over how many of the members it is from node 0 at least; none if they do not join it to node 0.
pub fn levels(nodes: usize, links: &[Link], members: &[usize]) -> Vec<Option<usize>> {
    let mut neighbours = vec![Vec::new(); nodes];
    for &member in members {
        let Link { first, second, .. } = links[member];
        neighbours[first].push(second);
        neighbours[second].push(first);
    }
    let mut levels = vec![None; nodes];
    levels[0] = Some(0);
    let mut waiting = VecDeque::from([(0, 0)]);
    while let Some((node, level)) = waiting.pop_front() {
        for &neighbour in &neighbours[node] {
            if levels[neighbour].is_none() {
                levels[neighbour] = Some(level + 1);
                waiting.push_back((neighbour, level + 1));
            }
        }
    }
    levels
}

/// The lowest node that the members do not join to node 0.
pub fn unreached(nodes: usize, links: &[Link], members: &[usize]) -> Option<usize> {
    levels(nodes, links, members).iter().position(Option::is_none)
}
