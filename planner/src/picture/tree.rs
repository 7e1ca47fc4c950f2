//! The tree by which nodes are laid out, and the order of children.

use super::Drawing;

/// How often the orders of all children are gone through.
const ROUNDS: usize = 5;

/// The member tree, hung up by node 0.
pub struct Tree {
    /// The children of each node, from left to right.
    pub children: Vec<Vec<usize>>,
    pub depths: Vec<usize>,
    /// All nodes, each behind its parent.
    pub downward: Vec<usize>,
}

impl Tree {
    /// The tree of a drawing, with children in an order that keeps the side together and other links short.
    pub fn new(drawing: &Drawing) -> Tree {
        let mut tree = Tree::of_members(drawing);
        let parents: Vec<usize> = tree.downward.iter().copied().filter(|&node| tree.children[node].len() > 1).collect();
        let mut best = tree.cost(drawing);
        for &parent in std::iter::repeat_n(&parents, ROUNDS).flatten() {
            best = tree.improve(drawing, parent, best);
        }
        tree
    }

    /// The tree of a drawing, with children in any order.
    pub fn of_members(drawing: &Drawing) -> Tree {
        let nodes = drawing.nodes.len();
        let mut tree = Tree { children: vec![Vec::new(); nodes], depths: vec![0; nodes], downward: vec![0] };
        for link in drawing.links.iter().filter(|link| link.member) {
            tree.children[link.first].push(link.second);
            tree.children[link.second].push(link.first);
        }
        for place in 0..nodes {
            let node = tree.downward[place];
            for child in tree.children[node].clone() {
                tree.children[child].retain(|&other| other != node);
                tree.depths[child] = tree.depths[node] + 1;
                tree.downward.push(child);
            }
        }
        tree
    }

    /// Tries other orders of a node's children, and keeps those that cost less; what it costs then.
    fn improve(&mut self, drawing: &Drawing, node: usize, mut best: (usize, f64)) -> (usize, f64) {
        for attempt in 0..self.children[node].len() + 1 {
            let mut order = self.children[node].clone();
            match attempt {
                0 => self.sort_by_pull(drawing, &mut order, 1.0),
                1 => self.sort_by_pull(drawing, &mut order, -1.0),
                _ => order.swap(attempt - 2, attempt - 1),
            }
            let before = std::mem::replace(&mut self.children[node], order);
            let cost = self.cost(drawing);
            if cost < best {
                best = cost;
            } else {
                self.children[node] = before;
            }
        }
        best
    }

    /// How many other leaves stand between those of the side, and how far the ends of all but the members are apart.
    fn cost(&self, drawing: &Drawing) -> (usize, f64) {
        let columns = self.columns();
        let mut leaves: Vec<usize> = (0..columns.len()).filter(|&node| self.children[node].is_empty()).collect();
        leaves.sort_by(|&one, &other| columns[one].total_cmp(&columns[other]));
        let inside = |node: usize| drawing.nodes[node].inside;
        let first = leaves.iter().position(|&leaf| inside(leaf)).unwrap_or(0);
        let last = leaves.iter().rposition(|&leaf| inside(leaf)).unwrap_or(0);
        let between = leaves[first..=last].iter().filter(|&&leaf| !inside(leaf)).count();
        let others = drawing.links.iter().filter(|link| !link.member);
        (between, others.map(|link| (columns[link.first] - columns[link.second]).abs()).sum())
    }

    /// Leaves are numbered from left to right, and parents stand over the middle of their children.
    fn columns(&self) -> Vec<f64> {
        let mut leaves = vec![1.0; self.children.len()];
        for &node in self.downward.iter().rev().filter(|&&node| !self.children[node].is_empty()) {
            leaves[node] = self.children[node].iter().map(|&child| leaves[child]).sum();
        }
        let mut columns = vec![0.0; self.children.len()];
        for &node in &self.downward {
            let mut next = columns[node];
            for &child in &self.children[node] {
                columns[child] = next;
                next += leaves[child];
            }
        }
        for &node in self.downward.iter().rev() {
            if let (Some(&first), Some(&last)) = (self.children[node].first(), self.children[node].last()) {
                columns[node] = (columns[first] + columns[last]) / 2.0;
            }
        }
        columns
    }

    /// Sorts children by the middle of where links other than members lead from below them, and the side to one end.
    fn sort_by_pull(&self, drawing: &Drawing, children: &mut [usize], end: f64) {
        let columns = self.columns();
        let aside = |node: usize| if drawing.nodes[node].inside { end * columns.len() as f64 } else { 0.0 };
        let mut pulls: Vec<(f64, f64)> = (0..columns.len()).map(|node| (columns[node] + aside(node), 1.0)).collect();
        for link in drawing.links.iter().filter(|link| !link.member) {
            for (near, far) in [(link.first, link.second), (link.second, link.first)] {
                pulls[near] = (pulls[near].0 + columns[far] + aside(near), pulls[near].1 + 1.0);
            }
        }
        for &node in self.downward.iter().rev() {
            for &child in &self.children[node] {
                pulls[node] = (pulls[node].0 + pulls[child].0, pulls[node].1 + pulls[child].1);
            }
        }
        let pull = |node: usize| pulls[node].0 / pulls[node].1;
        children.sort_by(|&one, &other| pull(one).total_cmp(&pull(other)));
    }
}
