//! Networks: nodes, weighted links, listed spanning trees with shares.

/// A link between two nodes.
#[derive(Clone, Copy, Debug, PartialEq, Eq)]
pub struct Link {
    pub first: usize,
    pub second: usize,
    pub weight: u64,
}

/// A listed tree: its share and the numbers of its member links, rising.
#[derive(Clone, Debug, PartialEq, Eq)]
pub struct Tree {
    pub share: u64,
    pub members: Vec<usize>,
}

/// Nodes are numbered from 0, and node 0 is the root (document 01: the core switch). Links and trees are numbered from 0
/// in sheet order.
#[derive(Clone, Debug, PartialEq, Eq)]
pub struct Network {
    pub nodes: usize,
    pub links: Vec<Link>,
    pub trees: Vec<Tree>,
}

/// Those of the given links that join two components, when they are added to the nodes in the given order.
pub fn joining(nodes: usize, links: &[Link], order: &[usize]) -> Vec<usize> {
    let mut component: Vec<usize> = (0..nodes).collect();
    let mut joining = Vec::new();
    for &link in order {
        let kept = component[links[link].first];
        let merged = component[links[link].second];
        if kept != merged {
            component.iter_mut().filter(|entry| **entry == merged).for_each(|entry| *entry = kept);
            joining.push(link);
        }
    }
    joining
}
