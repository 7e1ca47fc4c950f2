//! Which trees count for the floor, and why those behind them do not.

use crate::names::Names;
use reference::cuts;
use reference::network::{Network, Tree};

/// The first tree that, with those before it, overloads a link: the trees before it are those that count. Of its overloaded links the
/// first is named, with the load that it would have.
pub struct RunEnd {
    pub tree: usize,
    link: usize,
    load: u64,
}

/// Where the trees that count end; none if all count.
pub fn run_end(network: &Network) -> Option<RunEnd> {
    (0..network.trees.len()).find_map(|tree| {
        let mut loads = cuts::loads(&network.links, &network.trees[..=tree]).into_iter().enumerate();
        let (link, load) = loads.find(|&(link, load)| load > network.links[link].weight)?;
        Some(RunEnd { tree, link, load })
    })
}

/// The trees that count.
pub fn counted(network: &Network) -> &[Tree] {
    run_end(network).map_or(&network.trees[..], |end| &network.trees[..end.tree])
}

impl RunEnd {
    /// Why the tree does not count, and which do, as a sentence without its full stop.
    pub fn reason(&self, network: &Network, names: &Names) -> String {
        let RunEnd { tree, link, load } = self;
        let (weight, link) = (network.links[*link].weight, names.link(*link));
        let counted = match tree {
            0 => "no tree counts".to_string(),
            1 => "only tree 0 counts".to_string(),
            2 => "only trees 0 and 1 count".to_string(),
            _ => format!("only trees 0 to {} count", tree - 1),
        };
        format!(
            "Tree {tree} would bring the load of link {link} to {load}, more than its weight of {weight}, so {counted}"
        )
    }
}
