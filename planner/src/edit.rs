//! Changes to a network's text that leave its other lines as they are.

use crate::text::{link_line, tree_line, Parsed};
use reference::network::{Link, Tree};

/// The text with a link behind its last one, so that the links of its trees keep their numbers. The new link has trunk number 0.
pub fn with_link(text: &str, parsed: &Parsed, link: &Link, name: Option<&str>) -> String {
    let inherited = parsed.contents.trunks.last().is_some_and(|&trunk| trunk != 0);
    let new = link_line(link, inherited.then_some(0), name);
    let mut edited = String::new();
    for (number, line) in (1..).zip(text.lines()) {
        edited.push_str(&format!("{line}\n"));
        if number == parsed.last_link_line() {
            edited.push_str(&new);
        }
    }
    edited
}

/// The text with these trees in place of its own.
pub fn with_trees(text: &str, parsed: &Parsed, trees: &[Tree]) -> String {
    let kept = (1..).zip(text.lines()).filter(|(number, _)| !parsed.tree_lines().contains(number));
    let mut edited: String = kept.map(|(_, line)| format!("{line}\n")).collect();
    trees.iter().for_each(|tree| edited.push_str(&tree_line(tree)));
    edited
}
