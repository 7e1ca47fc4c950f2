//! Networks as text: of random networks, what a text has in its own lines, and how names stand together in words.
#![allow(dead_code)] // no test uses all of it

use planner::names::Names;
use planner::text;
use reference::generate::{self, FEATURES};
use reference::network::Network;
use reference::random::Random;
use reference::sheet::Contents;

/// The text of a network, without names.
pub fn text_of(network: &Network) -> String {
    let names = Names::none(network.nodes, network.links.len());
    text::write(&Contents::without_trunks(network.clone()), &names)
}

/// Networks with trees, so many of each feature, and their texts.
pub fn random_texts(random: &mut Random, most_nodes: usize, of_each: usize) -> Vec<(Network, String)> {
    let network = |feature| {
        let size = generate::random_size(random, 2, most_nodes, feature);
        let network = generate::network(random, size, feature);
        (network.clone(), text_of(&network))
    };
    FEATURES.into_iter().flat_map(|feature| vec![feature; of_each]).map(network).collect()
}

/// A link of a network as text, read from its own line: its ends, its weight, and its name with a space before it, or nothing.
pub struct Written {
    pub ends: [usize; 2],
    pub weight: u64,
    pub name: String,
}

pub fn links(text: &str) -> Vec<Written> {
    let link = |line: &str| {
        let line = line.split('#').next().unwrap_or_default().trim();
        let (numbers, rest) = line.split_once(' ').unwrap_or((line, ""));
        let numbers: Vec<u64> = numbers.split(['-', ':']).map(|number| number.parse().expect(line)).collect();
        let name = rest.split_once("name ").map_or(String::new(), |(_, name)| format!(" {name}"));
        Written { ends: [numbers[0] as usize, numbers[1] as usize], weight: numbers[2], name }
    };
    text.lines().filter_map(|line| line.strip_prefix("link ")).map(link).collect()
}

/// The name of each node of a network as text, read from its own lines.
pub fn names(text: &str, nodes: usize) -> Vec<Option<&str>> {
    let mut names = vec![None; nodes];
    for line in text.lines().filter_map(|line| line.strip_prefix("node ")) {
        let (node, name) = line.split_once(' ').expect("a name");
        names[node.parse::<usize>().expect("a number")] = Some(name);
    }
    names
}

/// `a`, `a and b`, `a, b and c`.
pub fn together(words: &[String]) -> String {
    let mut together = words.join(", ");
    if let Some(comma) = together.rfind(", ") {
        together.replace_range(comma..comma + 2, " and ");
    }
    together
}

/// A node's name, or its number.
pub fn node_name(node: usize, names: &[Option<&str>]) -> String {
    names[node].map_or(format!("node {node}"), str::to_string)
}

/// Some nodes as a sentence has them.
pub fn node_list(nodes: &[usize], names: &[Option<&str>]) -> String {
    match nodes {
        [_, _, ..] if nodes.iter().all(|&node| names[node].is_none()) => {
            format!("nodes {}", together(&nodes.iter().map(usize::to_string).collect::<Vec<_>>()))
        }
        _ => together(&nodes.iter().map(|&node| node_name(node, names)).collect::<Vec<_>>()),
    }
}

/// The ends of a link as a sentence has them.
pub fn ends(link: &Written, names: &[Option<&str>]) -> String {
    let [first, second] = link.ends;
    match (names[first], names[second]) {
        (None, None) => format!("{first}-{second}"),
        _ => format!("{} to {}", node_name(first, names), node_name(second, names)),
    }
}

/// The links of which one end is met among these nodes, as a sentence has them, and their weight.
pub fn crossing(nodes: &[usize], links: &[Written], names: &[Option<&str>]) -> (String, u64) {
    let met = |link: &Written| nodes.iter().filter(|node| link.ends.contains(node)).count();
    let crossing: Vec<(usize, &Written)> = links.iter().enumerate().filter(|(_, link)| met(link) == 1).collect();
    let crossed =
        |(number, link): &(usize, &Written)| format!("{number}{} ({}:{})", link.name, ends(link, names), link.weight);
    let word = if crossing.len() == 1 { "link" } else { "links" };
    let crossed = together(&crossing.iter().map(crossed).collect::<Vec<_>>());
    (format!("{word} {crossed}"), crossing.iter().map(|(_, link)| link.weight).sum())
}
