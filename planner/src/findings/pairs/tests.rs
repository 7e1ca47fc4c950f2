use super::*;
use crate::cables::fields::Records;
use crate::findings::tests::{networks, parse, parsed, reference_findings};
use crate::names::Names;
use crate::text::{self, Parsed};
use reference::every_side;
use reference::random::Random;
use reference::sheet::Contents;

/// The path 0-1-2-3 as tree 0 and the star around node 0 as tree 1. No two pairs of a tree have the same weight.
const TWO_TREES: &str = "nodes 4\nlink 0-1:1\nlink 0-2:2\nlink 1-2:4\nlink 0-3:8\nlink 2-3:16\nlink 1-3:32\n\
                         tree share 0 links 4 0 2\ntree share 0 links 0 1 3\n";

/// The weights of both trees by their slots: of the sides 1, 1 2 and 2, and of the sides 1 2, 1 3 and 2 3.
const WEIGHTS: [[u64; 3]; 2] = [[37, 51, 22], [51, 29, 46]];

fn pair(first: usize, second: usize, weight: u64) -> Pair {
    Pair { first, second, weight }
}

#[test]
fn each_tree_has_its_own_pairs_in_the_order_of_the_slots() {
    let parsed = parse(TWO_TREES);
    let findings = reference_findings(&parsed);
    let pairs = [0, 1].map(|tree| findings.pairs(tree).expect("the unit's weights").pairs);
    assert_eq!(pairs[0], [pair(0, 2, 37), pair(0, 4, 51), pair(2, 4, 22)]);
    assert_eq!(pairs[1], [pair(0, 1, 51), pair(0, 3, 29), pair(1, 3, 46)]);
}

/// Each side of all, without node 0, is the side of the two links of a tree that it crosses, if it crosses two.
#[test]
fn every_side_that_crosses_two_links_of_a_tree_has_its_weight_there() {
    let (mut compared, mut different) = (0, 0);
    for network in networks(&mut Random::new(12), 2..=every_side::MOST_NODES, 25) {
        let (parsed, shown) = (parsed(network.clone()), every_side::shown(&network));
        let findings = reference_findings(&parsed);
        let expected = |tree: usize| {
            let of_tree = shown.iter().map(|(candidate, _)| candidate).filter(|candidate| candidate.tree == tree);
            let mut pairs: Vec<Pair> =
                of_tree.filter_map(|one| Some(pair(one.first, one.second?, one.weight))).collect();
            pairs.sort_by_key(|pair| (pair.second, pair.first));
            pairs
        };
        for tree in 0..network.trees.len() {
            let said = findings.pairs(tree).expect("the unit's weights").pairs;
            assert_eq!(said, expected(tree), "tree {tree} of {network:?}");
            assert_eq!(said.len(), (network.nodes - 1) * (network.nodes - 2) / 2);
            compared += said.len();
            different += usize::from(said != expected(0));
        }
    }
    assert!(compared > 10_000 && different > 200, "{compared} {different}");
}

/// What is said of these weights for a tree of that network.
fn contradicts(tree: usize, weights: &[u64]) -> Option<&'static str> {
    let parsed = parse(TWO_TREES);
    let findings = reference_findings(&parsed);
    let error = Pairs::new(&findings, tree, weights).err();
    error
}

#[test]
fn weights_that_do_not_fit_the_network_are_an_error() {
    let wrong = Some("the links that cross the side of a pair have another weight");
    for (tree, right) in WEIGHTS.iter().enumerate() {
        assert_eq!(contradicts(tree, right), None);
        for slot in 0..3 {
            for other in [right[slot] + 1, right[slot] - 1, 2 * right[slot], 0, right[slot] + (1 << 32), u64::MAX] {
                let mut weights = *right;
                weights[slot] = other;
                assert_eq!(contradicts(tree, &weights), wrong, "{weights:?}");
            }
            let mut swapped = *right;
            swapped.swap(slot, (slot + 1) % 3);
            assert_eq!(contradicts(tree, &swapped), wrong, "{swapped:?}");
        }
        assert_eq!(contradicts(1 - tree, right), wrong);
        assert_eq!(contradicts(tree, &right[..2]), wrong);
        assert_eq!(contradicts(tree, &[]), wrong);
        assert_eq!(contradicts(tree, &[&right[..], &[u64::MAX]].concat()), wrong);
    }
}

/// A sheet may not have 33 trees.
#[test]
fn a_tree_that_is_not_there_and_a_refusal_are_errors() {
    let parsed = parse(TWO_TREES);
    let findings = reference_findings(&parsed);
    for tree in [2, 3, 256, usize::MAX] {
        let expected = format!("there is no tree {tree}: the network has 2 trees, and they are numbered from 0");
        assert_eq!(findings.pairs(tree).err(), Some(expected));
    }
    let many = parse(&format!("nodes 2\nlink 0-1:4\n{}", "tree share 0 links 0\n".repeat(33)));
    let refused = reference_findings(&many).pairs(0).err();
    assert_eq!(refused.as_deref(), Some("the pairs must not be refused, number 6"));
}

#[test]
fn a_tree_of_one_link_has_no_pair() {
    let parsed = parse("nodes 2\nlink 0-1:4\nlink 0-1:5\ntree share 4 links 1\n");
    let findings = reference_findings(&parsed);
    let pairs = findings.pairs(0).expect("the unit's weights");
    assert_eq!(pairs.pairs, []);
    assert_eq!(pairs.csv(), COLUMNS.join(",") + "\n");
    let one = "there is no tree 1: the network has 1 tree, and they are numbered from 0";
    assert_eq!(findings.pairs(1).err().as_deref(), Some(one));
}

/// The fields of each line, as the reader of cable lists has them.
fn read(csv: &str) -> Vec<Vec<String>> {
    Records::new(csv, ',').map(|(_, record)| record.unwrap_or_else(|fault| panic!("{fault:?}: {csv}"))).collect()
}

/// Names with all that a reader could take for something else, for nodes and for some of the links.
fn odd_names(random: &mut Random, nodes: usize, links: usize) -> Names {
    let odd = ["#", ",", ";", "\"", "\"\"", "=", "-", "'", "ü", "ß", " ", "2"];
    let mut name = |number: usize| {
        let mut part = || (0..random.between(0, 4)).map(|_| random.pick(&odd)).collect::<String>();
        crate::names::tidy(&format!("{}{number}{}", part(), part())).expect("a name")
    };
    let mut names = Names::none(nodes, links);
    for (node, named) in names.nodes.iter_mut().enumerate() {
        *named = Some(name(1000 + node));
    }
    names.links.iter_mut().step_by(2).for_each(|named| *named = Some(name(7)));
    names
}

#[test]
fn odd_names_come_back_from_the_lines() {
    let mut random = Random::new(34);
    for network in networks(&mut random, 3..=20, 1) {
        let mut names = odd_names(&mut random, network.nodes, network.links.len());
        if random.once_in(3) {
            names.nodes[1..].fill(None);
        }
        let text = text::write(&Contents::without_trunks(network.clone()), &names);
        let parsed: Parsed = parse(&text);
        assert_eq!(parsed.names, names);
        let csv = reference_findings(&parsed).pairs(0).expect("the unit's weights").csv();
        let name = |node: usize| names.nodes[node].clone().unwrap_or(format!("{node}"));
        let cable = |link: usize| {
            let (cable, label) = (network.links[link], names.links[link].clone().unwrap_or_default());
            [format!("{link}"), label, name(cable.first), name(cable.second), format!("{}", cable.weight)]
        };
        let line = |pair: &Pair| [&cable(pair.first)[..], &cable(pair.second), &[format!("{}", pair.weight)]].concat();
        let expected: Vec<Vec<String>> = weighed(&network, 0).iter().map(line).collect();
        let lines = read(&csv);
        assert_eq!(lines[0], COLUMNS);
        assert_eq!(lines[1..], expected, "{csv}");
    }
}

#[test]
fn records_have_the_trees_links_once_and_the_pairs_by_their_numbers() {
    let named =
        TWO_TREES.replace("nodes 4\n", "# Two trees\nnodes 4\nnode 2 hall\n").replace("1-2:4", "1-2:4 name a, b");
    let parsed = parse(&named);
    let findings = reference_findings(&parsed);
    let node = |node: usize| format!(r#"{{"node": {node}, "name": {}}}"#, if node == 2 { "\"hall\"" } else { "null" });
    let link = |link: usize, name: &str, [first, second]: [usize; 2], weight: u64| {
        let (first, second) = (node(first), node(second));
        format!(r#"{{"link": {link}, "name": {name}, "first": {first}, "second": {second}, "weight": {weight}}}"#)
    };
    let links = [link(0, "null", [0, 1], 1), link(2, "\"a, b\"", [1, 2], 4), link(4, "null", [2, 3], 16)].join(", ");
    let pair = |first: usize, second: usize, weight: u64| {
        format!(r#"{{"first_link": {first}, "second_link": {second}, "weight": {weight}}}"#)
    };
    let pairs = [pair(0, 2, 37), pair(0, 4, 51), pair(2, 4, 22)].join(", ");
    let expected =
        format!(r#"{{"file": "a.net", "title": "Two trees", "tree": 0, "links": [{links}], "pairs": [{pairs}]}}"#);
    let record = |tree: usize| findings.pairs(tree).expect("the unit's weights").record("a.net").to_string();
    assert_eq!(record(0), expected);
    assert!(record(1).contains(r#""tree": 1, "links": [{"link": 0, "#), "{}", record(1));
}
