//! The command `network pairs` as a planner runs it.

mod command;
mod networks;
mod written;

use command::{accepted_examples, assert_needs_a_list, assert_on_page, example, network, printed};
use networks::reached;
use planner::text;
use reference::generate::{self, Feature, Size};
use reference::network::{Link, Network, Tree};
use reference::random::Random;
use written::{links, names, random_texts, text_of};

const HEADER: &str = "first link,first cable,first from,first to,first capacity,\
                      second link,second cable,second from,second to,second capacity,weight\n";
const TRIANGLE: &str = "nodes 3\nlink 0-1:3\nlink 1-2:2\nlink 0-2:4\ntree share 2 links 0 2\n";
/// Tree 0 is the path 0-1-2-3, tree 1 the star around node 0.
const TWO_TREES: &str = "nodes 4\nlink 0-1:1\nlink 0-2:2\nlink 1-2:4\nlink 0-3:8\nlink 2-3:16\nlink 1-3:32\n\
                         tree share 0 links 4 0 2\ntree share 0 links 0 1 3\n";

/// The lines of a file and the fields of each, as RFC 4180 has them, with line feeds.
#[track_caller]
fn records(csv: &str) -> Vec<Vec<String>> {
    assert!(csv.ends_with('\n'), "{csv:?}");
    let (mut records, mut quoted) = (vec![vec![String::new()]], false);
    let mut letters = csv.chars().peekable();
    while let Some(letter) = letters.next() {
        let record = records.last_mut().expect("a record");
        let field = record.last_mut().expect("a field");
        match letter {
            '"' if quoted && letters.next_if_eq(&'"').is_some() => field.push('"'),
            '"' => {
                assert!(quoted || field.is_empty(), "a quote inside a field: {csv}");
                quoted = !quoted;
                let ends = letters.peek().is_some_and(|next| [',', '\n'].contains(next));
                assert!(quoted || ends, "a closing quote inside a field: {csv}");
            }
            ',' if !quoted => record.push(String::new()),
            '\n' if !quoted => records.push(vec![String::new()]),
            other => field.push(other),
        }
    }
    assert_eq!(records.pop(), Some(vec![String::new()]));
    records
}

/// Which nodes the links of a tree but this one do not join to node 0.
fn below(network: &Network, tree: &Tree, link: usize) -> Vec<bool> {
    let ends = |&member: &usize| (network.links[member].first, network.links[member].second);
    let others: Vec<(usize, usize)> = tree.members.iter().filter(|member| **member != link).map(ends).collect();
    reached(network.nodes, &others).iter().map(|reached| !reached).collect()
}

/// All pairs of a tree by numbers, in the order of the slots: the first link, the second, and the weight of the side of nodes below exactly
/// one of them, each link looked at by itself.
fn counted(network: &Network, tree: &Tree) -> Vec<[u64; 3]> {
    let below: Vec<Vec<bool>> = tree.members.iter().map(|&link| below(network, tree, link)).collect();
    let mut pairs = vec![[u64::MAX; 3]; tree.members.len() * (tree.members.len() - 1) / 2];
    for (r, &second) in tree.members.iter().enumerate() {
        for (s, &first) in tree.members.iter().enumerate().take(r) {
            let inside = |node: usize| below[r][node] ^ below[s][node];
            let crosses = |link: &&Link| inside(link.first) ^ inside(link.second);
            let weight = network.links.iter().filter(crosses).map(|link| link.weight).sum();
            pairs[r * (r - 1) / 2 + s] = [first as u64, second as u64, weight];
        }
    }
    pairs
}

/// The numbers of the first link, the second link and the weight of each line behind the header.
#[track_caller]
fn numbers(csv: &str) -> Vec<[u64; 3]> {
    assert!(csv.starts_with(HEADER), "{csv}");
    let numbers = |line: &Vec<String>| {
        assert_eq!(line.len(), 11, "{line:?}");
        [0, 5, 10].map(|column: usize| line[column].parse().expect("a number"))
    };
    records(csv)[1..].iter().map(numbers).collect()
}

fn pairs_of(text: &str, tree: usize) -> String {
    printed(&["pairs", "-", &tree.to_string()], text)
}

/// The names are those of the file's own lines.
#[test]
fn every_tree_of_the_examples_has_all_its_pairs_with_names_and_weights() {
    let (mut compared, mut named) = (0, 0);
    for file in accepted_examples() {
        let text = std::fs::read_to_string(&file).expect("text");
        let sound = text::parse(text.as_bytes()).expect("a network").contents.network;
        let (links, names) = (links(&text), names(&text, sound.nodes));
        let cable = |link: u64| {
            let written = &links[link as usize];
            let [from, to] = written.ends.map(|node| names[node].map_or(node.to_string(), str::to_string));
            format!("{link},{},{from},{to},{}", written.name.trim(), written.weight)
        };
        for (number, tree) in sound.trees.iter().enumerate() {
            let line = |[first, second, weight]: &[u64; 3]| format!("{},{},{weight}\n", cable(*first), cable(*second));
            let expected = counted(&sound, tree).iter().map(line).collect::<String>();
            assert_eq!(printed(&["pairs", &file, &number.to_string()], ""), HEADER.to_string() + &expected, "{file}");
            compared += expected.lines().count();
            named += expected.matches("radio bridge").count();
        }
    }
    assert!(compared > 1000 && named > 20, "{compared} {named}");
}

/// Trees of any shape, several of a network, and links that no tree holds.
#[test]
fn every_tree_of_random_networks_has_all_its_pairs_with_their_weights() {
    let (mut compared, mut different) = (0, 0);
    for (network, text) in random_texts(&mut Random::new(12), 30, 3) {
        for (number, tree) in network.trees.iter().enumerate() {
            let expected = counted(&network, tree);
            assert_eq!(numbers(&pairs_of(&text, number)), expected, "tree {number} of\n{text}");
            compared += expected.len();
            different += usize::from(expected != counted(&network, &network.trees[0]));
        }
    }
    assert!(compared > 5000 && different > 50, "{compared} {different}");
}

#[test]
fn each_tree_has_its_own_lines() {
    let path = "0,,0,1,1,2,,1,2,4,37\n0,,0,1,1,4,,2,3,16,51\n2,,1,2,4,4,,2,3,16,22\n";
    let star = "0,,0,1,1,1,,0,2,2,51\n0,,0,1,1,3,,0,3,8,29\n1,,0,2,2,3,,0,3,8,46\n";
    assert_eq!(pairs_of(TWO_TREES, 0), format!("{HEADER}{path}"));
    assert_eq!(pairs_of(TWO_TREES, 1), format!("{HEADER}{star}"));
}

/// The file says nothing else: neither of the tree's share nor of the trees before it does a weight depend.
#[test]
fn a_tree_has_the_same_lines_wherever_it_stands_and_whatever_its_share() {
    let star = pairs_of(TWO_TREES, 1);
    let alone = TWO_TREES.replace("tree share 0 links 4 0 2\n", "").replace("share 0", "share 4294967295");
    assert_eq!(pairs_of(&alone, 0), star);
    let last = "tree share 1 links 4 0 2\n".repeat(31);
    let many = TWO_TREES.replace("tree share 0 links 4 0 2\n", &last);
    assert_eq!(pairs_of(&many, 31), star);
}

/// A text takes the same quotes.
#[test]
fn names_are_quoted_as_export_quotes_them() {
    let nodes = [r#""core; old""#, r#""Kühlhaus, Süd""#, r#""the ""gate""""#];
    let cables = [(1, 0, 3, r#""a,b""#), (1, 2, 2, ""), (0, 2, 4, r#""""""""#), (2, 1, 9, r#""ß;""x"", y""#)];
    let mut text = "nodes 3\n".to_string();
    nodes.iter().enumerate().for_each(|(node, name)| text.push_str(&format!("node {node} {name}\n")));
    let mut exported = "from,to,capacity,name\n".to_string();
    for (from, to, weight, name) in cables {
        let named = if name.is_empty() { "" } else { " name " };
        text.push_str(&format!("link {from}-{to}:{weight}{named}{name}\n"));
        exported.push_str(&format!("{},{},{weight},{name}\n", nodes[from], nodes[to]));
    }
    text.push_str("tree share 1 links 3 0\ntree share 1 links 2 1\n");
    assert_eq!(printed(&["export"], &text), exported);
    let cable = |link: usize| {
        let (from, to, weight, name) = cables[link];
        format!("{link},{name},{},{},{weight}", nodes[from], nodes[to])
    };
    assert_eq!(pairs_of(&text, 0), format!("{HEADER}{},{},14\n", cable(0), cable(3)));
    assert_eq!(pairs_of(&text, 1), format!("{HEADER}{},{},15\n", cable(1), cable(2)));
    let first = ["0", "a,b", "Kühlhaus, Süd", "core; old", "3"];
    let second = ["3", "ß;\"x\", y", "the \"gate\"", "Kühlhaus, Süd", "9"];
    assert_eq!(records(&pairs_of(&text, 0))[1], [&first[..], &second, &["14"]].concat());
}

/// Nothing is said of it beside, since nothing is wrong.
#[test]
fn a_tree_of_one_link_has_the_header_line_only() {
    let text = "# Two\nnodes 2\nlink 0-1:4 name x\nlink 0-1:5\ntree share 4 links 0\ntree share 1 links 1\n";
    assert_eq!([0, 1].map(|tree| pairs_of(text, tree)), [HEADER, HEADER]);
    let expected = r#"{"file": "standard input", "title": "Two", "tree": 0, "links": [{"link": 0, "name": "x", "first": {"node": 0, "name": null}, "second": {"node": 1, "name": null}, "weight": 4}], "pairs": []}"#;
    assert_eq!(printed(&["pairs", "--json", "-", "0"], text), format!("{expected}\n"));
}

/// 256 nodes, 2,048 links and two trees: 32,385 pairs each.
#[test]
fn the_largest_network_has_32385_lines() {
    let network = generate::network(&mut Random::new(255), Size::new(256, 2048, 2), Feature::HeavyLinks);
    let text = text_of(&network);
    for (number, tree) in network.trees.iter().enumerate() {
        let said = numbers(&pairs_of(&text, number));
        assert_eq!(said.len(), 32_385);
        assert!(said == counted(&network, tree), "tree {number}");
        assert_eq!(said[0][..2], [tree.members[0] as u64, tree.members[1] as u64]);
        assert_eq!(said[32_384][..2], [tree.members[253] as u64, tree.members[254] as u64]);
    }
}

#[test]
fn pairs_as_json_are_a_line_with_the_same_numbers() {
    let start = r#"{"file": "standard input", "title": null, "tree": 1, "links": [{"link": 0, "name": null, "first": {"node": 0, "name": null}, "second": {"node": 1, "name": null}, "weight": 1}, {"link": 1, "#;
    let pair = |[first, second, weight]: [u64; 3]| {
        format!(r#"{{"first_link": {first}, "second_link": {second}, "weight": {weight}}}"#)
    };
    let pairs = numbers(&pairs_of(TWO_TREES, 1)).into_iter().map(pair).collect::<Vec<_>>().join(", ");
    let json = printed(&["pairs", "-", "1", "--json"], TWO_TREES);
    assert!(json.starts_with(start) && json.ends_with(&format!(r#""pairs": [{pairs}]}}{}"#, '\n')), "{json}");
    assert_eq!((json.matches('\n').count(), json.matches(r#""link": "#).count()), (1, 3), "{json}");
}

#[test]
fn a_tree_that_the_network_does_not_have_is_an_error() {
    let error = |text: &str, tree: &str, flags: &[&str]| {
        let (status, printed, errors) = network(&[&["pairs", "-", tree], flags].concat(), text.as_bytes());
        assert_eq!((status, printed.len()), (Some(1), 0), "{tree}");
        errors
    };
    let none = |tree: &str, count: &str| {
        format!("standard input: there is no tree {tree}: the network has {count}, and they are numbered from 0\n")
    };
    for tree in ["1", "2", "31", "32", "256", "4294967295", "4294967296", "18446744073709551615"] {
        assert_eq!(error(TRIANGLE, tree, &[]), none(tree, "1 tree"));
        assert_eq!(error(TRIANGLE, tree, &["--json"]), none(tree, "1 tree"));
    }
    assert_eq!(error(TWO_TREES, "2", &[]), none("2", "2 trees"));
    assert_eq!(pairs_of(TRIANGLE, 0), format!("{HEADER}0,,0,1,3,2,,0,2,4,7\n"));
    assert_eq!(printed(&["pairs", "-", "00"], TRIANGLE), pairs_of(TRIANGLE, 0));
}

/// Arguments are looked at before the file is read.
#[test]
fn what_is_no_number_of_a_tree_is_an_error() {
    for word in ["", "x", "-1", "+1", "1.0", "1e0", "0x1", "1 ", " 1", "tree 1", "\u{663}", "18446744073709551616"] {
        let expected = format!("expected the number of a tree, counted from 0, found '{word}'\n");
        assert_eq!(network(&["pairs", "--", "missing.net", word], b""), (Some(1), vec![], expected));
    }
    let (status, printed, errors) = network(&["pairs", "missing.net", "0"], b"");
    assert_eq!((status, printed.len()), (Some(1), 0));
    assert!(errors.starts_with("missing.net: "), "{errors}");
}

/// Nor is it said then that there is no such tree.
#[test]
fn a_refused_network_has_no_pairs() {
    for tree in ["0", "1", "1000"] {
        assert_needs_a_list("pairs", &[tree]);
    }
}

/// docs/REPORT.md shows all that is printed for one network, and the lightest pairs of a tree of the works.
#[test]
fn the_page_shows_what_is_printed() {
    assert_on_page(&printed(&["pairs", &example("f-hidden-cut.net"), "0"], ""));
    let works = printed(&["pairs", &example("works.net"), "1"], "");
    let mut lightest: Vec<&str> = works.lines().skip(1).collect();
    assert_eq!(lightest.len(), 741);
    lightest.sort_by_key(|line| line.rsplit(',').next().and_then(|weight| weight.parse::<u64>().ok()));
    assert_on_page(&format!("{HEADER}{}", lightest[..3].join("\n")));
}
