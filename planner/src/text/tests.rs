use super::*;
use reference::documented::CASE_A;
use reference::generate::{self, FEATURES};
use reference::network::Network;
use reference::random::Random;
use reference::{every_side, report, sheet};
use std::collections::BTreeSet;
use std::path::Path;

/// Document 01's case A.
const TRIANGLE: &str = "nodes 3\nlink 0-1:3\nlink 1-2:2\nlink 0-2:4\ntree share 2 links 0 2\n";

fn parsed(text: &str) -> Parsed {
    parse(text.as_bytes()).expect("a text without a fault")
}

fn contents(text: &str) -> Contents {
    parsed(text).contents
}

/// The text of contents without names.
fn write_unnamed(contents: &Contents) -> String {
    write(contents, &Names::none(contents.network.nodes, contents.network.links.len()))
}

/// The text has this fault in its form, and no other.
#[track_caller]
fn assert_fault(text: impl AsRef<[u8]>, line: usize, message: &str) {
    let mut faults = parse(text.as_ref()).expect_err("a text with a fault");
    faults.retain(|fault| !fault.message.starts_with("the monitor refuses "));
    assert_eq!(faults, [Fault { line, message: message.to_string() }]);
}

#[test]
fn case_a_has_document_01s_bytes() {
    assert_eq!(sheet::write_contents(&contents(TRIANGLE)), CASE_A);
    assert_eq!(write_unnamed(&sheet::read_contents(&CASE_A).expect("an accepted sheet")), TRIANGLE);
}

#[test]
fn spaces_comments_and_line_ends_do_not_matter() {
    let loose = "\u{feff}\r\n#\r\n  ## A triangle \r\n\tnodes  3 # three\r\n\r\nlink 0 - 1 : 3\r\nlink\t1-2:02\r\n \
                 # not a link\r\nlink 0-2:4#four\r\ntree  share 2   links 2 0";
    assert_eq!(contents(loose), contents(TRIANGLE));
    let lines = |text: &str| {
        let Parsed { title, lines, .. } = parsed(text);
        (title, lines.nodes, lines.links, lines.trees)
    };
    assert_eq!(lines(loose), (Some("A triangle".to_string()), 4, vec![6, 7, 9], vec![10]));
    assert_eq!(lines(TRIANGLE), (None, 1, vec![2, 3, 4], vec![5]));
}

#[test]
fn every_network_that_fits_the_fields_comes_back() {
    let texts = [
        "nodes 0\n",
        "nodes 65535\nlink 65535-0:4294967295\nlink 7-7:0\ntree share 4294967295 links 0 1\ntree share 0 links\n",
        "nodes 4\nlink 0-1:1\nlink 0-1:1\nlink 2-3:1000001\ntree share 1 links 1\ntree share 1 links 1\n",
    ];
    for text in texts {
        assert_eq!(write_unnamed(&contents(text)), text);
    }
    let links = [Link { first: 65_535, second: 0, weight: 4_294_967_295 }, Link { first: 7, second: 7, weight: 0 }];
    let trees = [Tree { share: 4_294_967_295, members: vec![0, 1] }, Tree { share: 0, members: vec![] }];
    let network = Network { nodes: 65_535, links: links.to_vec(), trees: trees.to_vec() };
    assert_eq!(contents(texts[1]), Contents { network, trunks: vec![0, 0] });
}

#[test]
fn a_trunk_number_stays_up_to_the_next() {
    let text = "nodes 2\nlink 0-1:4\nlink 0-1:4 trunk 65535\nlink 0-1:4\nlink 0-1:4 trunk 0\nlink 0-1:4 trunk 263\n";
    assert_eq!(contents(text).trunks, [0, 65_535, 65_535, 0, 263]);
    assert_eq!(write_unnamed(&contents(text)), text);
    let again = "nodes 2\nlink 0-1:4 trunk 0\nlink 0-1:4\ttrunk  65535 # trench 3\nlink 0-1:4 trunk 65535\nlink 0-1:4 trunk 00\n\
                 link 0-1:4 trunk 263\n";
    assert_eq!(contents(again), contents(text));
    let from_link_0 = "nodes 2\nlink 0-1:4 trunk 1\nlink 1-0:4\n";
    assert_eq!(contents(from_link_0).trunks, [1, 1]);
    assert_eq!(write_unnamed(&contents(from_link_0)), from_link_0);
}

#[test]
fn trunk_numbers_have_request_f_9s_bytes() {
    let text = TRIANGLE.replace("0-1:3", "0-1:3 trunk 263").replace("0-2:4", "0-2:4 trunk 5");
    let link_0 = [0x0F, 0x00, 0x00, 0x01, 0x00, 0x03, 0x00, 0x00, 0x00, 0x07, 0x01];
    let link_2 = [0x0D, 0x00, 0x00, 0x04, 0x00, 0x00, 0x00, 0x05, 0x00];
    let sheet = [&CASE_A[..5], &link_0, &CASE_A[14..23], &link_2, &CASE_A[30..]].concat();
    assert_eq!(sheet::write_contents(&contents(&text)), sheet);
    assert_eq!(write_unnamed(&sheet::read_contents(&sheet).expect("an accepted sheet")), text);
}

#[test]
fn a_text_of_another_form_is_a_fault() {
    assert_fault("", 1, "expected 'nodes' and the node count, found only comments and blank lines");
    assert_fault("# a\n\n # b\n", 3, "expected 'nodes' and the node count, found only comments and blank lines");
    assert_fault(b"nodes 2\nlink 0-1:1\n# K\xfchlhaus\n", 3, "expected text in UTF-8, found a byte that is none");
    let start = "expected 'nodes', 'node', 'link' or 'tree' at the start of the line, found";
    assert_fault("vertices 3\n", 1, &format!("vertices 3: {start} 'vertices'"));
    assert_fault("nodes 3\n\nLink 0-1:3\n", 3, &format!("Link 0-1:3: {start} 'Link'"));
    assert_fault("nodes 3\nlink0-1:3\n", 2, &format!("link0-1:3: {start} 'link0-1:3'"));
    assert_fault("nodes 3\n\x1b[2J\t7\n", 2, &format!("\u{fffd}[2J 7: {start} '\u{fffd}[2J'"));
    let long = "x".repeat(70);
    assert_fault(&long, 1, &format!("{0}...: {start} '{0}...'", "x".repeat(60)));
}

#[test]
fn records_out_of_order_are_a_fault() {
    let first = "expected 'nodes' and the node count before the first name, link and tree";
    assert_fault("# a\nlink 0-1:1\nnodes 2\n", 2, &format!("link 0-1:1: {first}"));
    assert_fault("tree share 1 links\n", 1, &format!("tree share 1 links: {first}"));
    let second = "expected one line 'nodes' only, and line 2 is one";
    assert_fault("\nnodes 2\nlink 0-1:1\nnodes 3\n", 4, &format!("nodes 3: {second}"));
    let late = "expected all links before the first tree, and line 3 is a tree";
    let text = "nodes 3\nlink 0-1:1\ntree share 1 links 0\ntree share 2 links 0\nlink 1-2:1\n";
    assert_fault(text, 5, &format!("link 1-2:1: {late}"));
}

#[test]
fn a_wrong_node_count_is_a_fault() {
    assert_fault("nodes # how many?", 1, "nodes: expected a node count behind 'nodes'");
    assert_fault("nodes -3", 1, "nodes -3: expected a node count behind 'nodes', found '-3'");
    let large = "expected a node count behind 'nodes' that is at most 256, found '65536'";
    assert_fault("nodes 65536", 1, &format!("nodes 65536: {large}"));
    assert_fault("nodes 3 4", 1, "nodes 3 4: expected nothing more behind the node count, found '4'");
}

#[test]
fn a_wrong_link_is_a_fault() {
    let faults = [
        ("link", "expected a node number behind 'link'"),
        ("link a-1:1", "expected a node number behind 'link', found 'a-1:1'"),
        ("link 3", "expected a '-' behind the first node number"),
        ("link 0x1-2:1", "expected a '-' behind the first node number, found 'x1-2:1'"),
        ("link 3-", "expected a node number behind the '-'"),
        ("link 3--1:1", "expected a node number behind the '-', found '-1:1'"),
        ("link 65536-1:1", "expected a node number behind 'link' that is at most 255, found '65536'"),
        ("link 0-65536:1", "expected a node number behind the '-' that is at most 255, found '65536'"),
        ("link 0-1", "expected a ':' behind the second node number"),
        ("link 0-1 7", "expected a ':' behind the second node number, found '7'"),
        ("link 0-1:", "expected a weight behind the ':'"),
        ("link 0-1:4294967296", "expected a weight behind the ':' that is at most 4294967295, found '4294967296'"),
        ("link 0-1:1,000", "expected 'trunk', 'name' or the end of the line behind the weight, found ',000'"),
        ("link 0-1:1.5", "expected 'trunk', 'name' or the end of the line behind the weight, found '.5'"),
        ("link 0-1:1 263", "expected 'trunk', 'name' or the end of the line behind the weight, found '263'"),
        ("link 0-1:1 trunk263", "expected 'trunk', 'name' or the end of the line behind the weight, found 'trunk263'"),
        ("link 0-1:1trunk 263", "expected a space between the weight and 'trunk'"),
        ("link 0-1:1 trunk", "expected a trunk number behind 'trunk'"),
        ("link 0-1:1 trunk -1", "expected a trunk number behind 'trunk', found '-1'"),
        ("link 0-1:1 trunk 65536", "expected a trunk number behind 'trunk' that is at most 65535, found '65536'"),
        ("link 0-1:1 trunk 1 2", "expected 'name' or the end of the line behind the trunk number, found '2'"),
        ("link 0-1:1 name", "expected a name behind 'name'"),
        ("link 0-1:1name x", "expected a space between what stands before it and 'name'"),
        ("link 0-1:1 name \"x\" y", "expected a name in quotes behind 'name', with each quote inside twice"),
        ("link 0-1:1 name \"\"", "expected a name behind 'name'"),
    ];
    for (link, expected) in faults {
        assert_fault(format!("nodes 4\n# links\n {link} # end\n"), 3, &format!("{link}: {expected}"));
    }
    let huge = "1".repeat(59);
    let expected = format!("expected a weight behind the ':' that is at most 4294967295, found '{huge}'");
    let parsed = parse(format!("nodes 2\nlink 0-1:{huge}").as_bytes());
    assert!(parsed.is_err_and(|faults| faults[0].line == 2 && faults[0].message.ends_with(&expected)));
}

#[test]
fn a_wrong_tree_is_a_fault() {
    let faults = [
        ("tree", "expected 'share' behind 'tree'"),
        ("tree links 0 1", "expected 'share' behind 'tree', found 'links'"),
        ("tree share links 0", "expected a share behind 'share', found 'links'"),
        (
            "tree share 4294967296 links 0",
            "expected a share behind 'share' that is at most 4294967295, found '4294967296'",
        ),
        ("tree share 1", "expected 'links' behind the share"),
        ("tree share 1 link 0", "expected 'links' behind the share, found 'link'"),
        ("tree share 1links 0", "expected a space between the share and 'links'"),
        ("tree share 1links", "expected a space between the share and 'links'"),
        ("tree share 1 links 0 1 2", "expected the number of a link of this file, 0 to 1, found 2"),
        ("tree share 1 links 0 1 0", "expected each link once, found link 0 twice"),
        ("tree share 1 links 0, 1", "expected a link number, found ','"),
        ("tree share 1 links 0-1", "expected a link number, found '-1'"),
        ("tree share 1 links 65536", "expected a link number that is at most 2047, found '65536'"),
    ];
    for (tree, expected) in faults {
        assert_fault(format!("nodes 3\nlink 0-1:1\nlink 1-2:1\n{tree}\n"), 4, &format!("{tree}: {expected}"));
    }
    let none = "expected the number of a link of this file, found 0, and it has no link";
    assert_fault("nodes 1\ntree share 1 links 0", 2, &format!("tree share 1 links 0: {none}"));
}

#[test]
fn more_records_than_a_sheet_counts_are_a_fault() {
    let links = format!("nodes 2\n{}", "link 0-1:1\n".repeat(65_535));
    assert_eq!(contents(&links).network.links.len(), 65_535);
    assert_fault(links + "link 1-0:1", 65_537, "link 1-0:1: expected at most 2048 links, found one more than 65535");
    let trees = format!("nodes 2\nlink 0-1:1\n{}", "tree share 1 links 0\n".repeat(255));
    assert_eq!(contents(&trees).network.trees.len(), 255);
    let expected = "tree share 1 links 0: expected at most 32 trees, found one more than 255";
    assert_fault(trees + "tree share 1 links 0", 258, expected);
}

/// The mistakes for which the monitor refuses a text: line, number and reason.
fn mistakes(text: &str) -> Vec<(usize, u32, String)> {
    parsed(text).mistakes().into_iter().map(|(line, mistake)| (line, mistake.number, mistake.why)).collect()
}

#[test]
fn a_refusal_names_the_line_and_the_numbers() {
    let links = |count| format!("nodes 2\n\n{}tree share 1 links 0\n", "link 0-1:1\n".repeat(count));
    let trees = |count| format!("nodes 2\nlink 0-1:1\n\n{}", "tree share 1 links 0\n".repeat(count));
    let path = |tree: &str| format!("nodes 3\nnode 2 hall\nlink 0-1:1\nlink 1-2:1\nlink 0-1:1\n\n{tree}\n#");
    let refusals = [
        ("\nnodes 1\n".to_string(), 2, 4, "the node count is 1, and the monitor takes 2 to 256"),
        ("nodes 257\nlink 0-1:1\n".to_string(), 1, 4, "the node count is 257, and the monitor takes 2 to 256"),
        (links(2050), 2051, 5, "the link count is 2050, and the monitor takes at most 2048"),
        (trees(0), 2, 6, "there is no tree, and the monitor needs one: `network fit` chooses trees"),
        (trees(34), 36, 6, "the tree count is 34, and the monitor takes at most 32"),
        (path("tree share 1 links 1"), 7, 14, "tree 0 names 1 of the links, and a tree of 3 nodes has 2"),
        (path("tree share 1 links 0 2"), 7, 15, "the links of tree 0 do not join hall to node 0"),
    ];
    for (text, line, number, why) in refusals {
        assert_eq!(mistakes(&text), [(line, number, why.to_string())]);
    }
}

#[test]
fn a_network_that_falls_apart_is_said_to() {
    let apart = "nodes 5\nnode 3 hall\nlink 0-1:1\nlink 1-2:1\nlink 3-4:1\nlink 3-4:1\ntree share 1 links 0 1 2 3\n\
                 tree share 1 links 0 2 3\n";
    let why = "the links of tree 0 do not join hall to node 0; the whole network falls apart: no links join hall to it";
    let members = "tree 1 names 3 of the links, and a tree of 5 nodes has 4";
    assert_eq!(mistakes(apart), [(7, 15, why.to_string()), (8, 14, members.to_string())]);
    let tree_alone = "nodes 4\nlink 0-1:1\nlink 0-1:1\nlink 0-2:1\nlink 1-3:1\ntree share 1 links 0 1 3\n";
    assert_eq!(mistakes(tree_alone), [(6, 15, "the links of tree 0 do not join node 2 to node 0".to_string())]);
}

#[test]
fn all_mistakes_of_a_network_are_named() {
    let text = "nodes 4\nlink 0-1:1\nlink 2-2:1 name x\ntree share 1 links 0\nnode 2 hall\ntree share 1 links 0 1\n";
    let expected = [
        (1, 5, "the link count is 2, and 4 nodes need at least 3"),
        (3, 10, "link 1 x has hall at both ends"),
        (4, 14, "tree 0 names 1 of the links, and a tree of 4 nodes has 3"),
        (6, 14, "tree 1 names 2 of the links, and a tree of 4 nodes has 3"),
    ];
    assert_eq!(mistakes(text), expected.map(|(line, number, why)| (line, number, why.to_string())));
    let outer = "nodes 2\nlink 0-7:1\nlink 2-0:1\nlink 0-1:1\ntree share 1 links 0\n";
    let expected = [
        (2, 10, "link 0 ends at node 7, and the nodes are 0 to 1"),
        (3, 10, "link 1 ends at node 2, and the nodes are 0 to 1"),
        (5, 15, "the links of tree 0 do not join node 1 to node 0"),
    ];
    assert_eq!(mistakes(outer), expected.map(|(line, number, why)| (line, number, why.to_string())));
}

#[test]
fn all_faults_of_a_file_are_named_by_their_lines() {
    let text = "link 1-1:1\nnodes 3\nnode 3 x\nlink 0-1\nlink 2-2:1\n\ntree share links\ntree share 1 links 0 0 9 1\nnodes 3\n\
                node 1 a\nnode 1 b\nnode 2 a\nlink 0-1:1\ntree share 1 links 0\ntree share 1 links 1 2\n";
    let faults = parse(text.as_bytes()).expect_err("faults");
    let said: Vec<(usize, &str)> = faults.iter().map(|fault| (fault.line, fault.message.as_str())).collect();
    let expected = [
        (1, "link 1-1:1: expected 'nodes' and the node count before the first name, link and tree"),
        (1, "the monitor refuses this network, number 10: link 0 has a at both ends"),
        (3, "node 3 x: expected a node number from 0 to 2, found 3"),
        (4, "link 0-1: expected a ':' behind the second node number"),
        (5, "the monitor refuses this network, number 10: link 2 has node 2 at both ends"),
        (7, "tree share links: expected a share behind 'share', found 'links'"),
        (8, "tree share 1 links 0 0 9 1: expected each link once, found link 0 twice"),
        (8, "tree share 1 links 0 0 9 1: expected the number of a link of this file, 0 to 2, found 9"),
        (9, "nodes 3: expected one line 'nodes' only, and line 2 is one"),
        (11, "node 1 b: expected one name for node 1, and line 10 has one"),
        (12, "node 2 a: expected another name, since node 1 has this one on line 10"),
        (13, "link 0-1:1: expected all links before the first tree, and line 7 is a tree"),
        (14, "the monitor refuses this network, number 14: tree 2 names 1 of the links, and a tree of 3 nodes has 2"),
    ];
    assert_eq!(said, expected);
}

#[test]
fn names_are_read_and_written() {
    let text = "nodes 4\nnode 0 core\nnode 2 Hall B, north\nnode 3 \"Switch #3\"\nlink 0-1:3 trunk 7 name old trunk\n\
                link 1-2:2 name \"\"\"first\"\" wire\"\nlink 2-3:4 name say \"hi\"\ntree share 2 links 0 1 2\n";
    let Parsed { contents, names, .. } = parsed(text);
    let expected = [Some("core"), None, Some("Hall B, north"), Some("Switch #3")];
    assert_eq!(names.nodes, expected.map(|name| name.map(str::to_string)));
    let expected = [Some("old trunk"), Some("\"first\" wire"), Some("say \"hi\"")];
    assert_eq!(names.links, expected.map(|name| name.map(str::to_string)));
    assert_eq!(contents.trunks, [7, 7, 7]);
    assert_eq!(write(&contents, &names), text);
    let loose = "nodes 4 # four\nlink 0-1:3  trunk 7 name  old   trunk # 0\nnode 3 \" Switch  #3 \" # c\nnode 2\tHall B, north#\n\
                 link 1-2:2 name \"\"\"first\"\" wire\"#\nlink 2-3:4 name say \"hi\" # \"\ntree share 2 links 0 1 2\nnode 0 core\n";
    let loose = parsed(loose);
    assert_eq!((loose.contents, loose.names), (contents, names));
}

#[test]
fn a_wrong_name_is_a_fault() {
    let faults = [
        ("node", "expected a node number behind 'node'"),
        ("node x", "expected a node number behind 'node', found 'x'"),
        ("node 65536 x", "expected a node number behind 'node' that is at most 255, found '65536'"),
        ("node 3", "expected a name behind the node number"),
        ("node 4 x", "expected a node number from 0 to 3, found 4"),
        ("node 3 \"x\" y", "expected a name in quotes behind the node number, with each quote inside twice"),
        ("node 3 \"x\"y\"", "expected a name in quotes behind the node number, with each quote inside twice"),
    ];
    for (name, expected) in faults {
        assert_fault(format!("nodes 4\n# names\n {name} # end\n"), 3, &format!("{name}: {expected}"));
    }
    let open = "node 3 \"x # end: expected a name in quotes behind the node number, with each quote inside twice";
    assert_fault("nodes 4\nnode 3 \"x # end\n", 2, open);
    let control = "node 3 a\u{fffd}b: expected a name without control characters behind the node number";
    assert_fault("nodes 4\nnode 3 a\u{7}b\n", 2, control);
}

#[test]
fn a_number_as_a_name_does_not_mean_another_node() {
    let fault = "expected a name for node 1 too, since the name of node 2 is its number";
    assert_fault("nodes 3\nnode 2 1\n", 2, fault);
    for names in
        ["node 2 1\nnode 1 x", "node 2 2", "node 2 3", "node 0 1\nnode 1 2\nnode 2 0", "node 2 99999999999999999999"]
    {
        assert!(parse(format!("nodes 3\n{names}\n").as_bytes()).is_ok(), "{names}");
    }
}

/// The first mistake is the one that the reference's reader, and so the monitor, finds.
#[test]
fn the_first_mistake_is_the_monitors() {
    let mut random = Random::new(3);
    let mut numbers = BTreeSet::new();
    for _ in 0..4000 {
        let nodes = random.pick(&[0, 1, 2, 2, 3, 3, 4]);
        let links = random.below(6);
        let most_ends = random.pick(&[nodes.max(2), nodes.max(2), nodes + 1]);
        let mut text = format!("nodes {nodes}\n");
        for _ in 0..links {
            text.push_str(&format!("link {}-{}:1\n", random.below(most_ends), random.below(most_ends)));
        }
        for _ in 0..random.pick(&[0, 1, 1, 2, 33]) {
            let mut members: Vec<usize> = (0..links).collect();
            random.shuffle(&mut members);
            members.truncate(nodes.max(1) - usize::from(!random.once_in(4)));
            let members: String = members.iter().map(|link| format!(" {link}")).collect();
            text.push_str(&format!("tree share 1 links{members}\n"));
        }
        let refusal = sheet::read(&sheet::write_contents(&contents(&text))).err();
        let first = parsed(&text).mistakes().into_iter().next().map(|(_, mistake)| (mistake.number, mistake.place));
        assert_eq!(first, refusal.map(|refusal| (refusal.number, refusal.place)), "{text}");
        numbers.insert(first.map_or(0, |(number, _)| number));
    }
    assert_eq!(numbers, BTreeSet::from([0, 4, 5, 6, 10, 14, 15]));
}

#[test]
fn random_networks_come_back() {
    let mut random = Random::new(1);
    for feature in FEATURES {
        for _ in 0..40 {
            let size = generate::random_size(&mut random, 2, every_side::MOST_NODES, feature);
            let network = generate::network(&mut random, size, feature);
            let contents = generate::contents(&mut random, network);
            let name = |random: &mut Random| (!random.once_in(3)).then(|| random_name(random));
            let mut names = Names::none(contents.network.nodes, contents.network.links.len());
            names.links.iter_mut().for_each(|link| *link = name(&mut random));
            for node in 0..names.nodes.len() {
                names.nodes[node] = name(&mut random).filter(|name| !names.nodes.contains(&Some(name.clone())));
            }
            let read = parsed(&write(&contents, &names));
            assert_eq!((read.contents, read.names), (contents, names));
        }
    }
}

/// A name of the characters that could be taken for something else.
fn random_name(random: &mut Random) -> String {
    let parts = ["a", "#", "\"", "\"\"", " ", " name ", "-", ":", "é", "trunk 5"];
    let name: String = (0..random.between(1, 6)).map(|_| random.pick(&parts)).collect();
    names::tidy(&name).unwrap_or("x".to_string())
}

/// The networks of `examples/` and their reports, by name. The lettered ones are document 01's, with the answers of request F-6. In the
/// works network halls B to E, with links of 100, 100 and 50 to the rest, are the only nodes that hang by less than 300.
const EXAMPLES: [(&str, &str); 24] = [
    ("a-triangle.net", "answer 2 5 5 0 0 - 1\nside 1\n"),
    ("b-triangle-low-share.net", "answer 1 5 3 0 0 - 1\nside 1\n"),
    ("c-ring.net", "answer 2 2 2 0 0 1 1\nside 1\n"),
    ("d-ring-no-share.net", "answer 1 2 0 0 0 1 1\nside 1\n"),
    ("e-two-links.net", "answer 2 2 2 0 0 1 1\nside 1\n"),
    ("f-hidden-cut.net", "answer 1 11 3 0 2 - 1\nside 3\n"),
    ("g-weight-0.net", "answer 2 0 0 0 0 - 1\nside 1\n"),
    ("h-share-1.net", "answer 1 4 3 0 0 - 1\nside 1\n"),
    ("h-share-2.net", "answer 2 4 4 0 0 - 1\nside 1\n"),
    ("h-share-4.net", "answer 2 4 4 0 0 - 1\nside 1\n"),
    ("h-share-5.net", "answer 1 4 0 0 0 - 1\nside 1\n"),
    ("h-two-shares.net", "answer 2 4 4 0 0 - 1\nside 1\n"),
    ("heavy-links.net", "answer 2 12500000 12500000 0 3 - 1\nside 3\n"),
    ("i-two-trees.net", "answer 1 2 0 0 0 1 1\nside 1\n"),
    ("later-survey.net", "answer 1 80 60 0 0 1 1\nside 1\n"),
    ("missing-cut.net", "answer 2 3 3 0 0 - 1\nside 1\n"),
    ("refused-04-one-node.net", "refused 4\n"),
    ("refused-05-few-links.net", "refused 5\n"),
    ("refused-06-no-tree.net", "refused 6\n"),
    ("refused-14-ring.net", "refused 14\n"),
    ("refused-15-parallel.net", "refused 15\n"),
    ("small-hall.net", "answer 2 20 20 0 3 - 2\nside 4 5\n"),
    ("trenches.net", "answer 2 9 9 0 0 1 1\nside 1\n"),
    ("works.net", "answer 2 250 250 0 3 7 18\nside 3 4 5 6 18 19 20 21 22 23 24 25 26 27 28 29 30 31\n"),
];

#[test]
fn examples_have_a_title_and_the_expected_report() {
    let folder = Path::new(env!("CARGO_MANIFEST_DIR")).join("../examples");
    for (name, lines) in EXAMPLES {
        let file = std::fs::read(folder.join(name)).expect(name);
        let parsed = parse(&file).expect(name);
        assert!(parsed.title.is_some(), "{name} has no title");
        assert_eq!(report::lines(&report::outcome(&sheet::write_contents(&parsed.contents))), lines, "{name}");
    }
    let mut names: Vec<String> = std::fs::read_dir(folder)
        .expect("the folder of the examples")
        .map(|entry| entry.expect("an example").file_name().to_string_lossy().into_owned())
        .filter(|name| name.ends_with(".net"))
        .collect();
    names.sort();
    assert_eq!(names, EXAMPLES.map(|(name, _)| name));
}

#[test]
fn the_trenches_have_their_trunk_numbers() {
    let path = Path::new(env!("CARGO_MANIFEST_DIR")).join("../examples/trenches.net");
    let parsed = parse(&std::fs::read(path).expect("the example")).expect("a text without a fault");
    let reading = sheet::read_contents(&sheet::write_contents(&parsed.contents));
    assert_eq!(report::trunk_lines(&reading), "0 12\n1 12\n2 30\n3 30\n4 0\n");
}
