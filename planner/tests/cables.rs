//! From a cable list to a report, as a planner goes: `import`, `fit`, `append` and `export`.

mod command;

use command::{example, network, printed};
use planner::text;
use reference::network::Network;
use reference::sheet;

fn read(text: &str) -> Network {
    text::parse(text.as_bytes()).expect("a network").contents.network
}

const CABLES: &str =
    "from,to,capacity,name\nhall-A,core,1000,\ncore,\"hall B, north\",100,\nhall-A,\"hall B, north\",50,radio\n";
const IMPORTED: &str = "nodes 3\nnode 0 core\nnode 1 hall-A\nnode 2 hall B, north\nlink 1-0:1000\nlink 0-2:100\n\
                        link 1-2:50 name radio\n";

#[test]
fn a_cable_list_becomes_a_text_and_a_cable_list_again() {
    assert_eq!(printed(&["import", "--core", "core"], CABLES), IMPORTED);
    assert_eq!(printed(&["import", "--core= core ", "-"], CABLES), IMPORTED);
    assert_eq!(printed(&["export"], IMPORTED), CABLES);
    let first = printed(&["import"], CABLES);
    assert!(first.starts_with("nodes 3\nnode 0 hall-A\nnode 1 core\n"), "{first}");
}

#[test]
fn a_core_that_no_cable_ends_at_is_an_error() {
    let message = "standard input: no cable ends at the core switch 'hall-B'\n";
    assert_eq!(network(&["import", "--core", "hall-B"], CABLES.as_bytes()), (Some(1), vec![], message.to_string()));
}

#[test]
fn a_cable_list_of_60_switches_gets_trees_and_a_certified_report() {
    let text = printed(&["import", &example("plant.csv")], "");
    assert_eq!(text.lines().next(), Some(&*format!("# {}", example("plant.csv"))));
    let fitted = printed(&["fit"], &text);
    assert!(fitted.starts_with(&text));
    let with_trees = read(&fitted);
    assert_eq!((with_trees.nodes, &with_trees.links), (60, &read(&text).links));
    assert_eq!(sheet::read(&sheet::write(&with_trees)).as_ref(), Ok(&with_trees));
    let report = printed(&["report"], &fitted);
    assert!(report.contains("\nanswer 2 1500 1500 "), "{report}");
    assert!(report.contains("\nOne other cut of the whole network weighs 1500 too, and no more do.\n"), "{report}");
    let exported = printed(&["export"], &fitted);
    assert_eq!(exported, std::fs::read_to_string(example("plant.csv")).expect("the list"));
}

#[test]
fn fitting_keeps_all_lines_but_the_trees() {
    let text =
        "# Works\nnodes 2 # two\n\nlink 0-1:4 trunk 5 name x # old\n# trees\ntree share 1 links 0 # by hand\n# end";
    let expected = "# Works\nnodes 2 # two\n\nlink 0-1:4 trunk 5 name x # old\n# trees\n# end\ntree share 4 links 0\n";
    assert_eq!(printed(&["fit"], text), expected);
    assert_eq!(printed(&["fit"], expected), expected);
}

/// As they are after a link was taken out of the text: one tree names a link that is no more, the other has one too many.
#[test]
fn trees_that_are_wrong_do_not_keep_a_network_from_being_fitted_and_exported() {
    let links = "nodes 3\nlink 0-1:2\nlink 1-2:2\n";
    let trees = "tree share 1 links 0 2\ntree share x\ntree share 9 links 0 1 1\n";
    let fitted = format!("{links}tree share 2 links 0 1\n");
    assert_eq!(printed(&["fit"], &format!("{links}{trees}")), fitted);
    assert_eq!(printed(&["fit"], &format!("{links}{}", "tree share 1 links 0\n".repeat(300))), fitted);
    assert_eq!(printed(&["export"], &format!("{links}{trees}")), "from,to,capacity\n0,1,2\n1,2,2\n");
    let (status, printed, errors) = network(&["fit"], format!("{links}{trees}link 0-2:1\n").as_bytes());
    let late = "standard input:7: link 0-2:1: expected all links before the first tree, and line 4 is a tree\n";
    assert_eq!((status, printed.len(), errors.as_str()), (Some(1), 0, late));
}

#[test]
fn a_network_that_falls_apart_cannot_be_fitted() {
    let cables = "from,to,capacity\ncore,a,1\nb,c,1\n";
    let text = printed(&["import"], cables);
    let message = "standard input: the network falls apart: no links join b to core, so no tree fits\n";
    assert_eq!(network(&["fit"], text.as_bytes()), (Some(3), vec![], message.to_string()));
    let alone = b"nodes 4\nlink 0-1:1\nlink 1-3:1\n";
    let message = "standard input: the network falls apart: no links join node 2 to node 0, so no tree fits\n";
    assert_eq!(network(&["fit"], alone), (Some(3), vec![], message.to_string()));
}

#[test]
fn links_that_the_monitor_refuses_cannot_be_fitted() {
    let ends = b"nodes 2\nlink 0-1:1\nlink 1-1:1\n";
    let message = "standard input:3: the monitor refuses this network, number 10: link 1 has node 1 at both ends\n";
    for subcommand in ["fit", "export"] {
        assert_eq!(network(&[subcommand], ends), (Some(3), vec![], message.to_string()));
    }
    let nodes = b"nodes 257\nlink 0-1:1\n";
    let message = "standard input:1: the monitor refuses this network, number 4: the node count is 257, and the monitor takes 2 to \
                   256\n";
    assert_eq!(network(&["fit"], nodes), (Some(3), vec![], message.to_string()));
    let links = format!("nodes 2\n{}", "link 0-1:1\n".repeat(2049));
    let message = "standard input:2050: the monitor refuses this network, number 5: the link count is 2049, and the monitor takes at \
                   most 2048\n";
    for subcommand in ["fit", "export"] {
        assert_eq!(network(&[subcommand], links.as_bytes()), (Some(3), vec![], message.to_string()));
    }
}

#[test]
fn an_appended_cable_leaves_the_trees_right() {
    let text = printed(&["fit"], IMPORTED);
    let longer = printed(&["append", "-", "hall B, north", "core", "70", "second wire"], &text);
    let line = "link 2-0:70 name second wire\n";
    assert_eq!(longer.replace(line, ""), text);
    let before = longer.split_once(line).map(|(before, _)| before.lines().last().expect("a line").to_string());
    assert_eq!(before.as_deref(), Some("link 1-2:50 name radio"));
    assert_eq!(read(&longer).trees, read(&text).trees);
    assert!(printed(&["report"], &longer).contains("It crosses links 1 (core to \"hall B, north\":100), 2 radio ("));
    let bare = "# two\nnodes 2\n# none\n";
    assert_eq!(printed(&["append", "-", "0", "1", "5"], bare), "# two\nnodes 2\nlink 0-1:5\n# none\n");
    let trunks = "nodes 2\nlink 0-1:1 trunk 7\ntree share 1 links 0\n";
    let expected = "nodes 2\nlink 0-1:1 trunk 7\nlink 1-0:5 trunk 0\ntree share 1 links 0\n";
    assert_eq!(printed(&["append", "-", "1", "0", "5"], trunks), expected);
}

#[test]
fn a_cable_that_cannot_be_appended_is_an_error() {
    let full = format!("nodes 2\n{}", "link 0-1:1\n".repeat(2048));
    let cases: [(&str, &[&str], &str); 7] = [
        (IMPORTED, &["hall-C", "core", "1"], "standard input: there is no node 'hall-C'\n"),
        (IMPORTED, &["hall-A", "3", "1"], "standard input: there is no node '3'\n"),
        (IMPORTED, &["hall-A", "1", "1"], "standard input: a cable cannot have hall-A at both ends\n"),
        (IMPORTED, &["0", "1", "many"], "expected a capacity in digits that is at most 4294967295, found 'many'\n"),
        (
            IMPORTED,
            &["0", "1", "4294967296"],
            "expected a capacity in digits that is at most 4294967295, found '4294967296'\n",
        ),
        (IMPORTED, &["0", "1", "1", " "], "expected a name of the cable\n"),
        (&full, &["0", "1", "1"], "standard input: the network has 2048 links, and the monitor takes no more\n"),
    ];
    for (text, operands, message) in cases {
        let arguments = [&["append", "-"], operands].concat();
        assert_eq!(network(&arguments, text.as_bytes()), (Some(1), vec![], message.to_string()));
    }
}

#[test]
fn a_node_without_a_cable_cannot_be_exported() {
    let message = "standard input: no link ends at hall, and a cable list has no place for it\n";
    let text = b"nodes 3\nnode 1 hall\nlink 0-2:1\n";
    assert_eq!(network(&["export"], text), (Some(1), vec![], message.to_string()));
}
