//! The command `network list` as a planner runs it.

mod command;
mod written;

use command::{example, network};
use planner::text;
use reference::cuts::{self, Counting};
use reference::network::Network;
use reference::report::Side;
use reference::{every_side, list};
use std::cmp::Ordering;
use written::{crossing, links, names, node_list, Written};

fn list_of(file: &str) -> (Option<i32>, String, String) {
    let (status, printed, errors) = network(&["list", file], b"");
    (status, String::from_utf8(printed).expect("text"), errors)
}

/// The line of a list that a side of these nodes must have, and the weight of its links.
fn line(place: usize, nodes: &[usize], links: &[Written], names: &[Option<&str>]) -> (String, u64) {
    let (crossing, weight) = crossing(nodes, links, names);
    (format!("{place}. {}; {crossing}", node_list(nodes, names)), weight)
}

/// What the first line of a list must have behind number and weight. Small networks are looked at by every side.
fn others(network: &Network, sides: &[Side], weight: u64) -> &'static str {
    let shares = match network.nodes <= every_side::MOST_NODES {
        true => every_side::check_list(network, sides).expect("a list that keeps its promise").shares,
        false => cuts::three_shares(cuts::counted(Counting::LongestRun, network)).cmp(&weight),
    };
    match shares {
        Ordering::Greater => "The list is complete: ",
        Ordering::Equal => "No cut of the whole network weighs less. Others that no tree shows may weigh ",
        Ordering::Less => "No cut that the listed trees show is lighter, and all of theirs of this weight are listed",
    }
}

#[test]
fn every_example_has_its_cuts_with_the_links_that_cross_them() {
    let mut listed = 0;
    for entry in std::fs::read_dir(example("")).expect("examples") {
        let file = entry.expect("a file").path().to_string_lossy().into_owned();
        if !file.ends_with(".net") {
            continue;
        }
        if file.contains("/refused-") {
            let (status, printed, errors) = list_of(&file);
            assert_eq!((status, printed.as_str()), (Some(3), ""), "{errors}");
            assert!(errors.contains(": the monitor refuses this network, number "), "{errors}");
            continue;
        }
        let text = std::fs::read_to_string(&file).expect("text");
        let sound = text::parse(text.as_bytes()).expect("a network").contents.network;
        let list = match sound.nodes <= every_side::MOST_NODES {
            true => list::by_every_side(&sound),
            false => list::by_candidates(&sound),
        };
        let (status, printed, errors) = list_of(&file);
        assert_eq!((status, errors), (Some(0), String::new()), "{file}");
        let (head, lines) = printed.split_once('\n').expect("a first line");
        assert_eq!(lines.lines().count(), list.sides.len(), "{file}");
        let (links, names) = (links(&text), names(&text, sound.nodes));
        for (place, (said, side)) in (1..).zip(lines.lines().zip(&list.sides)) {
            let (expected, weight) = line(place, &list::nodes(side), &links, &names);
            assert_eq!(said, expected, "{file}");
            let count = list.sides.len();
            let start = format!("{count} cut{} of weight {weight}. ", if count == 1 { "" } else { "s" });
            let rest = head.strip_prefix(&start).unwrap_or_else(|| panic!("{file}: {head}"));
            assert!(rest.starts_with(others(&sound, &list.sides, weight)), "{file}: {head}");
        }
        listed += 1;
    }
    assert!(listed >= 19);
}

#[test]
fn a_ring_of_four_has_six_sides() {
    let expected =
        "6 cuts of weight 2. The list is complete: no other cut of the whole network weighs 2, and none weighs less.\n\
                    1. node 1; links 0 (0-1:1) and 1 (1-2:1)\n\
                    2. node 2; links 1 (1-2:1) and 2 (2-3:1)\n\
                    3. node 3; links 2 (2-3:1) and 3 (3-0:1)\n\
                    4. nodes 1 and 2; links 0 (0-1:1) and 2 (2-3:1)\n\
                    5. nodes 2 and 3; links 1 (1-2:1) and 3 (3-0:1)\n\
                    6. nodes 1, 2 and 3; links 0 (0-1:1) and 3 (3-0:1)\n";
    assert_eq!(list_of(&example("c-ring.net")), (Some(0), expected.to_string(), String::new()));
    let ring = std::fs::read(example("c-ring.net")).expect("text");
    assert_eq!(network(&["list"], &ring), (Some(0), expected.as_bytes().to_vec(), String::new()));
}

/// The side of switches 1, 2 and 3 weighs 3 too, and the star around node 0 does not show it.
#[test]
fn a_side_of_the_same_weight_may_be_missing() {
    let expected = "3 cuts of weight 3. No cut of the whole network weighs less. Others that no tree shows may weigh 3 too, since \
                    three times the shares that count is 3 and not more.\n\
                    1. node 1; links 0 (0-1:1), 3 (1-2:1) and 4 (1-3:1)\n\
                    2. node 2; links 1 (0-2:1), 3 (1-2:1) and 5 (2-3:1)\n\
                    3. node 3; links 2 (0-3:1), 4 (1-3:1) and 5 (2-3:1)\n";
    assert_eq!(list_of(&example("missing-cut.net")), (Some(0), expected.to_string(), String::new()));
}

#[test]
fn a_lighter_cut_may_be_hidden() {
    let expected = "2 cuts of weight 11. No cut that the listed trees show is lighter, and all of theirs of this weight are listed; \
                    the whole network may hold others as light or lighter, but none that weighs less than 3.\n\
                    1. node 3; links 2 (2-3:1) and 4 (1-3:10)\n\
                    2. nodes 1, 2 and 3; links 0 (0-1:1) and 3 (0-2:10)\n";
    assert_eq!(list_of(&example("f-hidden-cut.net")), (Some(0), expected.to_string(), String::new()));
}

#[test]
fn the_radio_bridge_of_the_works_is_named() {
    let (_, printed, _) = list_of(&example("works.net"));
    let complete = "The list is complete: no other cut of the whole network weighs 250, and none weighs less.";
    let start = format!("1 cut of weight 250. {complete}\n1. hall B, hall C, hall D, hall E, welding line 1, ");
    assert!(printed.starts_with(&start), "{printed}");
    let links =
        "; links 3 (hall A to hall B:100), 7 (hall E to store:100) and 10 radio bridge (office block to hall D:50)\n";
    assert!(printed.ends_with(links), "{printed}");
}

#[test]
fn a_list_as_json_has_each_cut() {
    let (status, printed, errors) = network(&["list", "--json"], b"nodes 2\nlink 0-1:4\ntree share 2 links 0\n");
    assert_eq!((status, errors.as_str()), (Some(0), ""));
    let expected = r#"{"file": "standard input", "title": null, "weight": 4, "none_lighter": true, "list_complete": true, "cuts": [{"severed": [{"node": 1, "name": null}], "crossing": [{"link": 0, "name": null, "first": {"node": 0, "name": null}, "second": {"node": 1, "name": null}, "weight": 4}]}]}"#;
    assert_eq!(String::from_utf8(printed).expect("text"), format!("{expected}\n"));
}
