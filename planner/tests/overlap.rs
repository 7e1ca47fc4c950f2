//! The command `network overlap` as a planner runs it.

mod command;
mod written;

use command::{accepted_examples, assert_needs_a_list, example, network, printed};
use planner::text;
use reference::list;
use written::{links, names, node_list, Written};

const PAGE: &str = include_str!("../../docs/REPORT.md");
const CORNERS: [&str; 4] = ["both", "first only", "second only", "neither"];
const RING: &str = "nodes 4\nlink 0-1:1\nlink 1-2:1\nlink 2-3:1\nlink 3-0:1\ntree share 1 links 0 1 2\n";

/// The nodes of two sides.
struct Sides<'a>([&'a [usize]; 2]);

impl Sides<'_> {
    fn corner(&self, node: usize) -> usize {
        match self.0.map(|side| side.contains(&node)) {
            [true, true] => 0,
            [true, false] => 1,
            [false, true] => 2,
            [false, false] => 3,
        }
    }

    /// The lines that the corners must have.
    fn corner_lines(&self, names: &[Option<&str>]) -> Vec<String> {
        let line = |corner: usize| {
            let nodes: Vec<usize> = (0..names.len()).filter(|&node| self.corner(node) == corner).collect();
            let named = if nodes.is_empty() { "empty".to_string() } else { node_list(&nodes, names) };
            format!("{:11}  {:5}  {named}", CORNERS[corner], nodes.len())
        };
        (0..4).map(line).collect()
    }

    /// The weight of the links between each two corners.
    fn weights(&self, links: &[Written]) -> Vec<Vec<u64>> {
        let between = |row: usize, column: usize| {
            let corners = |link: &Written| link.ends.map(|end| self.corner(end));
            let joins = |link: &&Written| row != column && [[row, column], [column, row]].contains(&corners(link));
            links.iter().filter(joins).map(|link| link.weight).sum()
        };
        (0..4).map(|row| (0..4).map(|column| between(row, column)).collect()).collect()
    }
}

/// The numbers of a table whose lines are all as long, and whose rows and columns have the corners' names.
#[track_caller]
fn numbers(table: &[&str]) -> Vec<Vec<u64>> {
    assert!(table.iter().all(|line| line.len() == table[0].len()), "{table:?}");
    let titles = table[0].split("  ").map(str::trim).filter(|title| !title.is_empty());
    assert!(titles.eq(["Weights"].into_iter().chain(CORNERS)), "{table:?}");
    let row = |(line, name): (&&str, &str)| {
        let (title, cells) = line.split_at(11);
        assert_eq!(title.trim_end(), name);
        cells.split_whitespace().map(|cell| cell.parse().expect(cell)).collect()
    };
    table[1..].iter().zip(CORNERS).map(row).collect()
}

/// The list of a network, its weight, and what its report promises of all cuts.
fn listed(file: &str) -> (Vec<String>, String, String) {
    let listed = printed(&["list", file], "");
    let (_, weight) = listed.split_once(" of weight ").expect("a weight");
    let (weight, _) = weight.split_once('.').expect("a weight");
    let report = printed(&["report", file], "");
    let cut = report.lines().nth(3).expect("the cut");
    let (_, promise) = cut.split_once(" name it. ").or_else(|| cut.split_once(" names it. ")).expect(cut);
    (listed.lines().skip(1).map(str::to_string).collect(), weight.to_string(), promise.to_string())
}

#[test]
fn every_two_cuts_of_the_examples_have_their_corners_and_weights() {
    let mut compared = 0;
    for file in accepted_examples() {
        let text = std::fs::read_to_string(&file).expect("text");
        let sound = text::parse(text.as_bytes()).expect("a network").contents.network;
        let sides: Vec<Vec<usize>> = list::by_candidates(&sound).sides.iter().map(list::nodes).collect();
        let ((cuts, weight, promise), names, links) = (listed(&file), names(&text, sound.nodes), links(&text));
        for (first, one) in (1..).zip(&sides) {
            for (second, other) in (1..).zip(&sides).filter(|(second, _)| *second != first) {
                let printed = printed(&["overlap", &file, &first.to_string(), &second.to_string()], "");
                let (lines, sides) = (printed.lines().collect::<Vec<_>>(), Sides([one, other]));
                let numbered = format!("The first cut is number {first} of the list, the second number {second}.");
                assert_eq!(lines[0], format!("{numbered} Each weighs {weight}. {promise}"));
                assert_eq!(lines[1..5], [&cuts[first - 1], &cuts[second - 1], "", "Corner       Nodes"]);
                assert_eq!(lines[5..9], sides.corner_lines(&names));
                assert_eq!(numbers(&lines[10..15]), sides.weights(&links), "{file}");
                assert_eq!([lines[9], lines[15]], ["", ""]);
                compared += 1;
            }
        }
    }
    assert!(compared > 150, "{compared}");
}

/// What the command prints below the table.
fn sentences(printed: &str) -> Vec<&str> {
    printed.lines().skip(16).collect()
}

#[test]
fn cuts_overlap() {
    let expected = [
        "The cuts overlap: no corner is empty.",
        "A new cable crosses both cuts if it joins a node in both to one in neither, or a node in the first only to one in the second \
         only.",
        "A new cable crosses just the first cut, number 4, if it joins a node in both to one in the second only, or a node in the first \
         only to one in neither.",
        "A new cable crosses just the second cut, number 5, if it joins a node in both to one in the first only, or a node in the \
         second only to one in neither.",
        "A new cable between two nodes of one corner crosses neither cut.",
        "No cut of the whole network weighs less and no corner is empty, so each corner is a cut of weight 2 too, and no link that \
         weighs anything joins opposite corners yet: both and neither, or first only and second only. A new cable ends in two corners \
         at most and leaves the others at weight 2, so no single cable makes the weakest cut of the whole network heavier.",
    ];
    assert_eq!(sentences(&printed(&["overlap", "-", "4", "5"], RING)), expected);
    // a link that weighs nothing between opposite corners alters nothing of that
    let bridged = RING.replace("tree", "link 0-2:0\ntree");
    assert_eq!(sentences(&printed(&["overlap", "-", "4", "5"], &bridged)), expected);
    // without a share it is not known that no cut is lighter
    let unknown = RING.replace("share 1", "share 0");
    assert_eq!(sentences(&printed(&["overlap", "-", "4", "5"], &unknown)), expected[..5]);
}

#[test]
fn a_cut_severs_all_that_another_does() {
    let expected = [
        "The second cut severs all that the first does and more: no node is in the first only.",
        "A new cable crosses both cuts if it joins a node in both to one in neither.",
        "A new cable crosses just the first cut, number 1, if it joins a node in both to one in the second only.",
        "A new cable crosses just the second cut, number 4, if it joins a node in the second only to one in neither.",
        "A new cable between two nodes of one corner crosses neither cut.",
    ];
    assert_eq!(sentences(&printed(&["overlap", "-", "1", "4"], RING)), expected);
    let expected = [
        "The first cut severs all that the second does and more: no node is in the second only.",
        "A new cable crosses both cuts if it joins a node in both to one in neither.",
        "A new cable crosses just the first cut, number 4, if it joins a node in the first only to one in neither.",
        "A new cable crosses just the second cut, number 1, if it joins a node in both to one in the first only.",
        "A new cable between two nodes of one corner crosses neither cut.",
    ];
    assert_eq!(sentences(&printed(&["overlap", "-", "4", "1"], RING)), expected);
}

/// Nodes 1 and 2 hang by three heavy links each.
#[test]
fn cuts_are_apart_and_heavy() {
    let links = |node: usize| format!("link 0-{node}:4294967295\n").repeat(3);
    let text = format!("nodes 3\nnode 2 store\n{}{}tree share 4294967295 links 0 3\n", links(1), links(2));
    let heavy = "4294967295";
    let expected = format!(
        "The first cut is number 2 of the list, the second number 1. Each weighs 12884901885. No cut of the whole network weighs less.\n\
         2. store; links 3 (node 0 to store:{heavy}), 4 (node 0 to store:{heavy}) and 5 (node 0 to store:{heavy})\n\
         1. node 1; links 0 (0-1:{heavy}), 1 (0-1:{heavy}) and 2 (0-1:{heavy})\n\
         \n\
         Corner       Nodes\n\
         both             0  empty\n\
         first only       1  store\n\
         second only      1  node 1\n\
         neither          1  node 0\n\
         \n\
         Weights      both   first only  second only      neither\n\
         both            0            0            0            0\n\
         first only      0            0            0  12884901885\n\
         second only     0            0            0  12884901885\n\
         neither         0  12884901885  12884901885            0\n\
         \n\
         The cuts are apart: no node is in both.\n\
         A new cable crosses both cuts if it joins a node in the first only to one in the second only.\n\
         A new cable crosses just the first cut, number 2, if it joins a node in the first only to one in neither.\n\
         A new cable crosses just the second cut, number 1, if it joins a node in the second only to one in neither.\n\
         A new cable between two nodes of one corner crosses neither cut.\n"
    );
    assert_eq!(printed(&["overlap", "-", "2", "1"], &text), expected);
}

#[test]
fn names_that_could_mislead_are_quoted() {
    let names = "nodes 4\nnode 0 core\nnode 1 hall B, north\nnode 2 12\nnode 3 up and down\n";
    let printed = printed(&["overlap", "-", "4", "5"], &RING.replace("nodes 4\n", names));
    let lines: Vec<&str> = printed.lines().collect();
    assert_eq!(
        lines[1],
        "4. \"hall B, north\" and \"12\"; links 0 (core to \"hall B, north\":1) and 2 (\"12\" to \"up and down\":1)"
    );
    let expected = [
        "both             1  \"12\"",
        "first only       1  \"hall B, north\"",
        "second only      1  \"up and down\"",
        "neither          1  core",
    ];
    assert_eq!(lines[5..9], expected);
}

#[test]
fn an_overlap_as_json_is_a_line() {
    let json = printed(&["overlap", "--json", "-", "4", "5"], RING);
    let start = r#"{"file": "standard input", "title": null, "weight": 2, "none_lighter": true, "first_cut": {"number": 4, "severed": [{"node": 1, "name": null}, {"node": 2, "name": null}], "crossing": [{"link": 0, "#;
    assert!(json.starts_with(start), "{json}");
    let table =
        r#""table": [[0, 1, 1, 0], [1, 0, 0, 1], [1, 0, 0, 1], [0, 1, 1, 0]], "sentences": ["The cuts overlap: "#;
    assert!(json.contains(table), "{json}");
    assert_eq!((json.matches('\n').count(), json.ends_with("heavier.\"]}\n")), (1, true), "{json}");
    let unknown = printed(&["overlap", "--json", "-", "4", "5"], &RING.replace("share 1", "share 0"));
    assert!(
        unknown.contains(r#""none_lighter": false, "#) && unknown.ends_with("crosses neither cut.\"]}\n"),
        "{unknown}"
    );
}

/// Arguments are looked at before the file is read.
#[test]
fn numbers_that_are_none_of_a_cut_are_errors() {
    let ring = example("c-ring.net");
    let error = |file: &str, first: &str, second: &str| {
        let (status, printed, errors) = network(&["overlap", file, first, second], b"");
        assert_eq!((status, printed.len()), (Some(1), 0), "{first} {second}");
        errors
    };
    for word in ["x", "", "0", "00", "1.5", "+1", "1 ", "-", "node 1", "99999999999999999999999"] {
        let expected = format!("expected the number of a cut, as `network list` prints it, found '{word}'\n");
        assert_eq!(error("missing.net", word, "2"), expected);
        assert_eq!(error("missing.net", "2", word), expected);
    }
    for same in ["2", "02"] {
        assert_eq!(error("missing.net", "2", same), "expected two different cuts, found cut 2 twice\n");
    }
    assert!(error("missing.net", "1", "2").starts_with("missing.net: "));
    assert_eq!(error(&ring, "7", "1"), format!("{ring}: there is no cut 7: the list has 6 cuts\n"));
    assert_eq!(error(&ring, "6", "1000000"), format!("{ring}: there is no cut 1000000: the list has 6 cuts\n"));
    let works = example("works.net");
    assert_eq!(error(&works, "1", "2"), format!("{works}: there is no cut 2: the list has 1 cut\n"));
    assert!(!printed(&["overlap", &ring, "6", "1"], "").is_empty());
}

#[test]
fn a_network_without_a_list_has_no_overlap() {
    assert_needs_a_list("overlap", ["1", "2"]);
}

/// docs/REPORT.md shows all that is printed for two cuts of the ring, and the corners of two others.
#[test]
fn the_page_shows_what_is_printed() {
    let ring = example("c-ring.net");
    let (overlapping, inside) =
        (printed(&["overlap", &ring, "4", "5"], ""), printed(&["overlap", &ring, "1", "4"], ""));
    let corners: Vec<&str> = inside.lines().skip(4).take(5).collect();
    for shown in [overlapping.trim_end(), &corners.join("\n")] {
        let indented = format!("    {}\n", shown.replace('\n', "\n    ")).replace("\n    \n", "\n\n");
        assert!(PAGE.contains(&format!("\n\n{indented}\n")), "{indented}");
    }
}
