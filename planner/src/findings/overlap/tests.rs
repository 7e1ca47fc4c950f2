use super::*;
use crate::findings::tests::{answer, bytes, cables, least_with, parse, parsed, reference_findings, RING};
use crate::fit;
use crate::text::Parsed;
use reference::cuts;
use reference::every_side;
use reference::generate::{self, FEATURES};
use reference::list;
use reference::network::{Link, Network};
use reference::random::Random;

/// The places of nodes in the order of the table, and what a sentence calls them: in the first side or not, in the second or not.
const PLACES: [([bool; 2], &str); 4] = [
    ([true, true], "in both"),
    ([true, false], "in the first only"),
    ([false, true], "in the second only"),
    ([false, false], "in neither"),
];

/// The nodes of two cuts of a list.
struct Sides([Vec<usize>; 2]);

impl Sides {
    fn of(findings: &Findings, numbers: [usize; 2]) -> Sides {
        Sides(numbers.map(|number| list::nodes(&findings.sides[number - 1])))
    }

    fn place(&self, node: usize) -> [bool; 2] {
        self.0.each_ref().map(|side| side.contains(&node))
    }

    fn corner(&self, node: usize) -> usize {
        PLACES.iter().position(|(place, _)| *place == self.place(node)).expect("one of four")
    }
}

/// The weights between the corners, counted by every two nodes and the links that join them.
fn counted(network: &Network, sides: &Sides) -> Table {
    let mut table = Table::default();
    for (one, other) in cables(network.nodes) {
        let joins = |link: &&Link| [(one, other), (other, one)].contains(&(link.first, link.second));
        let weight: u64 = network.links.iter().filter(joins).map(|link| link.weight).sum();
        let (row, column) = (sides.corner(one), sides.corner(other));
        if row != column {
            table[row][column] += weight;
            table[column][row] += weight;
        }
    }
    table
}

/// Between which places the cables run that one of the sentences, with this start, is about.
#[track_caller]
fn ways(sentences: &[String], start: &str) -> Vec<[[bool; 2]; 2]> {
    let starting: Vec<&str> = sentences.iter().filter_map(|sentence| sentence.strip_prefix(start)).collect();
    let [ways] = starting[..] else { panic!("not one that starts with {start}: {sentences:?}") };
    let place = |words: &str| PLACES.iter().find(|(_, place)| *place == words).expect(words).0;
    let way = |way: &str| {
        let (one, other) = way.strip_prefix("a node ").and_then(|way| way.split_once(" to one ")).expect(way);
        [place(one), place(other)]
    };
    ways.strip_suffix('.').expect(ways).split(", or ").map(way).collect()
}

/// Each cable that the network could have crosses those of the two cuts that the sentences say; and there is a cable for each way that
/// they name, and a way to cross both cuts and each of them alone.
#[track_caller]
fn assert_cables(overlap: &Overlap) {
    let (nodes, sides) = (overlap.findings.network().nodes, Sides::of(overlap.findings, overlap.numbers));
    let ([first, second], sentences) = (overlap.numbers, overlap.sentences());
    let ways = [
        ([true, true], "A new cable crosses both cuts if it joins ".to_string()),
        ([true, false], format!("A new cable crosses just the first cut, number {first}, if it joins ")),
        ([false, true], format!("A new cable crosses just the second cut, number {second}, if it joins ")),
    ]
    .map(|(crossed, start)| (crossed, ways(&sentences, &start)));
    for (one, other) in cables(nodes) {
        let crossed = sides.0.each_ref().map(|side| side.contains(&one) != side.contains(&other));
        let ends = [sides.place(one), sides.place(other)];
        let joins = |way: &&[[bool; 2]; 2]| **way == ends || **way == [ends[1], ends[0]];
        for (said, ways) in &ways {
            assert_eq!(
                ways.iter().filter(joins).count(),
                usize::from(*said == crossed),
                "{one}-{other}: {sentences:?}"
            );
        }
        assert_eq!(ends[0] == ends[1], crossed == [false, false]);
    }
    assert_eq!(sentences[4], "A new cable between two nodes of one corner crosses neither cut.");
    let is_there = |place: &[bool; 2]| (0..nodes).any(|node| sides.place(node) == *place);
    assert!(ways.iter().all(|(_, ways)| !ways.is_empty() && ways.iter().flatten().all(is_there)), "{sentences:?}");
}

/// Five nodes without weights, and all their sides.
fn without_weights() -> (Parsed, Vec<Vec<usize>>) {
    let links: String = (1..5).map(|node| format!("link 0-{node}:0\n")).collect();
    let nodes_of = |side: usize| (1..5).filter(|node| side >> node & 1 == 1).collect();
    (parse(&format!("nodes 5\n{links}tree share 0 links 0 1 2 3")), (2..32).step_by(2).map(nodes_of).collect())
}

/// Of two different sides one corner at most is empty, since node 0 is in neither and no side is empty. If none is in both, a cable may
/// run from the first to the second; else it may run from a node in both to one in neither.
#[test]
fn of_every_two_sides_each_cable_crosses_what_is_said() {
    let (parsed, sides) = without_weights();
    let listed: Vec<&[usize]> = sides.iter().map(Vec::as_slice).collect();
    let findings = Findings::new(&parsed, answer(2, 0, 0, (0, 0, None), &[1]), bytes(&listed)).expect("an answer");
    let mut cases = [0; 4];
    for (first, one) in (1..).zip(&sides) {
        for (second, other) in (1..).zip(&sides).filter(|(second, _)| *second != first) {
            let overlap = Overlap::new(&findings, [first, second], Table::default()).expect("a table without weights");
            assert_cables(&overlap);
            let in_other = one.iter().filter(|node| other.contains(node)).count();
            let (case, said) = match in_other {
                0 => (0, "The cuts are apart: no node is in both."),
                all if all == one.len() => {
                    (1, "The second cut severs all that the first does and more: no node is in the first only.")
                }
                all if all == other.len() => {
                    (2, "The first cut severs all that the second does and more: no node is in the second only.")
                }
                _ => (3, "The cuts overlap: no corner is empty."),
            };
            assert_eq!(overlap.sentences()[0], said);
            assert_eq!(overlap.sentences().len(), if case == 3 { 6 } else { 5 });
            cases[case] += 1;
        }
    }
    assert_eq!(cases, [50, 50, 50, 60]);
}

/// Nodes 1 and 2, and nodes 2 and 3, weigh 15 each, and no two corners have the same weight between them.
fn six_weights() -> Parsed {
    parse("nodes 4\nlink 0-1:6\nlink 1-2:1\nlink 2-3:2\nlink 0-2:3\nlink 1-3:4\nlink 3-0:7\ntree share 0 links 0 1 2")
}

const SIX_WEIGHTS: Table = [[0, 1, 2, 3], [1, 0, 4, 6], [2, 4, 0, 7], [3, 6, 7, 0]];

/// What contradicts this table for the two sides of that weight.
fn contradicts(table: Table) -> Option<&'static str> {
    let parsed = six_weights();
    let sides = bytes(&[&[1, 2], &[2, 3]]);
    let findings = Findings::new(&parsed, answer(1, 15, 0, (0, 0, Some(2)), &[1, 2]), sides).expect("an answer");
    Overlap::new(&findings, [1, 2], table).err()
}

/// The table with these entries and their mirrors changed by so much.
fn changed(changes: &[(usize, usize, i64)]) -> Table {
    let mut table = SIX_WEIGHTS;
    for &(row, column, change) in changes {
        table[row][column] = table[row][column].wrapping_add_signed(change);
        table[column][row] = table[row][column];
    }
    table
}

#[test]
fn a_table_that_does_not_fit_the_network_is_an_error() {
    assert_eq!(contradicts(SIX_WEIGHTS), None);
    for (row, column) in pairs() {
        let mut table = SIX_WEIGHTS;
        table[row][column] += 1;
        let expected = match row == column {
            true => "the table of the corners has a weight on its diagonal",
            false => "an entry of the table of the corners differs from its mirror",
        };
        assert_eq!(contradicts(table), Some(expected), "{row} {column}");
    }
    let weight = Some("the entries of the table of the corners do not add up to the weight of each cut");
    for (row, column) in pairs().filter(|(row, column)| row != column) {
        assert_eq!(contradicts(changed(&[(row, column, 1)])), weight);
        assert_eq!(contradicts(changed(&[(row, column, -8)])), weight, "a number past all others");
    }
    assert_eq!(contradicts(Table::default()), weight);
    let links = Some("the links between two corners have another weight");
    for [more, less] in [[(0, 2), (1, 3)], [(0, 1), (2, 3)], [(0, 3), (1, 2)]] {
        assert_eq!(contradicts(changed(&[(more.0, more.1, 1), (less.0, less.1, -1)])), links);
    }
}

#[test]
fn a_table_in_another_order_is_an_error() {
    let orders: Vec<[usize; 4]> = (0..256).map(|code| [code / 64, code / 16 % 4, code / 4 % 4, code % 4]).collect();
    let all_four = |order: &&[usize; 4]| (0..4).all(|corner| order.contains(&corner));
    let wrong = orders.iter().filter(all_four).filter(|order| **order != [0, 1, 2, 3]);
    let noticed = wrong.map(|order| contradicts(order.map(|row| order.map(|column| SIX_WEIGHTS[row][column]))));
    assert_eq!(noticed.filter(Option::is_some).count(), 23);
}

#[test]
fn two_numbers_of_one_side_and_numbers_of_no_side_are_errors() {
    let parsed = parse(&format!("{RING}tree share 1 links 0 1 2"));
    let twice = bytes(&[&[1], &[2], &[2]]);
    let findings = Findings::new(&parsed, answer(2, 2, 2, (0, 0, Some(1)), &[1]), twice).expect("an answer");
    assert_eq!(findings.overlap([2, 3]).err().as_deref(), Some("the list has a side twice"));
    assert!(findings.overlap([3, 1]).is_ok());
    for (numbers, none) in [([1, 4], 4), ([5, 2], 5), ([0, 3], 0), ([1, usize::MAX], usize::MAX)] {
        let expected = format!("there is no cut {none}: the list has 3 cuts");
        assert_eq!(findings.overlap(numbers).err(), Some(expected));
    }
}

/// Nodes 1 and 2, and nodes 2 and 3, weigh 2.
#[test]
fn records_have_the_cuts_the_corners_the_table_and_the_sentences() {
    let parsed = parse(&format!("# Ring\n{RING}node 2 hall\ntree share 1 links 0 1 2"));
    let findings = reference_findings(&parsed);
    let overlap = findings.overlap([4, 5]).expect("the unit's table");
    let name = |node: usize| if node == 2 { "\"hall\"" } else { "null" };
    let node = |node: usize| format!(r#"{{"node": {node}, "name": {}}}"#, name(node));
    let nodes = |nodes: &[usize]| nodes.iter().map(|&one| node(one)).collect::<Vec<_>>().join(", ");
    let link = |link: usize| {
        let (first, second) = (node(link), node((link + 1) % 4));
        format!(r#"{{"link": {link}, "name": null, "first": {first}, "second": {second}, "weight": 1}}"#)
    };
    let cut = |number: usize, severed: [usize; 2], [one, other]: [usize; 2]| {
        let (severed, one, other) = (nodes(&severed), link(one), link(other));
        format!(r#"{{"number": {number}, "severed": [{severed}], "crossing": [{one}, {other}]}}"#)
    };
    let corner = |name: &str, nodes: String| format!(r#"{{"corner": "{name}", "nodes": [{nodes}]}}"#);
    let corners = [("both", 2), ("first only", 1), ("second only", 3), ("neither", 0)];
    let corners = corners.map(|(name, only)| corner(name, node(only))).join(", ");
    let sentences: Vec<String> = overlap.sentences().iter().map(|sentence| format!("{sentence:?}")).collect();
    let expected = format!(
        r#"{{"file": "ring.net", "title": "Ring", "weight": 2, "none_lighter": true, "first_cut": {}, "second_cut": {}, "corners": [{corners}], "table": [[0, 1, 1, 0], [1, 0, 0, 1], [1, 0, 0, 1], [0, 1, 1, 0]], "sentences": [{}]}}"#,
        cut(4, [1, 2], [0, 2]),
        cut(5, [2, 3], [1, 3]),
        sentences.join(", ")
    );
    assert_eq!(overlap.record("ring.net").to_string(), expected);
    let apart = findings.overlap([3, 1]).expect("the unit's table").record("-").to_string();
    let start = format!(r#""corners": [{}, {}, "#, corner("both", nodes(&[])), corner("first only", nodes(&[3])));
    assert!(apart.contains(&start), "{apart}");
}

/// Holds the unit's table for two cuts, and what is said of them, against the network. Whether each corner is said to be a cut of the
/// least weight; none if a corner is empty.
fn said_of_corners(overlap: &Overlap) -> Option<bool> {
    let findings = overlap.findings;
    let (network, weight, sides) = (findings.network(), findings.weight(), Sides::of(findings, overlap.numbers));
    let table = counted(network, &sides);
    assert_eq!(overlap.table, table);
    assert_cables(overlap);
    let (sentences, least) =
        (overlap.sentences(), format!("so each corner is a cut of weight {weight} too, and no link"));
    let said = sentences.get(5).is_some_and(|sentence| sentence.contains(&least));
    assert_eq!(sentences.len(), if said { 6 } else { 5 });
    if said {
        assert!(table.iter().all(|row| row.iter().sum::<u64>() == weight), "{table:?}");
        assert_eq!([table[0][3], table[1][2]], [0, 0]);
    }
    let all_four = (0..4).all(|corner| (0..network.nodes).any(|node| sides.corner(node) == corner));
    assert_eq!(said, all_four && findings.answer.verdict == cuts::WHOLE);
    all_four.then_some(said)
}

/// A ring with four light links or more, all of one weight, and links of weight 0 anywhere. Its fitted trees lose their shares at times.
fn ring(random: &mut Random) -> Network {
    let nodes = random.between(4, every_side::MOST_NODES);
    let mut order: Vec<usize> = (0..nodes).collect();
    random.shuffle(&mut order);
    let (weight, light) = (random.between(1, 9) as u64, random.between(4, nodes));
    let along = |place: usize| {
        let weight = if place < light { weight } else { 3 * weight };
        Link { first: order[place], second: order[(place + 1) % nodes], weight }
    };
    let mut links: Vec<Link> = (0..nodes).map(along).collect();
    random.shuffle(&mut links);
    for _ in 0..random.below(3) {
        let (first, second) = generate::two_of(random, &order);
        links.push(Link { first, second, weight: 0 });
    }
    let mut trees = fit::fit(nodes, &links).expect("trees of a ring");
    if random.once_in(3) {
        trees.iter_mut().for_each(|tree| tree.share = 0);
    }
    Network { nodes, links, trees }
}

fn networks(random: &mut Random) -> Vec<Network> {
    let mut networks: Vec<Network> = (0..100).map(|_| ring(random)).collect();
    for feature in FEATURES {
        for _ in 0..20 {
            let size = generate::random_size(random, 3, every_side::MOST_NODES, feature);
            networks.push(generate::network(random, size, feature));
        }
    }
    networks
}

/// Where each corner is said to be a lightest cut, no side is lighter, and after any single cable some side is still as light.
#[test]
fn what_is_said_of_two_cuts_holds_for_every_side() {
    let mut random = Random::new(8);
    let (mut said, mut not_said, mut with_empty) = (0, 0, 0);
    for network in networks(&mut random) {
        let parsed = parsed(network.clone());
        let findings = reference_findings(&parsed);
        let mut here = 0;
        for _ in 0..if findings.sides.len() > 1 { 20 } else { 0 } {
            let (first, second) = generate::two_of(&mut random, &(1..=findings.sides.len()).collect::<Vec<_>>());
            match said_of_corners(&findings.overlap([first, second]).expect("the unit's table")) {
                Some(true) => here += 1,
                Some(false) => not_said += 1,
                None => with_empty += 1,
            }
        }
        let mut least = cables(network.nodes).map(|cable| least_with(&network, cable));
        assert!(here == 0 || least.all(|least| least == Some(findings.weight())), "{network:?}");
        said += if findings.weight() > 0 { here } else { 0 };
    }
    assert!([said, not_said, with_empty].iter().all(|&count| count > 100), "{said} {not_said} {with_empty}");
}
