use super::cable::{crossing_all, Groups};
use super::run::run_end;
use super::*;
use crate::text;
use reference::cuts::Candidate;
use reference::every_side::{self, Beside};
use reference::generate::{self, FEATURES};
use reference::network::Link;
use reference::random::Random;
use reference::report;
use std::ops::RangeInclusive;

pub(super) const RING: &str = "nodes 4\nlink 0-1:1\nlink 1-2:1\nlink 2-3:1\nlink 3-0:1\n";

pub(super) fn parse(text: &str) -> Parsed {
    text::parse(text.as_bytes()).expect("a text without a fault")
}

/// An answer in the fields of the report program's lines.
pub(super) fn answer(
    verdict: u8,
    weight: u64,
    floor: u64,
    links: (usize, usize, Option<usize>),
    side: &[usize],
) -> Answer {
    let (tree, first, second) = links;
    let candidate = Candidate { weight, nodes: side.len(), tree, first, second };
    Answer { verdict, floor, candidate, side: side.to_vec() }
}

pub(super) fn bytes(sides: &[&[usize]]) -> Vec<Side> {
    sides.iter().map(|nodes| report::side_bytes(nodes.iter().copied())).collect()
}

/// The findings of the reference, as the proved code has them.
pub(super) fn reference_findings(parsed: &Parsed) -> Findings<'_> {
    let network = &parsed.contents.network;
    let found = Findings::new(parsed, cuts::answer(network), list::by_candidates(network).sides);
    found.expect("the network's own answer and list")
}

#[track_caller]
fn assert_sentences(text: &str, expected: [&str; 3]) {
    assert_eq!(reference_findings(&parse(text)).sentences(), expected);
}

#[test]
fn a_certified_cut_is_the_lightest_of_all() {
    assert_sentences(
        "nodes 4\nlink 0-1:1\nlink 1-2:5\nlink 2-3:5\nlink 3-0:1\ntree share 1 links 0 1 2",
        [
            "The cut severs nodes 1, 2 and 3 from node 0. It crosses links 0 (0-1:1) and 3 (3-0:1), which weigh 2 together; link \
             0 of tree 0 names it. No cut of the whole network weighs less.",
            "No other cut of the whole network weighs 2.",
            "A new cable makes this cut heavier only if it runs between one of the 3 severed nodes and the other node. Then the \
             weakest cut of the whole network weighs more than 2.",
        ],
    );
}

#[test]
fn every_other_cut_as_light_has_to_be_crossed_too() {
    assert_sentences(
        &format!("{RING}tree share 1 links 0 1 2"),
        [
            "The cut severs node 1 from node 0. It crosses links 0 (0-1:1) and 1 (1-2:1), which weigh 2 together; links 0 and 1 \
             of tree 0 name it. No cut of the whole network weighs less.",
            "5 other cuts of the whole network weigh 2 too, and no more do.",
            "A new cable makes this cut heavier only if it runs between the severed node and one of the 3 other nodes. By the same \
             cable or by further ones, each of the 5 other cuts has to be crossed too: only then the weakest cut of the whole \
             network weighs more than 2. No single cable crosses all 6 cuts.",
        ],
    );
}

/// Node 1 and node 2 hang by one link each.
#[test]
fn one_cable_may_cross_all_cuts() {
    assert_sentences(
        "nodes 4\nlink 0-1:5\nlink 0-2:5\nlink 0-3:9\ntree share 5 links 0 1 2",
        [
            "The cut severs node 1 from node 0. It crosses link 0 (0-1:5), which weighs 5; link 0 of tree 0 names it. No cut of the \
             whole network weighs less.",
            "One other cut of the whole network weighs 5 too, and no more do.",
            "A new cable makes this cut heavier only if it runs between the severed node and one of the 3 other nodes. By the same \
             cable or by further ones, the other cut has to be crossed too: only then the weakest cut of the whole network weighs \
             more than 5. One cable crosses both cuts if it joins node 2 to node 1.",
        ],
    );
}

/// Node 1 is named 2: the report's second line has `side 1`.
#[test]
fn numbers_as_names_are_told_from_the_nodes_numbers() {
    let parsed = parse("nodes 2\nnode 0 1\nnode 1 2\nlink 0-1:4\ntree share 4 links 0");
    let sentences = reference_findings(&parsed).sentences();
    assert!(sentences[0].starts_with("The cut severs \"2\" from \"1\". It crosses link 0 (\"1\" to \"2\":4), "));
    let warning = "Some names are numbers: they stand in quotes here, and the lines above have the nodes' own numbers.";
    assert_eq!(sentences[3..], [warning]);
}

#[test]
fn names_stand_in_for_numbers() {
    assert_sentences(
        "nodes 4\nnode 0 core\nnode 1 hall-A\nnode 2 Hall B, north\nlink 0-1:9 name old trunk\nlink 1-2:3\nlink 2-3:9\nlink 3-0:4 \
         trunk 7 name 12\nlink 1-3:2\ntree share 3 links 0 1 3",
        [
            "The cut severs \"Hall B, north\" and node 3 from core. It crosses links 1 (hall-A to \"Hall B, north\":3), 3 \"12\" \
             (node 3 to core:4) and 4 (hall-A to node 3:2), which weigh 9 together; links 1 and 3 of tree 0 name it. No cut of the \
             whole network weighs less.",
            "No other cut that the listed trees show weighs 9. Others may, since three times the shares that count is 9 and not \
             more.",
            "A new cable makes this cut heavier only if it runs between one of the 2 severed nodes and one of the 2 other nodes. \
             Then no cut that is listed weighs 9 any more; whether another cut does is not certain.",
        ],
    );
}

/// Node 1 behind links 0 and 1 of weights 9 and 4, and the trees given, each with one link.
fn parallel(trees: &[(u64, usize)]) -> String {
    let tree = |&(share, link): &(u64, usize)| format!("tree share {share} links {link}\n");
    format!("nodes 2\nlink 0-1:9\nlink 0-1:4\n{}", trees.iter().map(tree).collect::<String>())
}

/// What follows for such a network of the cut that link 1 of tree 0 names.
#[track_caller]
fn assert_promise(trees: &[(u64, usize)], verdict: u8, floor: u64, promise: &str) {
    let parsed = parse(&parallel(trees));
    let answer = answer(verdict, 13, floor, (0, 1, None), &[1]);
    let findings = Findings::new(&parsed, answer, bytes(&[&[1]])).expect("an answer for the network");
    let cut = "The cut severs node 1 from node 0. It crosses links 0 (0-1:9) and 1 (0-1:4), which weigh 13 together; link 1 of tree \
               0 names it.";
    assert_eq!(findings.sentences()[0], format!("{cut} {promise}"));
}

#[test]
fn a_floor_of_some_trees_says_which_and_why() {
    assert_promise(
        &[(1, 1)],
        1,
        3,
        "No cut that the listed trees show is lighter; the whole network may hold one, but none that weighs less than 3.",
    );
    assert_promise(
        &[(2, 1), (3, 1), (9, 0)],
        1,
        6,
        "No cut that the listed trees show is lighter; the whole network may hold one, but none that weighs less than 6. Tree \
         1 would bring the load of link 1 to 5, more than its weight of 4, so only tree 0 counts.",
    );
    assert_promise(
        &[(2, 1), (2, 0), (8, 0), (1, 1)],
        1,
        12,
        "No cut that the listed trees show is lighter; the whole network may hold one, but none that weighs less than 12. \
         Tree 2 would bring the load of link 0 to 10, more than its weight of 9, so only trees 0 and 1 count.",
    );
    assert_promise(
        &[(1, 1), (0, 0), (2, 1), (2, 1), (0, 1)],
        1,
        9,
        "No cut that the listed trees show is lighter; the whole network may hold one, but none that weighs less than 9. Tree \
         3 would bring the load of link 1 to 5, more than its weight of 4, so only trees 0 to 2 count.",
    );
    assert_promise(&[(4, 1), (3, 0), (7, 0)], 2, 13, "No cut of the whole network weighs less.");
}

#[test]
fn a_floor_of_0_has_its_reason() {
    let unknown = "nothing is known of the cuts that no tree shows.";
    let lightest = "No cut that the listed trees show is lighter.";
    assert_promise(&[(0, 1), (0, 0)], 1, 0, &format!("{lightest} All shares are 0, so {unknown}"));
    let overload = "Tree 0 would bring the load of link 1 to 5, more than its weight of 4, so no tree counts and";
    assert_promise(&[(5, 1), (1, 0)], 1, 0, &format!("{lightest} {overload} {unknown}"));
    let one = "Tree 1 would bring the load of link 0 to 10, more than its weight of 9, so only tree 0 counts; its share is 0, and";
    assert_promise(&[(0, 1), (10, 0), (1, 1)], 1, 0, &format!("{lightest} {one} {unknown}"));
    let two = "Tree 2 would bring the load of link 1 to 4294967295, more than its weight of 4, so only trees 0 and 1 count; their \
               shares are 0, and";
    assert_promise(&[(0, 1), (0, 0), (4_294_967_295, 1)], 1, 0, &format!("{lightest} {two} {unknown}"));
}

#[test]
fn the_first_overloaded_link_of_the_tree_is_named() {
    let ring = RING.replace("1-2:1", "1-2:1 name old wire");
    let Parsed { contents, names, .. } = parse(&format!("{ring}tree share 1 links 0 2 3\ntree share 2 links 1 2 3"));
    let reason = run_end(&contents.network).map(|end| end.reason(&contents.network, &names));
    let first = "Tree 1 would bring the load of link 1 old wire to 2, more than its weight of 1, so only tree 0 counts";
    assert_eq!(reason.as_deref(), Some(first));
}

#[test]
fn what_is_said_of_others_depends_on_the_shares() {
    // node 1 behind two links of weight 3: three times the share is 9, 6 and 3
    let text = |share| format!("nodes 2\nlink 0-1:3\nlink 0-1:3\ntree share {share} links 0");
    let said = |share| reference_findings(&parse(&text(share))).sentences();
    assert_eq!(said(3)[1], "No other cut of the whole network weighs 6.");
    let may = "Others may, since three times the shares that count is 6 and not more.";
    assert_eq!(said(2)[1], format!("No other cut that the listed trees show weighs 6. {may}"));
    assert_eq!(said(1)[1], "No other cut that the listed trees show weighs 6; whether others do is not known.");
    let certain = |said: &str| said.ends_with("Then the weakest cut of the whole network weighs more than 6.");
    assert_eq!([3, 2, 1].map(|share| certain(&said(share)[2])), [true, false, false]);
    let star = |share| format!("nodes 3\nlink 0-1:3\nlink 0-2:3\ntree share {share} links 0 1");
    let said = |share| reference_findings(&parse(&star(share))).sentences();
    assert_eq!(said(2)[1], "One other cut of the whole network weighs 3 too, and no more do.");
    let more = "There may be more, since three times the shares that count is 3 and not more.";
    assert_eq!(said(1)[1], format!("One other cut that the listed trees show weighs 3 too. {more}"));
    let unknown = "One other cut that the listed trees show weighs 3 too; whether there are more is not known.";
    assert_eq!(said(0)[1], unknown);
}

#[test]
fn an_answer_that_does_not_fit_the_network_is_an_error() {
    let parsed = parse(&format!("{RING}tree share 1 links 0 1 2"));
    let contradicts = |answer: Answer| {
        let sides = bytes(&[&answer.side]);
        Findings::new(&parsed, answer, sides).err()
    };
    let side = Some("the side is not some of the nodes behind node 0, rising");
    for nodes in [&[][..], &[0, 1], &[2, 1], &[1, 4]] {
        assert_eq!(contradicts(answer(2, 2, 2, (0, 0, None), nodes)), side);
    }
    assert_eq!(contradicts(answer(2, 2, 2, (1, 0, None), &[1])), Some("the network has no such tree"));
    let links = Some("the links named are not those of the tree that cross the side");
    assert_eq!(contradicts(answer(2, 2, 2, (0, 2, None), &[1, 2, 3])), links);
    assert_eq!(contradicts(answer(2, 2, 2, (0, 0, Some(3)), &[1, 2, 3])), links);
    assert_eq!(contradicts(answer(2, 2, 2, (0, 0, None), &[1])), links);
    assert_eq!(contradicts(answer(2, 2, 2, (0, 1, Some(0)), &[1])), links);
    assert_eq!(contradicts(answer(2, 4, 4, (0, 0, Some(2)), &[1, 3])), links);
    let weight = Some("the links that cross the side have another weight");
    assert_eq!(contradicts(answer(2, 3, 3, (0, 0, Some(1)), &[1])), weight);
    let verdict = Some("verdict, weight and floor do not go together");
    for (said, floor) in [(1, 2), (2, 1), (1, 3), (0, 1)] {
        assert_eq!(contradicts(answer(said, 2, floor, (0, 0, Some(1)), &[1])), verdict);
    }
    assert_eq!(contradicts(answer(2, 2, 2, (0, 0, Some(1)), &[1])), None);
}

#[test]
fn a_floor_that_the_trees_do_not_give_is_an_error() {
    let other = Some("the trees that count give another floor");
    let all_count = parse("nodes 2\nlink 0-1:4\ntree share 1 links 0");
    let one_counts = parse(&parallel(&[(2, 1), (3, 1), (1, 0)]));
    for (verdict, floor) in [(1, 0), (1, 2), (2, 4)] {
        let answer = answer(verdict, 4, floor, (0, 0, None), &[1]);
        assert_eq!(Findings::new(&all_count, answer, bytes(&[&[1]])).err(), other);
    }
    for (verdict, floor) in [(1, 0), (1, 9), (1, 12), (2, 13)] {
        let answer = answer(verdict, 13, floor, (0, 1, None), &[1]);
        assert_eq!(Findings::new(&one_counts, answer, bytes(&[&[1]])).err(), other);
    }
}

#[test]
fn a_list_that_does_not_fit_the_report_is_an_error() {
    let parsed = parse(&format!("{RING}tree share 1 links 0 1 2"));
    let contradicts =
        |sides: &[&[usize]]| Findings::new(&parsed, answer(2, 2, 2, (0, 0, Some(1)), &[1]), bytes(sides)).err();
    let first = Some("the list does not begin with the reported side");
    assert_eq!(contradicts(&[]), first);
    assert_eq!(contradicts(&[&[2], &[1]]), first);
    let side = Some("a side of the list is not some of the nodes behind node 0");
    assert_eq!(contradicts(&[&[1], &[]]), side);
    assert_eq!(contradicts(&[&[1], &[0, 2]]), side);
    assert_eq!(contradicts(&[&[1], &[4]]), side);
    assert_eq!(contradicts(&[&[1], &[1, 3]]), Some("a side of the list has another weight than the reported one"));
    assert_eq!(contradicts(&[&[1], &[2], &[1, 2, 3]]), None);
}

#[test]
fn a_list_has_a_line_for_each_cut_with_its_links() {
    let parsed = parse(&format!("{RING}node 2 hall\ntree share 1 links 0 1 2"));
    let lines: String = reference_findings(&parsed).list_lines().collect();
    let expected =
        "6 cuts of weight 2. The list is complete: no other cut of the whole network weighs 2, and none weighs less.\n\
                    1. node 1; links 0 (0-1:1) and 1 (node 1 to hall:1)\n\
                    2. hall; links 1 (node 1 to hall:1) and 2 (hall to node 3:1)\n\
                    3. node 3; links 2 (hall to node 3:1) and 3 (3-0:1)\n\
                    4. node 1 and hall; links 0 (0-1:1) and 2 (hall to node 3:1)\n\
                    5. hall and node 3; links 1 (node 1 to hall:1) and 3 (3-0:1)\n\
                    6. node 1, hall and node 3; links 0 (0-1:1) and 3 (3-0:1)\n";
    assert_eq!(lines, expected);
    let parsed = parse(&parallel(&[(1, 0)]));
    let lines: String = reference_findings(&parsed).list_lines().collect();
    let expected = "1 cut of weight 13. No cut that the listed trees show is lighter, and all of theirs of this weight are listed; the \
                    whole network may hold others as light or lighter, but none that weighs less than 3.\n\
                    1. node 1; links 0 (0-1:9) and 1 (0-1:4)\n";
    assert_eq!(lines, expected);
}

/// What the first line of a list says of other cuts: of that of node 1 alone, where its links weigh what is given and the trees hold link 0.
#[track_caller]
fn assert_others(weight: u64, shares: &[u64], expected: &str) {
    let trees: String = shares.iter().map(|share| format!("tree share {share} links 0\n")).collect();
    let parsed = parse(&format!("nodes 2\nlink 0-1:5\nlink 0-1:{}\n{trees}", weight - 5));
    let head = reference_findings(&parsed).list_lines().next();
    assert_eq!(head, Some(format!("1 cut of weight {weight}. {expected}\n")));
}

const NONE_LIGHTER: &str =
    "No cut of the whole network weighs less. Others that no tree shows may weigh 6 too, since three times the \
                            shares that count is 6 and not more.";

#[test]
fn a_list_is_complete_where_three_times_the_shares_exceed_the_weight() {
    let complete = |weight| {
        format!("The list is complete: no other cut of the whole network weighs {weight}, and none weighs less.")
    };
    let neither = "No cut that the listed trees show is lighter, and all of theirs of this weight are listed; the whole network may \
                   hold others as light or lighter, but none that weighs less than 6.";
    assert_others(5, &[2], &complete(5));
    assert_others(6, &[2], NONE_LIGHTER);
    assert_others(7, &[2], neither);
    assert_others(5, &[1, 0, 1], &complete(5));
    assert_others(8, &[1, 2], &complete(8));
}

#[test]
fn trees_that_do_not_count_make_no_list_complete() {
    assert_others(6, &[2, 4], NONE_LIGHTER);
    assert_others(
        7,
        &[2, 4],
        "No cut that the listed trees show is lighter, and all of theirs of this weight are listed; the whole network may hold \
         others as light or lighter, but none that weighs less than 6. Tree 1 would bring the load of link 0 to 6, more than its \
         weight of 5, so only tree 0 counts.",
    );
    assert_others(
        6,
        &[6],
        "No cut that the listed trees show is lighter, and all of theirs of this weight are listed. Tree 0 would bring the load of \
         link 0 to 6, more than its weight of 5, so no tree counts and nothing is known of the cuts that no tree shows.",
    );
    assert_others(
        6,
        &[0, 0],
        "No cut that the listed trees show is lighter, and all of theirs of this weight are listed. All shares are 0, so nothing \
         is known of the cuts that no tree shows.",
    );
}

/// Three links hold the side of nodes 2 and 3, and the tree has two of them.
#[test]
fn links_that_no_tree_holds_are_named_too() {
    let parsed = parse("nodes 4\nlink 0-1:9\nlink 1-2:3\nlink 2-3:9\nlink 3-0:4\nlink 1-3:2\ntree share 3 links 0 1 3");
    let expected =
        "The cut severs nodes 2 and 3 from node 0. It crosses links 1 (1-2:3), 3 (3-0:4) and 4 (1-3:2), which weigh 9 \
                    together; links 1 and 3 of tree 0 name it. No cut of the whole network weighs less.";
    assert_eq!(reference_findings(&parsed).sentences()[0], expected);
}

/// The numbers between two words of a sentence.
fn numbers_between(sentence: &str, from: &str, to: &str) -> Vec<u64> {
    let (_, behind) = sentence.split_once(from).expect(from);
    let (between, _) = behind.split_once(to).expect(to);
    between.split(|at: char| !at.is_ascii_digit()).filter_map(|number| number.parse().ok()).collect()
}

/// Networks of that many nodes, so many of each feature.
pub(super) fn networks(random: &mut Random, nodes: RangeInclusive<usize>, of_each: usize) -> Vec<Network> {
    let network = |feature| {
        let size = generate::random_size(random, *nodes.start(), *nodes.end(), feature);
        generate::network(random, size, feature)
    };
    FEATURES.into_iter().flat_map(|feature| vec![feature; of_each]).map(network).collect()
}

pub(super) fn parsed(network: Network) -> Parsed {
    let names = Names::none(network.nodes, network.links.len());
    parse(&text::write(&sheet::Contents::without_trunks(network), &names))
}

/// Some nodes get a name that ends with their number, and some links one without a number.
fn named(random: &mut Random, network: &Network) -> Parsed {
    let mut names = Names::none(network.nodes, network.links.len());
    for (node, name) in names.nodes.iter_mut().enumerate() {
        *name = random.once_in(2).then(|| format!("hall {node}"));
    }
    names.links.iter_mut().for_each(|name| *name = random.once_in(3).then(|| "old wire".to_string()));
    parse(&text::write(&sheet::Contents::without_trunks(network.clone()), &names))
}

/// Link numbers, ends and weights are counted from the network, node by node of the side. Numbers in names are those of their nodes.
#[test]
fn a_sentence_names_the_nodes_and_links_of_the_cut_and_no_others() {
    let mut random = Random::new(6);
    for feature in FEATURES {
        for round in 0..20 {
            let size = generate::random_size(&mut random, 2, 40, feature);
            let network = generate::network(&mut random, size, feature);
            let parsed = if round < 10 { parsed(network.clone()) } else { named(&mut random, &network) };
            let answer = cuts::answer(&network);
            let sentence = reference_findings(&parsed).sentences().swap_remove(0);
            let nodes = numbers_between(&sentence, "The cut severs ", " from ");
            assert!(nodes.iter().map(|&node| node as usize).eq(answer.side.iter().copied()), "{sentence}");
            let mut ends_met = vec![0; network.links.len()];
            for node in &answer.side {
                let meets = |link: &Link| link.first == *node || link.second == *node;
                ends_met.iter_mut().zip(&network.links).for_each(|(met, link)| *met += u64::from(meets(link)));
            }
            let named = numbers_between(&sentence, "It crosses ", ", which weigh");
            let crossing: Vec<usize> = (0..ends_met.len()).filter(|&link| ends_met[link] == 1).collect();
            let expected = crossing.iter().flat_map(|&link| {
                let Link { first, second, weight } = network.links[link];
                [link as u64, first as u64, second as u64, weight]
            });
            assert!(expected.eq(named.iter().copied()), "{sentence}");
            assert_eq!(named.chunks(4).map(|link| link[3]).sum::<u64>(), answer.candidate.weight);
            let wires = crossing.iter().filter(|&&link| parsed.names.links[link].is_some()).count();
            assert_eq!(sentence.matches(" old wire (").count(), wires, "{sentence}");
            let has_name = |node: &usize| parsed.names.nodes[*node].is_some();
            let ends = crossing.iter().flat_map(|&link| [network.links[link].first, network.links[link].second]);
            let halls = answer.side.iter().copied().chain([0]).chain(ends).filter(has_name).count();
            assert_eq!(sentence.matches("hall ").count(), halls, "{sentence}");
        }
    }
}

/// What every side of a small network says of the second and the third sentence and of the list's head.
#[test]
fn what_is_said_of_other_cuts_and_new_cables_holds_for_every_side() {
    let mut random = Random::new(9);
    let mut said = [0; 3];
    for feature in FEATURES {
        for _ in 0..60 {
            let size = generate::random_size(&mut random, 2, every_side::MOST_NODES, feature);
            let network = generate::network(&mut random, size, feature);
            let sides = list::by_every_side(&network).sides;
            let Beside { shares, missing, lighter, .. } =
                every_side::check_list(&network, &sides).expect("a promise kept");
            let parsed = parsed(network.clone());
            let findings = reference_findings(&parsed);
            let [_, others, cable] = &findings.sentences()[..] else { panic!("three sentences") };
            let head = findings.list_lines().next().unwrap_or_default();
            let cases = [
                (head.contains(" The list is complete: "), shares.is_gt() && missing == 0 && lighter == 0),
                (head.contains(". No cut of the whole network weighs less. "), shares.is_eq() && lighter == 0),
                (head.contains(". No cut that the listed trees show is lighter, and all of theirs "), shares.is_lt()),
            ];
            let found = cases.iter().position(|(starts, _)| *starts).expect("one of three");
            assert!(cases[found].1, "{head} {network:?}");
            said[found] += 1;
            let all = others.contains(" of the whole network ");
            assert_eq!(all, found == 0, "{others}");
            let counted = others.split(' ').next().and_then(|word| match word {
                "No" => Some(0),
                "One" => Some(1),
                number => number.parse().ok(),
            });
            assert_eq!(counted, Some(sides.len() - 1), "{others}");
            assert_eq!(cable.contains("the weakest cut of the whole network weighs more than "), all, "{cable}");
            assert_cables(&findings, all);
        }
    }
    assert!(said.iter().all(|&count| count > 100), "{said:?}");
}

/// The ends of each cable that a network of so many nodes could have.
pub(super) fn cables(nodes: usize) -> impl Iterator<Item = (usize, usize)> {
    (1..nodes).flat_map(|second| (0..second).map(move |first| (first, second)))
}

/// The least weight of all sides of a small network, if one more link, of weight 1, has these ends.
pub(super) fn least_with(network: &Network, (first, second): (usize, usize)) -> Option<u64> {
    let weigh = |side: usize| {
        let crosses = |one: usize, other: usize| (side >> one ^ side >> other) & 1 == 1;
        let links = network.links.iter().filter(|link| crosses(link.first, link.second));
        links.map(|link| link.weight).sum::<u64>() + u64::from(crosses(first, second))
    };
    (2..1_usize << network.nodes).step_by(2).map(weigh).min()
}

/// Each cable that a network could have, of weight 1, is tried: it leaves a side of the reported weight unless it is one of those that
/// are said to cross all; and where the list is complete, each of these leaves none.
fn assert_cables(findings: &Findings, complete: bool) {
    let network = findings.network();
    let weight = findings.answer.candidate.weight;
    let groups = findings.crossing_all();
    let joins = |group: &Groups, one, other| group.from.contains(&one) && group.to.contains(&other);
    for (first, second) in cables(network.nodes) {
        let said = groups.iter().any(|group| joins(group, first, second) || joins(group, second, first));
        let least = least_with(network, (first, second));
        if !said {
            assert!(least <= Some(weight), "{first}-{second}: {network:?}");
        } else if complete {
            assert!(least > Some(weight), "{first}-{second}: {network:?}");
        }
    }
}

#[test]
fn groups_cross_every_side_of_a_list() {
    let groups = |from: &[usize], to: &[usize]| Groups { from: from.to_vec(), to: to.to_vec() };
    assert_eq!(crossing_all(4, &bytes(&[&[1], &[1, 2]])), [groups(&[0, 3], &[1])]);
    assert_eq!(crossing_all(4, &bytes(&[&[1, 2], &[2, 3]])), [groups(&[0], &[2]), groups(&[1], &[3])]);
    assert_eq!(crossing_all(3, &bytes(&[&[1], &[2], &[1, 2]])), []);
    // more sides than a word has bits: node 1 is in all of them
    let many: Vec<Vec<usize>> = (2..80).map(|node| vec![1, node]).collect();
    let many: Vec<&[usize]> = many.iter().map(Vec::as_slice).collect();
    assert_eq!(crossing_all(81, &bytes(&many)), [groups(&[0, 80], &[1])]);
}

/// Node 1 behind two links of weight 3: three times the share is 9, 6 and 3.
#[test]
fn records_say_what_is_certain() {
    let certain = |share: u64| {
        let parsed = parse(&format!("nodes 2\nlink 0-1:3\nlink 0-1:3\ntree share {share} links 0"));
        let findings = reference_findings(&parsed);
        let records = [findings.report_record("-").to_string(), findings.list_record("-").collect()];
        let both = |field: &str| {
            let held = records.each_ref().map(|record| record.contains(&format!("\"{field}\": true")));
            assert_eq!(held[0], held[1], "{field}: {records:?}");
            held[0]
        };
        (both("none_lighter"), both("list_complete"))
    };
    assert_eq!([3, 2, 1].map(certain), [(true, true), (true, false), (false, false)]);
}

#[test]
fn records_have_the_fields_of_the_report() {
    let parsed = parse("# Two\nnodes 2\nnode 1 hall\nlink 0-1:5 name wire\ntree share 1 links 0");
    let findings = reference_findings(&parsed);
    let node = [r#"{"node": 0, "name": null}"#, r#"{"node": 1, "name": "hall"}"#];
    let link = format!(r#"{{"link": 0, "name": "wire", "first": {}, "second": {}, "weight": 5}}"#, node[0], node[1]);
    let sentences: Vec<String> = findings.sentences().iter().map(|sentence| format!("{sentence:?}")).collect();
    let sentences = sentences.join(", ");
    let expected = format!(
        r#"{{"file": "two.net", "title": "Two", "verdict": 1, "weight": 5, "floor": 3, "tree": 0, "first_link": 0, "second_link": null, "none_lighter": false, "severed": [{1}], "others": [{0}], "crossing": [{link}], "other_cuts_as_light": 0, "list_complete": false, "one_cable_crosses_all": [{{"from": [{0}], "to": [{1}]}}], "sentences": [{sentences}]}}"#,
        node[0], node[1]
    );
    assert_eq!(findings.report_record("two.net").to_string(), expected);
    let expected = format!(
        r#"{{"file": "two.net", "title": "Two", "weight": 5, "none_lighter": false, "list_complete": false, "cuts": [{{"severed": [{}], "crossing": [{link}]}}]}}"#,
        node[1]
    );
    assert_eq!(findings.list_record("two.net").collect::<String>(), format!("{expected}\n"));
    let apart = parse("nodes 3\nlink 0-1:1\nlink 0-1:1\ntree share 1 links 0 1");
    let why =
        "the links of tree 0 do not join node 2 to node 0; the whole network falls apart: no links join node 2 to it";
    let expected = format!(
        r#"{{"file": "-", "title": null, "refused": 15, "mistakes": [{{"line": 4, "number": 15, "why": "{why}"}}]}}"#
    );
    assert_eq!(refusal("-", &apart, 15, &apart.mistakes()).to_string(), expected);
}
