use super::*;
use crate::findings::tests::{bytes, parse, parsed, reference_findings};
use crate::names::Names;
use reference::every_side;
use reference::generate::{self, FEATURES};
use reference::list;
use reference::network::Network;
use reference::random::Random;
use reference::thickness;
use std::collections::BTreeMap;

/// Node 1 weighs 5, node 2 weighs 6, and both together weigh 7.
const TRIANGLE: &str = "nodes 3\nlink 0-1:3\nlink 1-2:2\nlink 0-2:4\ntree share 2 links 0 2\n";

/// Tells of what the unit says of a link of a text.
#[track_caller]
fn asked<T>(text: &str, link: usize, wanted: u64, tell: impl FnOnce(&Thickness) -> T) -> T {
    let parsed = parse(text);
    let findings = reference_findings(&parsed);
    let figure = findings.figure(link, wanted).expect("the unit's figure");
    let thickness = figure.thickness().expect("a figure that fits");
    tell(&thickness)
}

#[track_caller]
fn said(text: &str, link: usize, wanted: u64) -> Vec<String> {
    asked(text, link, wanted, |thickness| {
        assert_eq!(thickness.text(), thickness.sentences().join("\n") + "\n");
        thickness.sentences()
    })
}

/// What is said of a link under verdict 2: what it weighs and the report with that, the figure, and the report with it.
#[track_caller]
fn assert_said(text: &str, (link, wanted): (usize, u64), present: &str, figure: &str, then: u64) {
    let expected = [
        present.to_string(),
        format!("The smallest weight of this link with which the reported weight is {wanted} or more is {figure}."),
        format!("With that weight the reported weight is {then}. No cut of the whole network weighs less."),
    ];
    assert_eq!(said(text, link, wanted), expected);
}

#[test]
fn the_figure_is_compared_with_the_present_weight() {
    let present = "Link 0 (0-1) weighs 3 now, and the reported weight is 5.";
    assert_said(TRIANGLE, (0, 6), present, "4, 1 more than now", 6);
    assert_said(TRIANGLE, (0, 5), present, "3, just what it weighs now", 5);
    assert_said(TRIANGLE, (0, 4), present, "2, 1 less than now", 4);
    let present = "Link 1 (1-2) weighs 2 now, and the reported weight is 5.";
    let nothing = "0, 2 less than now: the reported weight is that large even if this link weighs nothing";
    assert_said(TRIANGLE, (1, 1), present, nothing, 3);
    assert_said(TRIANGLE, (1, 3), present, nothing, 3);
    let weightless = "nodes 2\nlink 0-1:0\nlink 0-1:5\ntree share 2 links 1\n";
    let present = "Link 0 (0-1) weighs 0 now, and the reported weight is 5.";
    assert_said(weightless, (0, 5), present, "0, just what it weighs now", 5);
}

/// The tree loads links 0 and 2 with its share, 2.
#[test]
fn what_is_certain_is_said_of_the_network_with_that_weight() {
    let with = |wanted: u64| said(TRIANGLE, 0, wanted).swap_remove(2);
    let overload = "Tree 0 would bring the load of link 0 to 2, more than its weight of 1, so no tree counts and nothing is known of \
                    the cuts that no tree shows.";
    let shown = "No cut that the listed trees show is lighter";
    assert_eq!(with(3), format!("With that weight the reported weight is 3. {shown}. {overload}"));
    let low = TRIANGLE.replace("share 2", "share 1");
    let bound = "the whole network may hold one, but none that weighs less than 3.";
    assert_eq!(said(&low, 0, 6)[2], format!("With that weight the reported weight is 6. {shown}; {bound}"));
    let enough = said(&low, 0, 3).swap_remove(2);
    assert_eq!(enough, "With that weight the reported weight is 3. No cut of the whole network weighs less.");
}

#[test]
fn a_cut_that_the_link_does_not_cross_is_too_light_whatever_the_link_weighs() {
    let expected = [
        "Link 0 \"12\" (core to node 1) weighs 3 now, and the reported weight is 5.",
        "No weight of this link makes the reported weight 7 or more.",
        "The cut that severs \"hall B, north\" from core weighs 6 whatever this link weighs: it crosses links 1 old wire (node 1 to \
         \"hall B, north\":2) and 2 (core to \"hall B, north\":4), and not this one.",
    ];
    let named = TRIANGLE.replace("0-1:3", "0-1:3 name 12").replace("1-2:2", "1-2:2 name old wire");
    let named = named.replace("nodes 3\n", "nodes 3\nnode 0 core\nnode 2 hall B, north\n");
    assert_eq!(said(&named, 0, 7), expected);
    assert_eq!(said(&named, 0, u64::MAX)[2], expected[2]);
}

/// Nodes 1, 2, .. hang by a link of weight 5 each.
fn star(leaves: usize) -> String {
    let links: String = (1..=leaves).map(|leaf| format!("link 0-{leaf}:5\n")).collect();
    let members: String = (0..leaves).map(|link| format!(" {link}")).collect();
    format!("nodes {}\n{links}tree share 5 links{members}\n", leaves + 1)
}

#[test]
fn three_cuts_that_are_too_light_are_named_and_the_others_counted() {
    let cut = |leaf: usize| {
        let link = format!("link {} (0-{leaf}:5)", leaf - 1);
        format!("The cut that severs node {leaf} from node 0 weighs 5 whatever this link weighs: it crosses {link}, and not this one.")
    };
    let none = "No weight of this link makes the reported weight 6 or more.".to_string();
    assert_eq!(said(&star(3), 1, 6)[1..], [none.clone(), cut(1), cut(3)]);
    assert_eq!(said(&star(4), 0, 6)[1..], [none.clone(), cut(2), cut(3), cut(4)]);
    let one = "One more cut that this link does not cross weighs 5 too.".to_string();
    assert_eq!(said(&star(5), 0, 6)[1..], [none.clone(), cut(2), cut(3), cut(4), one]);
    let two = "2 more cuts that this link does not cross weigh 5 too.".to_string();
    assert_eq!(said(&star(6), 5, 6)[1..], [none, cut(1), cut(2), cut(3), two]);
}

/// A ring in which link 0, of weight 7, joins nodes 0 and 1, and two links of the largest weight every other two nodes.
fn heavy_ring(nodes: usize) -> String {
    let twice = |node: usize| format!("link {node}-{}:4294967295\n", (node + 1) % nodes).repeat(2);
    let links: String = (1..nodes).map(twice).collect();
    let members: String = (1..nodes - 1).map(|node| format!(" {}", 2 * node)).collect();
    format!("nodes {nodes}\nlink 0-1:7\n{links}tree share 0 links 0{members}\n")
}

/// Cuts that the link crosses weigh 8589934590 without it, and all others twice as much.
#[test]
fn no_weight_of_4_bytes_may_be_enough() {
    let none = "No 4-byte weight of this link makes the reported weight 12884901886 or more: with 4294967295, the largest, it is \
                12884901885."
        .to_string();
    let cut = |nodes: &str, [one, other]: [usize; 2]| {
        let heavy = |link: usize| format!("{link} ({}-{}:4294967295)", link.div_ceil(2), link.div_ceil(2) + 1);
        let links = format!("links 0 (0-1:4294967295), {} and {}", heavy(one), heavy(other));
        format!("Then the cut that severs {nodes} from node 0 weighs 12884901885: it crosses {links}.")
    };
    let cuts = [cut("node 1", [1, 2]), cut("nodes 1 and 2", [3, 4]), cut("nodes 1, 2 and 3", [5, 6])];
    let expected = |more: &str| {
        let present = "Link 0 (0-1) weighs 7 now, and the reported weight is 8589934597.".to_string();
        [&[present, none.clone()], &cuts[..], &[more.to_string()]].concat()
    };
    assert_eq!(said(&heavy_ring(5), 0, 12_884_901_886), expected("One more cut weighs 12884901885 then."));
    assert_eq!(said(&heavy_ring(6), 0, 12_884_901_886), expected("2 more cuts weigh 12884901885 then."));
    let just = "The smallest weight of this link with which the reported weight is 12884901885 or more is 4294967295, 4294967288 more \
                than now.";
    assert_eq!(said(&heavy_ring(5), 0, 12_884_901_885)[1], just);
    let less =
        "The smallest weight of this link with which the reported weight is 8589934591 or more is 1, 6 less than now.";
    assert_eq!(said(&heavy_ring(5), 0, 8_589_934_591)[1], less);
}

/// If link 0 has the largest weight, every side weighs twice that, and only node 2 leaves both its ends together.
#[test]
fn of_cuts_as_light_only_those_that_the_link_does_not_cross_are_named() {
    let text = "nodes 3\nlink 0-1:1\nlink 1-2:4294967295\nlink 0-2:4294967295\ntree share 0 links 0 1\n";
    asked(text, 0, 8_589_934_591, |thickness| {
        assert_eq!(thickness.then.sides, bytes(&[&[1], &[2], &[1, 2]]));
        assert_eq!(thickness.too_light(), bytes(&[&[2]]).iter().collect::<Vec<_>>());
    });
    let expected = [
        "No weight of this link makes the reported weight 8589934591 or more.",
        "The cut that severs node 2 from node 0 weighs 8589934590 whatever this link weighs: it crosses links 1 (1-2:4294967295) and 2 \
         (0-2:4294967295), and not this one.",
    ];
    assert_eq!(said(text, 0, 8_589_934_591)[1..], expected);
}

/// What contradicts this figure for link 0 of the triangle.
fn contradicts(wanted: u64, weight: Option<u64>) -> Option<String> {
    let parsed = parse(TRIANGLE);
    let findings = reference_findings(&parsed);
    let error = Figure::new(&findings, 0, wanted, weight).thickness().err();
    error
}

/// The link needs 2 less than what is wanted, and node 2 weighs 6 whatever the link weighs.
#[test]
fn a_figure_that_does_not_fit_the_reports_is_an_error() {
    let none = Some("no weight of the link is said to be enough, and the largest one is".to_string());
    let too_small = Some("the weight that is said to be enough is not".to_string());
    let too_large = Some("less than the weight that is said to be the smallest is enough".to_string());
    for wanted in 0..=6 {
        let right: u64 = [0, 0, 0, 1, 2, 3, 4][wanted as usize];
        for weight in (0..=9).chain([MOST_WEIGHT - 1, MOST_WEIGHT]) {
            let expected = match weight {
                less if less < right => &too_small,
                more if more > right => &too_large,
                _ => &None,
            };
            assert_eq!(contradicts(wanted, Some(weight)), *expected, "{wanted}: {weight}");
        }
        assert_eq!(contradicts(wanted, None), none, "{wanted}");
    }
    for wanted in [7, 8, MOST_WEIGHT, u64::MAX] {
        assert_eq!(contradicts(wanted, None), None, "{wanted}");
        for weight in [0, 4, 5, 6, MOST_WEIGHT] {
            assert_eq!(contradicts(wanted, Some(weight)), too_small, "{wanted}: {weight}");
        }
    }
}

#[test]
fn a_number_that_does_not_go_with_the_figure_is_an_error() {
    assert_eq!(
        [0, 5, u32::MAX].map(|figure| weight_said(0, figure)),
        [0, 5, MOST_WEIGHT].map(|weight| Ok(Some(weight)))
    );
    assert_eq!(weight_said(20, 0), Ok(None));
    let given = Err("no weight of the link is said to be enough, and one is given".to_string());
    assert_eq!([1, u32::MAX].map(|figure| weight_said(20, figure)), [given.clone(), given]);
    for number in [3, 16, 17, 18, 19, 21, u32::MAX] {
        let refused = Err(format!("the link must not be refused, number {number}"));
        assert_eq!([0, 5].map(|figure| weight_said(number, figure)), [refused.clone(), refused]);
    }
    let parsed = parse(TRIANGLE);
    let findings = reference_findings(&parsed);
    assert_eq!(findings.figure(3, 5).err().as_deref(), Some("the link must not be refused, number 18"));
    assert!(findings.figure(2, 5).is_ok());
}

/// Links 1 to 3 have the same ends, weight or trunk as the one before, which a sheet leaves out.
#[test]
fn another_weight_leaves_all_else_as_it_is() {
    let text = "# Trenches\nnodes 3\nnode 1 hall\nlink 0-1:7 trunk 4 name a\nlink 0-1:7\nlink 1-2:7\nlink 1-2:9 trunk 0\nlink \
                0-2:9\ntree share 2 links 0 2\ntree share 1 links 1 4\n";
    let parsed = parse(text);
    for link in 0..5 {
        for weight in [0, 7, 8, 9, MOST_WEIGHT] {
            let changed = reweighed(&parsed, link, weight);
            let sheet = sheet::write_contents(&changed.contents);
            assert_eq!(sheet::read_contents(&sheet).as_ref(), Ok(&changed.contents));
            let mut back = changed;
            assert_eq!(back.contents.network.links[link].weight, weight);
            back.contents.network.links[link].weight = parsed.contents.network.links[link].weight;
            assert_eq!(back, parsed);
        }
    }
}

fn link_of(names: &[Option<&str>], word: &str) -> Result<usize, String> {
    let link = |name: &Option<&str>| match name {
        Some(name) => format!("link 0-1:1 name {name}\n"),
        None => "link 0-1:1\n".to_string(),
    };
    let links: String = names.iter().map(link).collect();
    let parsed = parse(&format!("nodes 2\n{links}tree share 1 links 0\n"));
    let findings = reference_findings(&parsed);
    findings.link(word)
}

#[test]
fn a_link_is_found_by_its_name_or_number() {
    let names = [Some("old wire"), None, Some("\"Kabel #3\""), Some("radio bridge"), Some("-"), Some("old wire")];
    let cases =
        [("radio bridge", 3), ("  radio \t bridge ", 3), ("Kabel #3", 2), ("-", 4), ("1", 1), (" 5 ", 5), ("003", 3)];
    for (word, link) in cases {
        assert_eq!(link_of(&names, word), Ok(link), "{word}");
    }
    let numbered = "and they are numbered from 0";
    for word in ["6", "radio", "Radio bridge", "", " ", "-1", "+1", "1.0", "1e0", "0x1", "99999999999999999999999"] {
        let expected = format!("there is no link '{word}': the network has 6 links, {numbered}");
        assert_eq!(link_of(&names, word), Err(expected));
    }
    assert_eq!(link_of(&[None], "1"), Err(format!("there is no link '1': the network has 1 link, {numbered}")));
    let several = "links 0 and 5 have the name 'old wire': to ask for one of them, give its number";
    assert_eq!(link_of(&names, "old wire"), Err(several.to_string()));
    let three = "links 0, 1 and 2 have the name 'a': to ask for one of them, give its number";
    assert_eq!(link_of(&[Some("a"); 3], "a"), Err(three.to_string()));
}

#[test]
fn where_names_of_links_are_numbers_numbers_mean_names() {
    let names = [Some("2"), Some("0"), None, Some("7"), Some("7"), Some("radio")];
    let only = "a number means a name here, since names of links are numbers";
    let cases = [("2", 0), ("0", 1), ("radio", 5)];
    for (word, link) in cases {
        assert_eq!(link_of(&names, word), Ok(link), "{word}");
    }
    for word in ["1", "5", "02"] {
        assert_eq!(
            link_of(&names, word),
            Err(format!("there is no link '{word}': the network has 6 links, and {only}"))
        );
    }
    let several =
        format!("links 3 and 4 have the name '7': to ask for one of them, give it a name of its own, for {only}");
    assert_eq!(link_of(&names, "7"), Err(several));
}

/// A node and a link as JSON.
fn node(node: usize) -> String {
    format!(r#"{{"node": {node}, "name": {}}}"#, if node == 2 { "\"hall\"" } else { "null" })
}

fn link(number: usize, [first, second]: [usize; 2], weight: u64) -> String {
    let (first, second) = (node(first), node(second));
    format!(r#"{{"link": {number}, "name": null, "first": {first}, "second": {second}, "weight": {weight}}}"#)
}

/// The record for a link of the triangle with the name of a node, and its sentences as JSON.
fn record(name: &str, number: usize, wanted: u64) -> (String, String) {
    let text = format!("# Triangle\n{TRIANGLE}").replace("nodes 3\n", "nodes 3\nnode 2 hall\n");
    asked(&text, number, wanted, |thickness| {
        let sentences: Vec<String> = thickness.sentences().iter().map(|sentence| format!("{sentence:?}")).collect();
        (thickness.record(name).collect(), sentences.join(", "))
    })
}

#[test]
fn records_have_the_link_the_figure_and_the_cuts_that_are_too_light() {
    let (first, link_0) = (r#""file": "a.net", "title": "Triangle""#, link(0, [0, 1], 3));
    let (printed, sentences) = record("a.net", 0, 6);
    let expected = format!(
        r#"{{{first}, "link": {link_0}, "wanted": 6, "weight": 5, "thickness": 4, "weight_then": 6, "none_lighter": true, "sentences": [{sentences}], "too_light": []}}"#
    );
    assert_eq!(printed, format!("{expected}\n"));
    let (printed, sentences) = record("a.net", 0, 3);
    let expected = format!(
        r#"{{{first}, "link": {link_0}, "wanted": 3, "weight": 5, "thickness": 1, "weight_then": 3, "none_lighter": false, "sentences": [{sentences}], "too_light": []}}"#
    );
    assert_eq!(printed, format!("{expected}\n"));
    let (printed, sentences) = record("a.net", 0, u64::MAX);
    let cut = format!(r#"{{"severed": [{}], "crossing": [{}, {}]}}"#, node(2), link(1, [1, 2], 2), link(2, [0, 2], 4));
    let expected = format!(
        r#"{{{first}, "link": {link_0}, "wanted": 18446744073709551615, "weight": 5, "thickness": null, "weight_then": 6, "none_lighter": true, "sentences": [{sentences}], "too_light": [{cut}]}}"#
    );
    assert_eq!(printed, format!("{expected}\n"));
}

/// The link crosses every cut of a network of two nodes, and has the largest weight there.
#[test]
fn a_record_has_every_cut_of_the_largest_weight_where_the_link_crosses_all() {
    let two = "nodes 2\nlink 0-1:5\ntree share 5 links 0\n";
    let record: String = asked(two, 0, 4_294_967_296, |thickness| thickness.record("-").collect());
    let start =
        format!(r#"{{"file": "-", "title": null, "link": {}, "wanted": 4294967296, "weight": 5, "#, link(0, [0, 1], 5));
    assert!(record.starts_with(&start), "{record}");
    let then = r#""thickness": null, "weight_then": 4294967295, "none_lighter": false, "sentences": ["#;
    assert!(record.contains(then), "{record}");
    let crossing = link(0, [0, 1], 4_294_967_295);
    let end = format!(r#"], "too_light": [{{"severed": [{}], "crossing": [{crossing}]}}]}}"#, node(1));
    assert!(record.ends_with(&format!("{end}\n")), "{record}");
}

/// A link of a network that is small enough to look at every side.
struct Small {
    network: Network,
    link: usize,
}

impl Small {
    /// The network with another weight for the link.
    fn with(&self, weight: u64) -> Network {
        thickness::with_weight(&self.network, self.link, weight)
    }

    fn present(&self) -> u64 {
        self.network.links[self.link].weight
    }

    /// Whether the link has one end among these nodes.
    fn crosses(&self, nodes: &[usize]) -> bool {
        let ends = self.network.links[self.link];
        nodes.contains(&ends.first) != nodes.contains(&ends.second)
    }

    /// What the lightest of the sides that a tree shows weighs, of those that the link does not cross, if there are any, and of those that
    /// it crosses, if it weighs nothing.
    fn lightest(&self) -> (Option<u64>, u64) {
        let network = self.with(0);
        let (crossed, uncrossed): (Vec<_>, Vec<_>) = every_side::shown(&network)
            .into_iter()
            .partition(|(_, side)| self.crosses(&every_side::nodes_of(&network, *side)));
        let least = |shown: &[every_side::Shown]| shown.iter().map(|(candidate, _)| candidate.weight).min();
        (least(&uncrossed), least(&crossed).expect("a tree link between the link's ends"))
    }

    /// Wanted weights around those at which the answer changes.
    fn wanted_weights(&self, random: &mut Random) -> Vec<u64> {
        let around = |weight: u64| [weight.saturating_sub(1), weight, weight + 1];
        let (uncrossed, crossed) = self.lightest();
        let with = [0, self.present(), MOST_WEIGHT].map(|weight| crossed + weight);
        let mut wanted: Vec<u64> = with.into_iter().chain(uncrossed).flat_map(around).collect();
        wanted.extend([0, u64::MAX, crossed + random.number() % MOST_WEIGHT]);
        wanted
    }

    /// Holds what is said of the figure against every side of the network with that weight.
    fn assert_figure(&self, weight: u64, sentences: &[String]) -> &'static str {
        let (changed, present) = (self.with(weight), self.present());
        let reported = every_side::answer(&changed).candidate.weight;
        let then = sentences[2].strip_prefix(&format!("With that weight the reported weight is {reported}. "));
        if then.expect("the weight with that") == "No cut of the whole network weighs less." {
            assert_eq!(every_side::lightest(&changed).0, reported, "{changed:?}");
        }
        let (case, compared) = match weight {
            0 if present > 0 => ("0", format!("{present} less than now: ")),
            same if same == present => ("equal", "just what it weighs now.".to_string()),
            more if more > present => ("more", format!("{} more than now.", more - present)),
            less => ("less", format!("{} less than now.", present - less)),
        };
        assert!(sentences[1].contains(&format!(" or more is {weight}, {compared}")), "{sentences:?}");
        case
    }

    /// Holds the cuts that are said to be too light against those that every side of the network with the largest weight gives.
    fn assert_too_light(&self, sentences: &[String]) -> &'static str {
        let sides: Vec<Vec<usize>> =
            list::by_every_side(&self.with(MOST_WEIGHT)).sides.iter().map(list::nodes).collect();
        let all = sides.iter().all(|side| self.crosses(side));
        let (case, none, start) = match all {
            true => ("4 bytes", "No 4-byte weight of this link makes ", "Then the cut that severs "),
            false => ("whatever it weighs", "No weight of this link makes ", "The cut that severs "),
        };
        let names = Names::none(self.network.nodes, 0);
        let too_light = sides.iter().filter(|side| all || !self.crosses(side)).map(|side| names.node_list(side));
        let (named, more) = cuts_named(&sentences[2..], start);
        assert!(too_light.clone().take(3).eq(named.iter().copied()), "{sentences:?}");
        assert_eq!(named.len() + more, too_light.count(), "{sentences:?}");
        assert!(sentences[1].starts_with(none), "{sentences:?}");
        case
    }
}

/// The nodes of every cut that is named, and how many more are counted.
fn cuts_named<'a>(sentences: &'a [String], start: &str) -> (Vec<&'a str>, usize) {
    let nodes = |sentence: &'a String| Some(sentence.strip_prefix(start)?.split_once(" from node 0 weighs ")?.0);
    let counted = |sentence: &String| match sentence.split(' ').collect::<Vec<_>>()[..] {
        ["One", "more", "cut", ..] => Some(1),
        [more, "more", "cuts", ..] => more.parse().ok(),
        _ => None,
    };
    (sentences.iter().filter_map(nodes).collect(), sentences.iter().filter_map(counted).sum())
}

/// Every side that a tree shows tells the figure, and every side of all whether one weighs less than the report with it.
#[test]
fn what_is_said_of_a_link_holds_for_every_side() {
    let mut random = Random::new(7);
    let mut cases: BTreeMap<&str, usize> = BTreeMap::new();
    for round in 0..25 * FEATURES.len() {
        let feature = FEATURES[round % FEATURES.len()];
        let size = generate::random_size(&mut random, 2, every_side::MOST_NODES, feature);
        let network = generate::network(&mut random, size, feature);
        let small = Small { link: random.below(network.links.len()), network };
        let (parsed, (uncrossed, crossed)) = (parsed(small.network.clone()), small.lightest());
        let findings = reference_findings(&parsed);
        for wanted in small.wanted_weights(&mut random) {
            let needed = wanted.saturating_sub(crossed);
            let enough = needed <= MOST_WEIGHT && uncrossed.is_none_or(|least| least >= wanted);
            let figure = findings.figure(small.link, wanted).expect("the unit's figure");
            assert_eq!(figure.weight, enough.then_some(needed), "{wanted}: link {} of {:?}", small.link, small.network);
            let sentences = figure.thickness().expect("a figure that fits").sentences();
            let case = match figure.weight {
                Some(weight) => small.assert_figure(weight, &sentences),
                None => small.assert_too_light(&sentences),
            };
            *cases.entry(case).or_default() += 1;
        }
    }
    assert!(cases.len() == 6 && cases.values().all(|&count| count > 50), "{cases:?}");
}
