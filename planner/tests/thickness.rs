//! The command `network thickness` as a planner runs it.

mod command;
mod written;

use command::{accepted_examples, assert_needs_a_list, example, network, printed};
use planner::names::Names;
use planner::text;
use reference::cuts::{self, WHOLE};
use reference::generate::{self, FEATURES};
use reference::list;
use reference::network::Network;
use reference::random::Random;
use reference::sheet::{Contents, MOST_WEIGHT};
use reference::thickness;
use std::collections::BTreeSet;
use written::{crossing, ends, links, names, node_list, node_name};

const PAGE: &str = include_str!("../../docs/REPORT.md");
const TRIANGLE: &str = "nodes 3\nlink 0-1:3\nlink 1-2:2\nlink 0-2:4\ntree share 2 links 0 2\n";
const SMALLEST: &str = "The smallest weight of this link with which the reported weight is ";

/// The lines that the command prints for a link of an example.
#[track_caller]
fn lines_of(name: &str, link: &str, wanted: &str) -> Vec<String> {
    printed(&["thickness", &example(name), link, wanted], "").lines().map(str::to_string).collect()
}

#[test]
fn the_radio_bridge_of_the_works_may_be_thicker_or_thinner() {
    let bridge = "Link 10 radio bridge (office block to hall D) weighs 50 now, and the reported weight is 250.";
    let certain = "No cut of the whole network weighs less.";
    for (wanted, figure) in
        [("300", "100, 50 more than now"), ("250", "50, just what it weighs now"), ("201", "1, 49 less than now")]
    {
        let expected = [
            bridge.to_string(),
            format!("{SMALLEST}{wanted} or more is {figure}."),
            format!("With that weight the reported weight is {wanted}. "),
        ];
        for link in ["radio bridge", "10"] {
            let said = lines_of("works.net", link, wanted);
            assert_eq!(said[..2], expected[..2]);
            assert!(said[2].starts_with(&expected[2]) && said.len() == 3, "{said:?}");
            assert_eq!(said[2].ends_with(certain), wanted != "201", "{said:?}");
        }
    }
    // trees 1 and 2 load the bridge with 20 each
    let expected = [
        bridge,
        "The smallest weight of this link with which the reported weight is 150 or more is 0, 50 less than now: the reported weight is \
         that large even if this link weighs nothing.",
        "With that weight the reported weight is 200. No cut that the listed trees show is lighter; the whole network may hold one, but \
         none that weighs less than 90. Tree 1 would bring the load of link 10 radio bridge to 20, more than its weight of 0, so only \
         tree 0 counts.",
    ];
    assert_eq!(lines_of("works.net", "10", "150"), expected);
}

#[test]
fn the_weighbridge_is_too_light_whatever_the_radio_bridge_weighs() {
    let expected = [
        "Link 10 radio bridge (office block to hall D) weighs 50 now, and the reported weight is 250.",
        "No weight of this link makes the reported weight 301 or more.",
        "The cut that severs weighbridge from core weighs 300 whatever this link weighs: it crosses links 55 (store to \
         weighbridge:100), 56 (energy centre to weighbridge:100) and 57 (gate house to weighbridge:100), and not this one.",
    ];
    assert_eq!(lines_of("works.net", "radio bridge", "301"), expected);
    assert_eq!(lines_of("works.net", "10", "18446744073709551615")[2], expected[2]);
}

#[test]
fn weights_go_up_to_the_largest_of_4_bytes() {
    let present = "Link 3 (2-3) weighs 10000000 now, and the reported weight is 12500000.";
    let just = "The smallest weight of this link with which the reported weight is 4297467295 or more is 4294967295, 4284967295 more \
                than now.";
    let said = lines_of("heavy-links.net", "3", "4297467295");
    assert_eq!(said[..2], [present, just]);
    assert!(said[2].starts_with("With that weight the reported weight is 4297467295. "), "{said:?}");
    let expected = [
        present,
        "No 4-byte weight of this link makes the reported weight 4297467296 or more: with 4294967295, the largest, it is 4297467295.",
        "Then the cut that severs node 3 from node 0 weighs 4297467295: it crosses links 3 (2-3:4294967295) and 4 (1-3:2500000).",
    ];
    assert_eq!(lines_of("heavy-links.net", "3", "4297467296"), expected);
}

/// Links 0 and 2 have the same name, that of link 1 needs quotes in a text, and that of link 3 looks like an option.
#[test]
fn a_link_is_given_by_name_or_number() {
    let text = "nodes 3\nlink 0-1:3 name old wire\nlink 1-2:2 name \"Kabel #7\"\nlink 0-2:4 name old wire\nlink 0-2:0 name --json\n\
                tree share 2 links 0 2\n";
    let of = |link: &str| network(&["thickness", "--", "-", link, "5"], text.as_bytes());
    let (one, three) = (of("1"), of("3"));
    assert_eq!((one.0, three.0), (Some(0), Some(0)));
    assert!(one.1.starts_with(b"Link 1 Kabel #7 (1-2) weighs 2 now, "));
    assert!(three.1.starts_with(b"Link 3 --json (0-2) weighs 0 now, "));
    assert_eq!([of("Kabel #7"), of(" Kabel  #7 "), of("01")], [one.clone(), one.clone(), one]);
    assert_eq!(of("--json"), three);
    let error = |message: &str| (Some(1), vec![], format!("standard input: {message}\n"));
    let several = "links 0 and 2 have the name 'old wire': to ask for one of them, give its number";
    assert_eq!(of("old wire"), error(several));
    for link in ["4", "old", "", "-1", "\"Kabel #7\"", "4294967296"] {
        assert_eq!(
            of(link),
            error(&format!("there is no link '{link}': the network has 4 links, and they are numbered from 0"))
        );
    }
    let numbers = text.replace("Kabel #7", "3");
    let of = |link: &str| network(&["thickness", "-", link, "5"], numbers.as_bytes());
    assert!(of("3").1.starts_with(b"Link 1 \"3\" (1-2) weighs 2 now, "));
    let only = "a number means a name here, since names of links are numbers";
    assert_eq!(of("0"), error(&format!("there is no link '0': the network has 4 links, and {only}")));
    let several = "links 0 and 2 have the name 'old wire': to ask for one of them, give it a name of its own, for";
    assert_eq!(of("old wire"), error(&format!("{several} {only}")));
}

/// It is looked at before the file is read.
#[test]
fn a_wanted_weight_is_a_whole_number_of_8_bytes() {
    for word in ["", "x", "-1", "+1", "1e3", "1.5", "1,000", "1 ", " 1", "0x10", "\u{663}", "18446744073709551616"] {
        let expected =
            format!("expected a wanted weight in digits that is at most 18446744073709551615, found '{word}'\n");
        let said = network(&["thickness", "--", "missing.net", "0", word], b"");
        assert_eq!(said, (Some(1), vec![], expected));
    }
    for word in ["0", "0005", "18446744073709551615"] {
        let (status, printed, errors) = network(&["thickness", "missing.net", "0", word], b"");
        assert_eq!((status, printed.len()), (Some(1), 0));
        assert!(errors.starts_with("missing.net: "), "{errors}");
        assert_eq!(network(&["thickness", "-", "0", word], TRIANGLE.as_bytes()).0, Some(0));
    }
    assert_eq!(printed(&["thickness", "-", "0", "0005"], TRIANGLE), printed(&["thickness", "-", "0", "5"], TRIANGLE));
    assert!(printed(&["thickness", "-", "0", "0"], TRIANGLE)
        .contains(&format!("{SMALLEST}0 or more is 0, 3 less than now: ")));
}

/// Nor is it said then that there is no such link.
#[test]
fn a_refused_network_has_no_thickness() {
    for link in ["0", "1000", "none"] {
        assert_needs_a_list("thickness", [link, "1"]);
    }
}

/// That there is no such weight answers the question, so that the status is 0.
#[test]
fn a_thickness_as_json_is_a_line_with_the_same_sentences() {
    for wanted in ["6", "3", "7"] {
        let said = printed(&["thickness", "-", "0", wanted], TRIANGLE);
        let json = printed(&["thickness", "-", "0", wanted, "--json"], TRIANGLE);
        let sentences = said.lines().map(|line| format!("{line:?}")).collect::<Vec<_>>().join(", ");
        assert!(json.contains(&format!(r#", "sentences": [{sentences}], "too_light": ["#)), "{json}");
        let start = r#"{"file": "standard input", "title": null, "link": {"link": 0, "name": null, "first": {"node": 0, "name": null}, "second": {"node": 1, "name": null}, "weight": 3}, "#;
        let (thickness, then, certain) = match wanted {
            "6" => ("4", "6", true),
            "3" => ("1", "3", false),
            _ => ("null", "6", true),
        };
        let figure = format!(r#""wanted": {wanted}, "weight": 5, "thickness": {thickness}, "weight_then": {then}, "#);
        assert!(json.starts_with(&format!(r#"{start}{figure}"none_lighter": {certain}, "#)), "{json}");
        assert_eq!((json.matches('\n').count(), json.ends_with("]}\n")), (1, true), "{json}");
        assert_eq!(json.matches("\"severed\": ").count(), usize::from(wanted == "7"));
    }
}

fn reported(network: &Network, link: usize, weight: u64) -> u64 {
    cuts::answer(&thickness::with_weight(network, link, weight)).candidate.weight
}

/// What the command says of a link of a text, held against the reference's reports of the network with every weight near the figure.
struct Held<'a> {
    file: &'a str,
    text: &'a str,
    network: &'a Network,
    link: usize,
}

impl Held<'_> {
    /// Wanted weights around those at which the answer changes.
    fn wanted_weights(&self) -> BTreeSet<u64> {
        let weights = [0, self.network.links[self.link].weight, MOST_WEIGHT / 2, MOST_WEIGHT];
        let reported = weights.map(|weight| reported(self.network, self.link, weight));
        let around = reported.iter().flat_map(|weight| [weight.saturating_sub(1), *weight, weight + 1]);
        around.chain([0, 1, u64::MAX]).collect()
    }

    /// Whether there is a figure.
    fn assert(&self, wanted: u64) -> bool {
        let (link, input) = (self.link.to_string(), if self.file == "-" { self.text } else { "" });
        let said = printed(&["thickness", self.file, &link, &wanted.to_string()], input);
        let lines: Vec<&str> = said.lines().collect();
        assert_eq!(lines[0], self.present());
        let figure = lines[1].strip_prefix(&format!("{SMALLEST}{wanted} or more is "));
        match figure.and_then(|figure| figure.split([',', ':']).next()) {
            Some(figure) => self.assert_figure(wanted, figure.parse().expect(figure), &lines),
            None => self.assert_none(wanted, &lines),
        }
        figure.is_some()
    }

    fn present(&self) -> String {
        let written = &links(self.text)[self.link];
        let (Self { link, network, .. }, names) = (self, names(self.text, self.network.nodes));
        let (joins, weight) = (ends(written, &names), reported(network, *link, written.weight));
        format!(
            "Link {link}{} ({joins}) weighs {} now, and the reported weight is {weight}.",
            written.name, written.weight
        )
    }

    fn assert_figure(&self, wanted: u64, figure: u64, lines: &[&str]) {
        let Self { link, network, .. } = self;
        assert!(figure <= MOST_WEIGHT, "{lines:?}");
        for weight in figure.saturating_sub(3)..=(figure + 3).min(MOST_WEIGHT) {
            assert_eq!(reported(network, *link, weight) >= wanted, weight >= figure, "{weight}: {lines:?}");
        }
        let answer = cuts::answer(&thickness::with_weight(network, *link, figure));
        let then = format!("With that weight the reported weight is {}. ", answer.candidate.weight);
        let promise = lines[2].strip_prefix(&then).expect(&then);
        assert_eq!(promise == "No cut of the whole network weighs less.", answer.verdict == WHOLE, "{lines:?}");
        let shown = promise.starts_with("No cut that the listed trees show is lighter");
        assert_eq!((shown, lines.len()), (answer.verdict != WHOLE, 3), "{lines:?}");
    }

    fn assert_none(&self, wanted: u64, lines: &[&str]) {
        for weight in [0, 1, MOST_WEIGHT / 2, MOST_WEIGHT - 1, MOST_WEIGHT] {
            assert!(reported(self.network, self.link, weight) < wanted, "{weight}: {lines:?}");
        }
        let expected = self.why_none(wanted);
        let named = expected.len().min(4);
        assert_eq!(lines[1..=named], expected[..named]);
        assert_eq!(lines.len() - 1 - named, usize::from(expected.len() > 4), "{lines:?}");
    }

    /// What is to be said where no weight is enough, of every cut, by the list of the network with the largest weight.
    fn why_none(&self, wanted: u64) -> Vec<String> {
        let changed = thickness::with_weight(self.network, self.link, MOST_WEIGHT);
        let (mut links, names) = (links(self.text), names(self.text, changed.nodes));
        links[self.link].weight = MOST_WEIGHT;
        let [one, other] = links[self.link].ends;
        let crosses = |side: &Vec<usize>| side.contains(&one) != side.contains(&other);
        let sides: Vec<Vec<usize>> = list::by_candidates(&changed).sides.iter().map(list::nodes).collect();
        let (all, most) = (sides.iter().all(crosses), cuts::answer(&changed).candidate.weight);
        let cut = |side: &Vec<usize>| {
            let (links, weight) = crossing(side, &links, &names);
            let severs = format!("cut that severs {} from {}", node_list(side, &names), node_name(0, &names));
            match all {
                true => format!("Then the {severs} weighs {weight}: it crosses {links}."),
                false => {
                    format!(
                        "The {severs} weighs {weight} whatever this link weighs: it crosses {links}, and not this one."
                    )
                }
            }
        };
        let makes = format!("weight of this link makes the reported weight {wanted} or more");
        let none = match all {
            true => format!("No 4-byte {makes}: with {MOST_WEIGHT}, the largest, it is {most}."),
            false => format!("No {makes}."),
        };
        [none].into_iter().chain(sides.iter().filter(|side| all || !crosses(side)).map(cut)).collect()
    }
}

/// Each link of the examples that are accepted.
#[test]
fn the_figures_of_the_examples_are_the_smallest() {
    let (mut figures, mut none) = (0, 0);
    for file in accepted_examples() {
        let text = std::fs::read_to_string(&file).expect("text");
        let network = &text::parse(text.as_bytes()).expect("a network").contents.network;
        for link in 0..network.links.len() {
            let held = Held { file: &file, text: &text, network, link };
            for wanted in held.wanted_weights() {
                *if held.assert(wanted) { &mut figures } else { &mut none } += 1;
            }
        }
    }
    assert!(figures > 500 && none > 200, "{figures} {none}");
}

/// Some links of random networks.
#[test]
fn the_figures_of_random_networks_are_the_smallest() {
    let mut random = Random::new(20);
    let (mut figures, mut none) = (0, 0);
    for feature in FEATURES {
        for _ in 0..4 {
            let size = generate::random_size(&mut random, 2, 20, feature);
            let network = &generate::network(&mut random, size, feature);
            let names = Names::none(network.nodes, network.links.len());
            let text = &text::write(&Contents::without_trunks(network.clone()), &names);
            let link = random.below(network.links.len());
            let held = Held { file: "-", text, network, link };
            for wanted in held.wanted_weights() {
                *if held.assert(wanted) { &mut figures } else { &mut none } += 1;
            }
        }
    }
    assert!(figures > 200 && none > 100, "{figures} {none}");
}

/// docs/REPORT.md shows all that is printed for the radio bridge of the works, and why there is none for two other weights.
#[test]
fn the_page_shows_what_is_printed() {
    let (works, heavy) = (example("works.net"), example("heavy-links.net"));
    let said = [("10", "300"), ("10", "301")].map(|(link, wanted)| printed(&["thickness", &works, link, wanted], ""));
    let figure = printed(&["thickness", &works, "10", "150"], "");
    let none = printed(&["thickness", &heavy, "3", "5000000000"], "");
    let (_, figure) = figure.split_once('\n').expect("two lines");
    let (_, none) = none.split_once('\n').expect("two lines");
    for shown in [&said[0], &said[1], figure, none] {
        let indented = format!("    {}\n", shown.trim_end().replace('\n', "\n    "));
        assert!(PAGE.contains(&format!("\n\n{indented}\n")), "{indented}");
    }
}
