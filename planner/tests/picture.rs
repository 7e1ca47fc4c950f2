//! The commands `network picture` and `network dot` as a planner runs them.

mod command;
mod xml;

use command::{example, printed};
use planner::text;
use reference::network::Network;
use reference::{list, report};
use xml::{parse, Element};

const PICTURE_OF_THE_WORKS: &str = include_str!("../../docs/works.svg");

/// The network of each example that the monitor accepts, with its text.
fn examples() -> Vec<(String, Network)> {
    let files = std::fs::read_dir(example("")).expect("examples").map(|file| file.expect("a file").path());
    let texts = files.filter(|file| file.extension().is_some_and(|extension| extension == "net"));
    let texts = texts.filter(|file| !file.to_string_lossy().contains("/refused-"));
    let read = |text: String| (text.clone(), text::parse(text.as_bytes()).expect("a network").contents.network);
    texts.map(|file| read(std::fs::read_to_string(file).expect("text"))).collect()
}

/// The numbers of the links with one end in a side.
fn crossing(network: &Network, side: &[usize]) -> Vec<usize> {
    let ends_inside = |link: usize| {
        let link = network.links[link];
        side.iter().filter(|&&node| node == link.first || node == link.second).count()
    };
    (0..network.links.len()).filter(|&link| ends_inside(link) == 1).collect()
}

/// The numbers of the links of a class, from their titles, rising.
fn numbers(picture: &Element, class: &str) -> Vec<usize> {
    let number = |link: &Element| {
        let title = link.child("title").text.strip_prefix("link ").expect("a title of a link").to_string();
        title.split([':', ',']).next().and_then(|number| number.parse().ok()).expect("a number")
    };
    let mut numbers: Vec<usize> = picture.of_class(class).into_iter().map(number).collect();
    numbers.sort_unstable();
    numbers
}

#[test]
fn pictures_are_well_formed_and_colour_the_links_that_cross() {
    let examples = examples();
    assert!(examples.len() >= 19);
    for (text, network) in examples {
        let sides: Vec<Vec<usize>> = list::by_candidates(&network).sides.iter().map(list::nodes).collect();
        let cut = crossing(&network, &sides[0]);
        let plain = parse(&printed(&["picture"], &text));
        let tied = parse(&printed(&["picture", "--ties"], &text));
        for picture in [&plain, &tied] {
            assert!(picture.name == "svg" && picture.number("width") > 0.0 && picture.number("height") > 0.0);
            assert_eq!(numbers(picture, "link"), (0..network.links.len()).collect::<Vec<_>>());
            assert_eq!(numbers(picture, "crossing"), cut);
            assert_eq!(picture.of_class("node").len(), network.nodes);
            assert_eq!(picture.of_class("inside").len(), sides[0].len());
        }
        assert_eq!(numbers(&plain, "tie"), []);
        let of_others = sides[1..].iter().flat_map(|side| crossing(&network, side)).filter(|link| !cut.contains(link));
        let mut ties: Vec<usize> = of_others.collect();
        ties.sort_unstable();
        ties.dedup();
        assert_eq!(numbers(&tied, "tie"), ties);
    }
}

#[test]
fn the_picture_in_the_documents_is_that_of_the_works() {
    let works = std::fs::read_to_string(example("works.net")).expect("text");
    assert!(printed(&["picture", "-"], &works) == PICTURE_OF_THE_WORKS, "docs/REPORT.md has the command that makes it");
    let picture = parse(PICTURE_OF_THE_WORKS);
    assert_eq!(numbers(&picture, "crossing"), [3, 7, 10]);
    let names: Vec<&str> = picture.of_class("inside").iter().map(|node| node.child("title").text.as_str()).collect();
    assert!(names.contains(&"hall B") && names.contains(&"label printers") && !names.contains(&"hall A"));
}

#[test]
fn a_title_or_the_file_stands_above_a_picture() {
    let heads = |text: &str| {
        parse(&printed(&["picture"], text)).children[1]
            .children
            .iter()
            .map(|line| line.text.clone())
            .collect::<Vec<_>>()
    };
    let text = "nodes 2\nnode 0 core\nlink 0-1:4\ntree share 2 links 0\n";
    let caption = "The reported cut weighs 4 and severs 1 of 2 nodes from core. No cut of the";
    assert_eq!(heads(&format!("# Two <halls>\n{text}"))[..2], ["Two <halls>", caption]);
    assert_eq!(heads(text)[0], "standard input");
}

#[test]
fn graphs_have_every_link_and_colour_those_that_cross() {
    for (text, network) in examples() {
        let side = list::by_candidates(&network).sides[0];
        let crossing = crossing(&network, &list::nodes(&side));
        let graph = printed(&["dot"], &text);
        assert!(graph.starts_with("graph network {\n") && graph.ends_with("}\n"));
        let edges: Vec<&str> = graph.lines().filter(|line| line.contains(" -- ")).collect();
        assert_eq!(edges.len(), network.links.len());
        let coloured = |link: usize| edges[link].contains("color=\"#D55E00\"");
        assert_eq!((0..edges.len()).filter(|&link| coloured(link)).collect::<Vec<_>>(), crossing);
        let filled = graph.lines().filter(|line| line.contains("fillcolor=\"#F0B93A\"")).count();
        assert_eq!(filled, report::SIDE_BYTES * 8 - side.iter().map(|byte| byte.count_zeros() as usize).sum::<usize>());
    }
}
