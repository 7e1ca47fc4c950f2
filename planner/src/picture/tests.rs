use super::*;
use reference::random::Random;
use std::collections::BTreeMap;
use xml::{parse, Element};

#[path = "../../tests/xml/mod.rs"]
mod xml;

/// Names that no part of a picture may take for its own.
const HOSTILE: [&str; 9] = [
    "\"><script>alert('x')</script>",
    "a & b &amp; c",
    "<!-- -->",
    "nul \0 bell \u{7} delete \u{7f} \u{85} \u{fffe} \u{ffff}",
    "two\nlines\r\n\tand a tab",
    "back\\slash \\N \\\"",
    "Прессовый цех № 4, линия 2",
    "焊接車間第一生產線控制櫃機房北側入口",
    "",
];

/// How the nodes of a tree hang together.
#[derive(Clone, Copy, Debug, PartialEq)]
enum Shape {
    Random,
    Star,
    Path,
    Caterpillar,
    Broom,
}

const SHAPES: [Shape; 5] = [Shape::Random, Shape::Star, Shape::Path, Shape::Caterpillar, Shape::Broom];

/// A network whose side is what hangs below one node, and some of whose other links are ties.
fn drawing(shape: Shape, nodes: usize, links: usize, seed: u64) -> Drawing {
    let mut random = Random::new(seed);
    let top = 1 + random.below(nodes - 1);
    let mut inside = vec![false; nodes];
    let mut drawing =
        Drawing { title: "A network".to_string(), caption: Vec::new(), nodes: Vec::new(), links: Vec::new() };
    for node in 0..nodes {
        let parent = match shape {
            _ if node == 0 => 0,
            Shape::Random => random.below(node),
            Shape::Star => 0,
            Shape::Caterpillar if node >= nodes / 2 => random.below(nodes / 2),
            Shape::Broom if node >= nodes / 2 => nodes / 2 - 1,
            _ => node - 1,
        };
        inside[node] = node == top || inside[parent];
        let length = 4 + random.below(11);
        let name = (0..length).map(|_| char::from(b'a' + random.below(26) as u8)).collect();
        drawing.nodes.push(Node { name, inside: inside[node] });
        if node > 0 {
            drawing.links.push(link(parent, node, 1 + random.below(10_000) as u64, true));
        }
    }
    while drawing.links.len() < links {
        let (first, second) = (random.below(nodes), random.below(nodes));
        if first != second && (inside[first] == inside[second] || random.below(8) == 0) {
            drawing.links.push(link(first, second, random.below(10_000) as u64, false));
        }
    }
    for link in &mut drawing.links {
        let crossing = inside[link.first] != inside[link.second];
        link.mark = if crossing { Mark::Crossing } else { [Mark::Tie, Mark::Plain][random.below(20).min(1)] };
    }
    drawing
}

fn link(first: usize, second: usize, weight: u64, member: bool) -> Link {
    Link { first, second, weight, name: None, member, mark: Mark::Plain }
}

/// A drawing of plain links, with nodes named by their numbers.
fn plain(nodes: usize, links: Vec<Link>) -> Drawing {
    let nodes = (0..nodes).map(|node| Node { name: node.to_string(), inside: false }).collect();
    Drawing { title: String::new(), caption: Vec::new(), nodes, links }
}

/// The number of a link in its title.
fn number_of(element: &Element) -> usize {
    let words = element.child("title").text.strip_prefix("link ").expect("a title with the link's number");
    words[..words.find([':', ',']).expect("an end of the number")].parse().expect("a number")
}

/// The links by their numbers.
fn links_of(picture: &Element) -> BTreeMap<usize, &Element> {
    picture.of_class("link").into_iter().map(|link| (number_of(link), link)).collect()
}

/// The six numbers in the data of a curve: its start, its bend and its end.
fn curve_of(link: &Element) -> Vec<f64> {
    let data = link.attribute("d").replace(['M', 'Q'], " ");
    data.split_whitespace().map(|number| number.parse().expect("a number")).collect()
}

/// The middles and radii of the nodes.
fn discs_of(picture: &Element) -> Vec<(f64, f64, f64)> {
    let circles = picture.of_class("node").into_iter().map(|node| node.child("circle"));
    circles.map(|circle| (circle.number("cx"), circle.number("cy"), circle.number("r"))).collect()
}

/// How far nodes are from node 0 by members.
fn depths_of(drawing: &Drawing) -> Vec<usize> {
    let mut depths = vec![usize::MAX; drawing.nodes.len()];
    depths[0] = 0;
    for _ in 0..drawing.nodes.len() {
        for link in drawing.links.iter().filter(|link| link.member) {
            depths[link.second] = depths[link.second].min(depths[link.first].saturating_add(1));
            depths[link.first] = depths[link.first].min(depths[link.second].saturating_add(1));
        }
    }
    depths
}

/// The corners of the box around a text, at 0.6 of the size of its letters a character.
type Corners = [(f64, f64); 4];

/// The boxes of all texts below an element, with the texts.
fn boxes(element: &Element, size: f64, anchor: &str) -> Vec<(String, Corners)> {
    let size = if element.attribute("font-size").is_empty() { size } else { element.number("font-size") };
    let anchor = match element.attribute("text-anchor") {
        "" => anchor,
        own => own,
    };
    let mut found: Vec<_> = element.children.iter().flat_map(|child| boxes(child, size, anchor)).collect();
    if element.name == "text" {
        let long = 0.6 * size * element.text.chars().count() as f64;
        let left = element.number("x")
            - long * ["start", "middle", "end"].iter().position(|&one| one == anchor).unwrap() as f64 / 2.0;
        let (top, bottom) = (element.number("y") - 0.75 * size, element.number("y") + 0.2 * size);
        let corners = [(left, top), (left + long, top), (left + long, bottom), (left, bottom)];
        found.push((element.text.clone(), corners.map(|corner| moved(corner, element.attribute("transform")))));
    }
    found
}

/// A point behind `translate(x y) rotate(degrees)`.
fn moved((x, y): (f64, f64), transform: &str) -> (f64, f64) {
    if transform.is_empty() {
        return (x, y);
    }
    let numbers = transform.replace("translate(", "").replace("rotate(", "").replace(')', "");
    let numbers: Vec<f64> = numbers.split(' ').map(|number| number.parse().expect("a number")).collect();
    let (sine, cosine) = numbers[2].to_radians().sin_cos();
    (numbers[0] + x * cosine - y * sine, numbers[1] + x * sine + y * cosine)
}

/// Whether two boxes overlap: no side of either parts them.
fn overlap(one: &Corners, other: &Corners) -> bool {
    let parts = |corners: &Corners, side: usize| {
        let (from, to) = (corners[side], corners[(side + 1) % 4]);
        let along = |(x, y): (f64, f64)| (to.1 - from.1) * x - (to.0 - from.0) * y;
        let least = |corners: &Corners| corners.iter().map(|&corner| along(corner)).fold(f64::MAX, f64::min);
        let most = |corners: &Corners| corners.iter().map(|&corner| along(corner)).fold(f64::MIN, f64::max);
        most(one) <= least(other) || most(other) <= least(one)
    };
    !(0..4).any(|side| parts(one, side) || parts(other, side))
}

/// The group that holds the network, and not the heading.
fn network_of(picture: &Element) -> &Element {
    picture.children.iter().find(|child| child.attribute("transform").starts_with("translate")).expect("a network")
}

/// Fails if a node is over another, or rows are not by depth.
fn assert_rows(drawing: &Drawing, picture: &Element) {
    let (discs, depths) = (discs_of(picture), depths_of(drawing));
    for one in 0..discs.len() {
        for other in 0..one {
            let (first, second) = (discs[one], discs[other]);
            assert_eq!(depths[one].cmp(&depths[other]), first.1.total_cmp(&second.1), "rows of {one} and {other}");
            let apart = (first.0 - second.0).hypot(first.1 - second.1);
            assert!(apart > first.2 + second.2, "nodes {one} and {other} of {}", discs.len());
        }
    }
}

/// Fails if a name or label is over another.
fn assert_readable(picture: &Element) {
    let texts = boxes(network_of(picture), 0.0, "start");
    for (place, (text, corners)) in texts.iter().enumerate() {
        for (other_text, other) in &texts[..place] {
            assert!(!overlap(corners, other), "{text} over {other_text}");
        }
    }
}

#[test]
fn boxes_that_overlap_are_told_from_others() {
    let square = |x: f64, y: f64| [(x, y), (x + 2.0, y), (x + 2.0, y + 2.0), (x, y + 2.0)];
    assert!(overlap(&square(0.0, 0.0), &square(1.5, 1.5)));
    assert!(!overlap(&square(0.0, 0.0), &square(2.5, 0.0)));
    let diamond = [(3.0, 0.0), (6.0, 3.0), (3.0, 6.0), (0.0, 3.0)];
    assert!(!overlap(&square(-1.2, -1.2), &diamond));
    assert!(overlap(&square(0.0, 0.0), &diamond));
}

#[test]
fn pictures_are_well_formed_and_stand_by_themselves() {
    for shape in SHAPES {
        let text = svg(&drawing(shape, 40, 90, 1));
        let picture = parse(&text);
        assert_eq!(
            picture.attribute("viewBox"),
            format!("0 0 {} {}", picture.number("width"), picture.number("height"))
        );
        assert_eq!(picture.attribute("font-family"), "sans-serif");
        let ground = picture.child("rect");
        assert_eq!((ground.attribute("fill"), ground.number("width")), ("white", picture.number("width")));
        for foreign in ["<script", "<style", "<image", "<use", "href", "url(", "@import"] {
            assert!(!text.contains(foreign), "{foreign} in a picture");
        }
        assert_eq!(text, svg(&drawing(shape, 40, 90, 1)), "a drawing has one picture");
    }
}

#[test]
fn every_link_and_node_is_shown_with_its_marks() {
    for (seed, shape) in (0..).zip(SHAPES) {
        let mut drawing = drawing(shape, 30, 70, seed);
        drawing.links[3].name = Some("radio".to_string());
        let picture = parse(&svg(&drawing));
        let marked = |mark: Mark| drawing.links.iter().filter(|link| link.mark == mark).count();
        assert!(marked(Mark::Crossing) > 0 && marked(Mark::Tie) > 0);
        assert_eq!(picture.of_class("crossing").len(), marked(Mark::Crossing));
        assert_eq!(picture.of_class("tie").len(), marked(Mark::Tie));
        assert_eq!(picture.of_class("link").len(), drawing.links.len());
        for (number, element) in links_of(&picture) {
            let Link { first, second, weight, mark, .. } = &drawing.links[number];
            let class = [(Mark::Crossing, "link crossing"), (Mark::Tie, "link tie"), (Mark::Plain, "link")];
            assert!(class.contains(&(*mark, element.attribute("class"))), "{mark:?} {element:?}");
            let name = if number == 3 { ", radio" } else { "" };
            let (first, second) = (&drawing.nodes[*first].name, &drawing.nodes[*second].name);
            assert_eq!(
                element.child("title").text,
                format!("link {number}{name}: {first} to {second}, weight {weight}")
            );
        }
        let nodes = picture.of_class("node");
        assert_eq!(nodes.len(), 30);
        for (node, element) in drawing.nodes.iter().zip(nodes) {
            assert_eq!((&element.child("text").text, &element.child("title").text), (&node.name, &node.name));
            assert_eq!(element.attribute("class"), if node.inside { "node inside" } else { "node" });
        }
    }
}

#[test]
fn marked_links_are_above_the_others_and_have_labels() {
    let mut drawing = drawing(Shape::Random, 30, 60, 4);
    let crossing = drawing.links.iter().position(|link| link.mark == Mark::Crossing).expect("a crossing link");
    drawing.links[crossing].name = Some("radio bridge".to_string());
    let picture = parse(&svg(&drawing));
    let layer = |link: &Element| match (link.attribute("class"), drawing.links[number_of(link)].member) {
        ("link", false) => 0,
        ("link", true) => 1,
        ("link tie", _) => 2,
        _ => 3,
    };
    assert!(picture.of_class("link").is_sorted_by_key(|link| layer(link)));
    let names = drawing.nodes.iter().map(|node| node.name.clone());
    let labels = drawing.links.iter().filter(|link| link.mark != Mark::Plain).map(|link| match &link.name {
        Some(name) => format!("{name}: {}", link.weight),
        None => link.weight.to_string(),
    });
    let mut expected: Vec<String> = names.chain(labels).collect();
    let mut shown: Vec<String> = boxes(network_of(&picture), 0.0, "start").into_iter().map(|(text, _)| text).collect();
    expected.sort();
    shown.sort();
    assert_eq!(shown, expected);
}

#[test]
fn heavier_links_are_wider() {
    for links in [70, 600] {
        let mut drawing = drawing(Shape::Random, 50, links, 2);
        drawing.links[9].weight = 4_294_967_295;
        drawing.links[10].weight = 4_000_000_000;
        drawing.links[11].weight = 0;
        let picture = parse(&svg(&drawing));
        let elements = links_of(&picture);
        let mut widths: Vec<(u64, f64)> =
            (0..links).map(|number| (drawing.links[number].weight, elements[&number].number("stroke-width"))).collect();
        widths.sort_by_key(|(weight, _)| *weight);
        assert!(widths.windows(2).all(|pair| pair[0].1 <= pair[1].1), "{widths:?}");
        assert!(widths[links - 2].1 < widths[links - 1].1 && widths[0].1 + 1.0 < widths[links - 1].1, "{widths:?}");
        assert!(widths[0].1 >= 0.8 && widths[links - 1].1 <= 7.0, "{widths:?}");
    }
    let weightless = svg(&plain(2, vec![link(0, 1, 0, true)]));
    assert_eq!(links_of(&parse(&weightless))[&0].attribute("stroke-width"), "0.80");
}

#[test]
fn nodes_stand_apart_in_rows_by_depth() {
    for (shape, nodes) in SHAPES.into_iter().flat_map(|shape| [(shape, 2), (shape, 60)]) {
        let drawing = drawing(shape, nodes, 2 * nodes, 3);
        assert_rows(&drawing, &parse(&svg(&drawing)));
    }
}

#[test]
fn parents_stand_over_the_middle_of_their_children() {
    let drawing = drawing(Shape::Random, 60, 59, 8);
    let discs = discs_of(&parse(&svg(&drawing)));
    for parent in 0..60 {
        let children = drawing.links.iter().filter(|link| link.first == parent).map(|link| discs[link.second].0);
        let (least, most) = children.fold((f64::MAX, f64::MIN), |reach, x| (reach.0.min(x), reach.1.max(x)));
        assert!(least > most || ((least + most) / 2.0 - discs[parent].0).abs() < 0.2, "node {parent}");
    }
}

#[test]
fn no_label_is_over_another() {
    for (shape, seed) in SHAPES.into_iter().flat_map(|shape| [(shape, 6), (shape, 7), (shape, 8)]) {
        assert_readable(&parse(&svg(&drawing(shape, 60, 110, seed))));
    }
}

#[test]
fn labels_and_nodes_are_within_the_picture() {
    for shape in SHAPES {
        let picture = parse(&svg(&drawing(shape, 40, 80, 2)));
        let network = network_of(&picture);
        let shift = network.attribute("transform").replace(')', " 0)");
        let corners = boxes(network, 0.0, "start").into_iter().flat_map(|(_, corners)| corners);
        let discs = discs_of(&picture)
            .into_iter()
            .flat_map(|(x, y, radius)| [(x - radius, y - radius), (x + radius, y + radius)]);
        for point in corners.chain(discs) {
            let (x, y) = moved(point, &shift);
            assert!(0.0 < x && x < picture.number("width") && 0.0 < y && y < picture.number("height"), "{shape:?}");
        }
    }
}

#[test]
fn large_networks_are_ordered_and_not_too_wide() {
    let shapes = [(Shape::Random, 3000.0), (Shape::Star, 4500.0), (Shape::Path, 1500.0), (Shape::Caterpillar, 3000.0)];
    for (shape, widest) in shapes {
        let mut drawing = drawing(shape, 256, 400, 5);
        drawing.links.iter_mut().for_each(|link| link.mark = Mark::Plain);
        let picture = parse(&svg(&drawing));
        assert!(picture.number("width") < widest, "{shape:?}: {}", picture.number("width"));
        assert_rows(&drawing, &picture);
        assert_readable(&picture);
    }
}

#[test]
fn members_are_straight_and_other_links_are_not() {
    let drawing = drawing(Shape::Random, 40, 120, 6);
    let picture = parse(&svg(&drawing));
    let discs = discs_of(&picture);
    for (number, element) in links_of(&picture) {
        let curve = curve_of(element);
        let Link { first, second, member, .. } = drawing.links[number];
        let (from, to) = (discs[first.min(second)], discs[first.max(second)]);
        assert_eq!([curve[0], curve[1], curve[4], curve[5]], [from.0, from.1, to.0, to.1], "link {number}");
        let off = ((from.0 + to.0) / 2.0 - curve[2]).hypot((from.1 + to.1) / 2.0 - curve[3]);
        assert_eq!(member, off < 1.0, "link {number}");
    }
}

#[test]
fn parallel_links_are_drawn_apart() {
    for count in [3, 40, 2048] {
        let mut links = vec![link(1, 0, 5, true)];
        links
            .extend((1..count).map(|number| if number % 2 == 0 { link(0, 1, 5, false) } else { link(1, 0, 5, false) }));
        let picture = parse(&svg(&plain(2, links)));
        let mut bends: Vec<f64> = picture.of_class("link").into_iter().map(|link| curve_of(link)[2]).collect();
        bends.sort_by(f64::total_cmp);
        assert!(bends.windows(2).all(|pair| pair[0] < pair[1]), "{bends:?}");
        assert!(count > 40 || bends.windows(2).all(|pair| pair[1] - pair[0] > 7.0), "{bends:?}");
        assert!(picture.number("width") < 1500.0);
    }
}

#[test]
fn links_do_not_hide_behind_nodes() {
    for shape in SHAPES {
        let drawing = drawing(shape, 60, 110, 2);
        let picture = parse(&svg(&drawing));
        let discs = discs_of(&picture);
        let hidden = |(number, element): &(usize, &Element)| {
            let (curve, link) = (curve_of(element), &drawing.links[*number]);
            let mut others = (0..60).filter(|&node| node != link.first && node != link.second);
            others.any(|node| (1..200).any(|part| behind(discs[node], &curve, f64::from(part) / 200.0)))
        };
        let others = links_of(&picture).into_iter().filter(|(number, _)| !drawing.links[*number].member);
        assert!(others.filter(hidden).count() <= 1, "links of {shape:?}");
    }
}

/// Whether a curve is behind a disc after that part of its way.
fn behind((x, y, radius): (f64, f64, f64), curve: &[f64], part: f64) -> bool {
    let rest = 1.0 - part;
    let along =
        |from: usize| rest * rest * curve[from] + 2.0 * part * rest * curve[from + 2] + part * part * curve[from + 4];
    (along(0) - x).hypot(along(1) - y) < radius
}

#[test]
fn level_names_are_away_from_the_links_of_parents() {
    let ends = [(0, 1), (0, 2), (1, 3), (2, 4)];
    let mut drawing = plain(5, ends.into_iter().map(|(first, second)| link(first, second, 5, true)).collect());
    drawing.nodes.iter_mut().for_each(|node| node.name = format!("switch {}", node.name));
    let picture = parse(&svg(&drawing));
    let discs = discs_of(&picture);
    for (number, node) in picture.of_class("node").into_iter().enumerate() {
        let text = node.child("text");
        let inner = number < 3;
        assert_eq!(text.attribute("transform").ends_with("rotate(0)"), inner, "node {number}");
        let left = inner && discs[number].0 < discs[0].0;
        assert_eq!(text.attribute("text-anchor"), if left { "end" } else { "start" }, "node {number}");
    }
}

#[test]
fn few_tree_links_go_over_names() {
    let mut over = 0;
    for drawing in (0..5).map(|seed| drawing(Shape::Random, 60, 70, seed)) {
        let picture = parse(&svg(&drawing));
        let (discs, texts) = (discs_of(&picture), boxes(network_of(&picture), 0.0, "start"));
        for Link { first, second, .. } in drawing.links.iter().filter(|link| link.member) {
            let (from, to) = (discs[*first], discs[*second]);
            let line = [(from.0, from.1), (to.0, to.1), (to.0 + 0.1, to.1), (from.0 + 0.1, from.1)];
            over += (0..60).filter(|node| node != first && node != second && overlap(&line, &texts[*node].1)).count();
        }
    }
    assert!(over <= 20, "{over} names in five pictures");
}

#[test]
fn the_side_is_together() {
    let mut star = plain(40, (1..40).map(|node| link(0, node, 5, true)).collect());
    (0..40).filter(|node| node % 3 == 1).for_each(|node| star.nodes[node].inside = true);
    let two_halls = [(0, 1), (0, 2), (0, 3), (1, 4), (1, 5), (1, 6), (3, 7), (3, 8), (3, 9)];
    let mut halls = plain(10, two_halls.into_iter().map(|(first, second)| link(first, second, 5, true)).collect());
    [4, 9].into_iter().for_each(|node| halls.nodes[node].inside = true);
    for drawing in [star, halls] {
        let discs = discs_of(&parse(&svg(&drawing)));
        let parents: Vec<usize> = drawing.links.iter().map(|link| link.first).collect();
        let mut leaves: Vec<usize> = (0..discs.len()).filter(|node| !parents.contains(node)).collect();
        leaves.sort_by(|&one, &other| discs[one].0.total_cmp(&discs[other].0));
        let sides: Vec<bool> = leaves.iter().map(|&leaf| drawing.nodes[leaf].inside).collect();
        assert!(sides.chunk_by(|one, other| one == other).filter(|run| run[0]).count() == 1, "{sides:?}");
    }
}

#[test]
fn the_heading_has_title_caption_and_a_legend_of_what_is_shown() {
    let mut shown = drawing(Shape::Random, 20, 40, 7);
    shown.title = "A <works> network, with a title that is rather long for a picture as narrow as this one".to_string();
    shown.caption = vec!["First line.".to_string(), "Second & last.".to_string()];
    let words = |drawing: &Drawing| -> Vec<String> {
        let picture = parse(&svg(drawing));
        let heading = &picture.children[1];
        assert!(heading.of_class("link").is_empty() && heading.of_class("tie").is_empty());
        let texts = heading.children.iter().map(|child| if child.name == "g" { child.child("text") } else { child });
        texts.map(|text| text.text.clone()).collect()
    };
    let legend = ["severed side", "link of the cut, with its weight", "link of another cut as light", "tree link"];
    let lines = words(&shown);
    let caption = lines.iter().position(|line| line == "First line.").expect("the caption");
    assert!(caption > 1, "a long title has more than one line");
    assert_eq!(lines[..caption].join(" "), shown.title);
    assert_eq!(lines[caption + 1], "Second & last.");
    assert_eq!(lines[caption + 2..caption + 6], legend);
    shown.links.iter_mut().filter(|link| link.mark == Mark::Tie).for_each(|link| link.mark = Mark::Plain);
    let lines = words(&shown);
    assert!(lines.contains(&legend[1].to_string()) && !lines.contains(&legend[2].to_string()), "{lines:?}");
}

#[test]
fn hostile_and_long_names_are_shown_as_they_are() {
    let long = "x".repeat(5000);
    for name in HOSTILE.into_iter().chain([long.as_str()]) {
        let mut drawing = drawing(Shape::Random, 12, 20, 3);
        (drawing.title, drawing.caption) = (name.to_string(), vec![name.to_string()]);
        drawing.nodes[4].name = name.to_string();
        let named = drawing.links.iter_mut().take(3);
        named.for_each(|link| (link.name, link.mark) = (Some(name.to_string()), Mark::Crossing));
        let picture = parse(&svg(&drawing));
        let kept: String = name.chars().map(|letter| if "\t\r\n".contains(letter) { ' ' } else { letter }).collect();
        let kept = kept.replace(['\0', '\u{7}', '\u{7f}', '\u{85}', '\u{fffe}', '\u{ffff}'], "\u{fffd}");
        let node = picture.of_class("node")[4];
        assert_eq!(node.child("title").text, kept);
        let shown = &node.child("text").text;
        if kept.chars().count() <= 18 {
            assert_eq!(*shown, kept);
        } else {
            let start = shown.strip_suffix('…').expect("an ellipsis");
            assert!(kept.starts_with(start) && (10..18).contains(&start.chars().count()), "{shown}");
        }
        assert!(links_of(&picture)[&0].child("title").text.starts_with(&format!("link 0, {kept}: ")));
        assert!(picture.number("width") < 2000.0);
    }
}

/// The lines of a graph, and the texts between quotes taken out of each; fails where a quote is open at the end.
fn statements(dot: &str) -> Vec<(String, Vec<String>)> {
    let mut statements = Vec::new();
    for line in dot.lines() {
        let (mut bare, mut texts, mut quoted) = (String::new(), Vec::new(), None::<String>);
        let mut letters = line.chars();
        while let Some(letter) = letters.next() {
            match (letter, &mut quoted) {
                ('"', None) => quoted = Some(String::new()),
                ('"', Some(_)) => texts.extend(quoted.take()),
                ('\\', Some(text)) => text.extend(['\\', letters.next().expect("a letter behind a backslash")]),
                (_, Some(text)) => text.push(letter),
                (_, None) => bare.push(letter),
            }
        }
        assert!(quoted.is_none(), "an open quote in {line:?}");
        statements.push((bare, texts));
    }
    statements
}

#[test]
fn graphs_have_all_nodes_and_links() {
    for (seed, shape) in (0..).zip(SHAPES) {
        let drawing = drawing(shape, 30, 70, seed);
        let statements = statements(&dot(&drawing));
        assert_eq!((statements[0].0.as_str(), statements.last().unwrap().0.as_str()), ("graph network {", "}"));
        let depths = depths_of(&drawing);
        let edges: Vec<_> = statements.iter().filter(|(bare, _)| bare.contains(" -- ")).collect();
        assert_eq!(edges.len(), 70);
        for (number, ((bare, texts), link)) in edges.into_iter().zip(&drawing.links).enumerate() {
            let ends: Vec<usize> =
                bare.split(" -- ").map(|end| end.trim().split(' ').next().unwrap().parse().unwrap()).collect();
            assert!([[link.first, link.second], [link.second, link.first]].contains(&[ends[0], ends[1]]));
            assert!(depths[ends[0]] <= depths[ends[1]], "the upper end first");
            assert!(bare.contains(&format!("constraint={}", link.member)) && bare.contains("penwidth="));
            assert_eq!(texts.contains(&link.weight.to_string()), link.mark != Mark::Plain, "a label where marked");
            let colours = [(Mark::Crossing, CROSSING_COLOUR), (Mark::Tie, TIE_COLOUR)];
            let colour = colours.iter().find(|(_, colour)| texts[0] == *colour).map(|(mark, _)| *mark);
            assert_eq!(colour.unwrap_or(Mark::Plain), link.mark);
            assert!(texts.last().unwrap().starts_with(&format!("link {number}: ")));
        }
        let filled =
            statements.iter().filter(|(_, texts)| texts.get(1).is_some_and(|fill| fill == INSIDE_COLOUR)).count();
        assert_eq!(filled, drawing.nodes.iter().filter(|node| node.inside).count());
    }
}

#[test]
fn graphs_quote_hostile_names() {
    for name in HOSTILE {
        let mut drawing = drawing(Shape::Random, 12, 20, 3);
        (drawing.title, drawing.caption) = (name.to_string(), vec![name.to_string()]);
        drawing.nodes[4].name = name.to_string();
        drawing.links.iter_mut().for_each(|link| (link.name, link.mark) = (Some(name.to_string()), Mark::Tie));
        let text = dot(&drawing);
        let statements = statements(&text);
        assert_eq!(statements.iter().filter(|(bare, _)| bare.contains(" -- ")).count(), 20);
        let (_, texts) = statements.iter().find(|(bare, _)| bare.starts_with("    4 [")).expect("node 4");
        let letters: String = name.chars().filter(|letter| letter.is_alphanumeric()).collect();
        let shown = texts[0].replace("\\n", "").replace("&amp;", "&");
        assert_eq!(shown.chars().filter(|letter| letter.is_alphanumeric()).collect::<String>(), letters);
        assert_eq!(texts[0].matches("\\n").count() - texts[0].matches("\\\\n").count(), name.matches('\n').count());
        assert!(text.chars().all(|letter| letter == '\n' || !letter.is_control()));
    }
}
