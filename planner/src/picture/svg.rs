//! Networks as SVG, without scripts, style sheets or anything outside the file.

use super::curves::{self, Curve};
use super::layout::{Frame, Hang, Layout, Point};
use super::letters::{escaped, width, wrapped};
use super::{Drawing, Mark};
use super::{CROSSING_COLOUR, INSIDE_COLOUR, MEMBER_COLOUR, OTHER_COLOUR, TIE_COLOUR};
use std::fmt::Write;

/// Between the edge of the picture and what it shows.
const MARGIN: f64 = 24.0;

/// The least width of a picture.
const LEAST_PICTURE: f64 = 640.0;

/// The sizes of letters in the title and below it.
const TITLE_SIZE: f64 = 18.0;
const CAPTION_SIZE: f64 = 13.0;

const TEXT_COLOUR: &str = "#222222";
const SIDE_COLOUR: &str = "#FBE7BF";

/// What ties have in place of a full line.
const DASHES: &str = r#" stroke-dasharray="7 3""#;

/// The picture of a network.
pub fn svg(drawing: &Drawing) -> String {
    let layout = Layout::new(drawing);
    let curves = curves::curves(drawing, &layout);
    let labels = curves::labels(drawing, &layout, &curves);
    let Frame { left, top, right, bottom } = curves::extent(&layout, &curves, &labels);
    let wide = (right - left + 2.0 * MARGIN).max(LEAST_PICTURE).ceil();
    let (head, head_height) = heading(drawing, wide);
    let high = (head_height + bottom - top + MARGIN).ceil();
    let area = format!(r#"width="{wide}" height="{high}""#);
    let style = format!(r#"font-family="sans-serif" fill="{TEXT_COLOUR}""#);
    let move_by = format!("translate({:.1} {:.1})", (wide - left - right) / 2.0, head_height - top);
    [
        format!(r#"<svg xmlns="http://www.w3.org/2000/svg" {area} viewBox="0 0 {wide} {high}" {style}>"#),
        format!(r#"<rect {area} fill="white"/>"#),
        head,
        format!(r#"<g transform="{move_by}">"#),
        shade(drawing, &layout),
        links(drawing, &curves),
        nodes(drawing, &layout),
        weights(drawing, &layout, &labels),
        "</g>\n</svg>\n".to_string(),
    ]
    .join("\n")
}

/// Title, caption and legend, and how high they are.
fn heading(drawing: &Drawing, wide: f64) -> (String, f64) {
    let mut head = format!("<g font-size=\"{CAPTION_SIZE}\">\n");
    let mut bottom = 14.0;
    let room = wide - 2.0 * MARGIN;
    for line in wrapped(&drawing.title, 0.9 * room / TITLE_SIZE) {
        bottom += 1.3 * TITLE_SIZE;
        let style = format!(r#"font-size="{TITLE_SIZE}" font-weight="bold""#);
        let _ = writeln!(head, r#"<text x="{MARGIN}" y="{bottom:.1}" {style}>{}</text>"#, escaped(&line));
    }
    bottom += 3.0;
    for line in drawing.caption.iter().flat_map(|line| wrapped(line, room / CAPTION_SIZE)) {
        bottom += 1.4 * CAPTION_SIZE;
        let _ = writeln!(head, r#"<text x="{MARGIN}" y="{bottom:.1}">{}</text>"#, escaped(&line));
    }
    bottom += 2.0 * CAPTION_SIZE;
    let mut left = MARGIN;
    for (sample, words) in legend(drawing) {
        let length = 34.0 + 0.88 * width(&words) * CAPTION_SIZE;
        if left > MARGIN && left + length > wide - MARGIN {
            bottom += 1.5 * CAPTION_SIZE;
            left = MARGIN;
        }
        let text = format!(r#"<text x="34">{words}</text>"#);
        let _ = writeln!(head, r#"<g transform="translate({left:.1} {bottom:.1})">{sample}{text}</g>"#);
        left += length + 20.0;
    }
    (head + "</g>", bottom + 24.0)
}

/// Samples of what there is in the picture, each with its words.
fn legend(drawing: &Drawing) -> Vec<(String, String)> {
    let line = |colour: &str, wide: f64, dashes: &str| {
        format!(r#"<path d="M0 -4.5L28 -4.5" stroke="{colour}" stroke-width="{wide:.2}"{dashes}/>"#)
    };
    let shade = format!(r#"<rect y="-12" width="28" height="16" rx="8" fill="{SIDE_COLOUR}"/>"#);
    let node = format!(r#"<circle cx="14" cy="-4" r="5" fill="{INSIDE_COLOUR}" stroke="{TEXT_COLOUR}"/>"#);
    let marked = |mark: Mark| drawing.links.iter().any(|link| link.mark == mark);
    let widest = format!("widest: weight {}", drawing.heaviest());
    let samples = [
        (drawing.nodes.iter().any(|node| node.inside), shade + &node, "severed side"),
        (marked(Mark::Crossing), line(CROSSING_COLOUR, 3.5, ""), "link of the cut, with its weight"),
        (marked(Mark::Tie), line(TIE_COLOUR, 3.5, DASHES), "link of another cut as light"),
        (true, line(MEMBER_COLOUR, 2.5, ""), "tree link"),
        (drawing.links.iter().any(|link| !link.member), line(OTHER_COLOUR, 2.5, ""), "other link"),
        (true, line(MEMBER_COLOUR, drawing.width(drawing.heaviest()), ""), &widest),
    ];
    let shown = samples.into_iter().filter(|(shown, ..)| *shown);
    shown.map(|(_, sample, words)| (sample, words.to_string())).collect()
}

/// The shade behind the side: behind its nodes, and along the members between them.
fn shade(drawing: &Drawing, layout: &Layout) -> String {
    let inside = |node: usize| drawing.nodes[node].inside;
    let wide = 2.6 * layout.size;
    let mut text = format!("<g fill=\"{SIDE_COLOUR}\" stroke=\"{SIDE_COLOUR}\">\n");
    for link in drawing.links.iter().filter(|link| link.member && inside(link.first) && inside(link.second)) {
        let (from, to) = (layout.places[link.first], layout.places[link.second]);
        let way = format!("M{:.1} {:.1}L{:.1} {:.1}", from.x, from.y, to.x, to.y);
        let _ = writeln!(text, r#"<path d="{way}" stroke-width="{wide:.1}"/>"#);
    }
    for (_, Point { x, y }) in layout.places.iter().enumerate().filter(|(node, _)| inside(*node)) {
        let _ = writeln!(text, r#"<circle cx="{x:.1}" cy="{y:.1}" r="{:.1}" stroke="none"/>"#, wide / 2.0);
    }
    text + "</g>"
}

/// All links: others below members, and those that cross above all.
fn links(drawing: &Drawing, curves: &[Curve]) -> String {
    let mut order: Vec<usize> = (0..drawing.links.len()).collect();
    order.sort_by_key(|&number| match drawing.links[number].mark {
        Mark::Plain => usize::from(drawing.links[number].member),
        Mark::Tie => 2,
        Mark::Crossing => 3,
    });
    let elements: String = order.into_iter().map(|number| element(drawing, number, &curves[number])).collect();
    format!("<g fill=\"none\">\n{elements}</g>")
}

/// The element of a link, on a light band if it crosses.
fn element(drawing: &Drawing, number: usize, Curve { from, bend, to }: &Curve) -> String {
    let link = &drawing.links[number];
    let (class, band, dashes) = match link.mark {
        Mark::Plain => ("link", false, ""),
        Mark::Crossing => ("link crossing", true, ""),
        Mark::Tie => ("link tie", false, DASHES),
    };
    let way = format!("M{:.1} {:.1}Q{:.1} {:.1} {:.1} {:.1}", from.x, from.y, bend.x, bend.y, to.x, to.y);
    let (colour, wide, words) = (link.colour(), drawing.width(link.weight), escaped(&drawing.words(number)));
    let mut text = String::new();
    if band {
        let broad = wide + 6.0;
        let _ = writeln!(text, r#"<path d="{way}" stroke="{colour}" stroke-width="{broad:.2}" opacity="0.25"/>"#);
    }
    let style = format!(r#"stroke="{colour}" stroke-width="{wide:.2}"{dashes}"#);
    let _ = writeln!(text, r#"<path class="{class}" d="{way}" {style}><title>{words}</title></path>"#);
    text
}

/// All nodes with their names.
fn nodes(drawing: &Drawing, layout: &Layout) -> String {
    let size = layout.size;
    let halo =
        format!(r#"stroke="white" stroke-width="{:.1}" stroke-linejoin="round" paint-order="stroke""#, size / 4.0);
    let mut text = format!("<g font-size=\"{size:.1}\">\n");
    for (number, node) in drawing.nodes.iter().enumerate() {
        let Point { x, y } = layout.places[number];
        let (radius, start) = (layout.radius(number), layout.start(number));
        let (class, fill) = match node.inside {
            true => ("node inside", INSIDE_COLOUR),
            false if number == 0 => ("node", TEXT_COLOUR),
            false => ("node", "white"),
        };
        let disc = format!(r#"cx="{x:.1}" cy="{y:.1}" r="{radius:.1}" fill="{fill}" stroke="{TEXT_COLOUR}""#);
        let (turn, left, down, anchor) = match layout.hangs[number] {
            Hang::Under => (0.0, 0.0, start + 0.76 * size, "middle"),
            Hang::From(turn) => (turn, start, 0.36 * size - layout.lift(turn), "start"),
            Hang::UpTo(turn) => (turn, -start, 0.36 * size - layout.lift(turn), "end"),
        };
        let turned = format!(r#"transform="translate({x:.1} {y:.1}) rotate({turn})""#);
        let place = format!(r#"x="{left:.1}" y="{down:.1}" {turned} text-anchor="{anchor}""#);
        let (whole, shown) = (escaped(&node.name), escaped(&layout.names[number]));
        let _ = write!(text, r#"<g class="{class}"><title>{whole}</title><circle {disc}/>"#);
        let _ = writeln!(text, "<text {place} {halo}>{shown}</text></g>");
    }
    text + "</g>"
}

/// The labels of marked links, each in a frame of its link's colour.
fn weights(drawing: &Drawing, layout: &Layout, labels: &[(usize, Frame)]) -> String {
    let size = layout.size;
    let mut text = format!("<g font-size=\"{size:.1}\" text-anchor=\"middle\">\n");
    for (number, Frame { left, top, right, bottom }) in labels {
        let link = &drawing.links[*number];
        let area = format!(r#"width="{:.1}" height="{:.1}""#, right - left, bottom - top);
        let style = format!(r#"rx="3" fill="white" stroke="{}""#, link.colour());
        let _ = write!(text, r#"<rect x="{left:.1}" y="{top:.1}" {area} {style}/>"#);
        let (middle, base) = ((left + right) / 2.0, (top + bottom) / 2.0 + 0.36 * size);
        let _ = writeln!(text, r#"<text x="{middle:.1}" y="{base:.1}">{}</text>"#, escaped(&link.label()));
    }
    text + "</g>"
}
