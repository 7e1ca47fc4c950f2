//! Networks as text for Graphviz's `dot`.

use super::tree::Tree;
use super::{letters, Drawing, Mark, INSIDE_COLOUR};
use std::fmt::Write;

/// The text of a graph. Nodes and links stand in the order of the drawing, each link with its upper end first.
pub fn dot(drawing: &Drawing) -> String {
    let heading = [std::slice::from_ref(&drawing.title), &drawing.caption].concat().join("\n");
    let mut text = "graph network {\n".to_string();
    let _ = writeln!(text, r#"    graph [label="{}", labelloc=t, fontname="sans-serif"];"#, quoted(&heading));
    text.push_str("    node [fontname=\"sans-serif\", fontsize=10, style=filled];\n");
    text.push_str("    edge [fontname=\"sans-serif\", fontsize=10];\n    { rank=source; 0 }\n");
    for (number, node) in drawing.nodes.iter().enumerate() {
        let fill = if node.inside { INSIDE_COLOUR } else { "white" };
        let _ = writeln!(text, r#"    {number} [label="{}", fillcolor="{fill}"];"#, quoted(&node.name));
    }
    let depths = Tree::of_members(drawing).depths;
    for (number, link) in drawing.links.iter().enumerate() {
        let mut ends = [link.first, link.second];
        ends.sort_by_key(|&end| depths[end]);
        let (colour, wide) = (link.colour(), drawing.width(link.weight));
        let _ = write!(text, r#"    {} -- {} [color="{colour}", penwidth={wide:.2}, "#, ends[0], ends[1]);
        if link.mark != Mark::Plain {
            let style = if link.mark == Mark::Tie { "dashed" } else { "solid" };
            let _ = write!(text, r#"xlabel="{}", fontcolor="{colour}", style={style}, "#, quoted(&link.label()));
        }
        let _ = writeln!(text, r#"constraint={}, tooltip="{}"];"#, link.member, quoted(&drawing.words(number)));
    }
    text + "}\n"
}

/// A text as it stands between quotes.
fn quoted(text: &str) -> String {
    let lines: Vec<String> = text.split('\n').map(letters::allowed).collect();
    lines.join("\n").replace('\\', "\\\\").replace('"', "\\\"").replace('&', "&amp;").replace('\n', "\\n")
}
