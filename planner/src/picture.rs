//! Pictures of a network: SVG that stands by itself, and text for Graphviz. Nodes hang in rows below node 0 by the
//! links of one tree, the side of a cut is shaded, and links are the wider the heavier they are.

mod curves;
mod dot;
mod layout;
mod letters;
mod svg;
#[cfg(test)]
mod tests;
mod tree;

pub use dot::dot;
pub use svg::svg;

/// Colours that stay apart for readers who do not tell red from green.
const CROSSING_COLOUR: &str = "#D55E00";
const TIE_COLOUR: &str = "#0072B2";
const INSIDE_COLOUR: &str = "#F0B93A";
const MEMBER_COLOUR: &str = "#606060";
const OTHER_COLOUR: &str = "#B9B9B9";

/// What a picture shows of a network.
#[derive(Clone, Debug)]
pub struct Drawing {
    pub title: String,
    /// Lines below the title.
    pub caption: Vec<String>,
    /// Node 0 is the core switch.
    pub nodes: Vec<Node>,
    /// Link k is the k-th of these, from 0. The members form a spanning tree of all nodes.
    pub links: Vec<Link>,
}

#[derive(Clone, Debug)]
pub struct Node {
    /// As shown: a name or a number.
    pub name: String,
    /// Whether it is in the side.
    pub inside: bool,
}

#[derive(Clone, Debug)]
pub struct Link {
    pub first: usize,
    pub second: usize,
    pub weight: u64,
    pub name: Option<String>,
    /// Whether it is of the tree by which nodes are laid out.
    pub member: bool,
    pub mark: Mark,
}

/// What a link is to the reported cut.
#[derive(Clone, Copy, Debug, PartialEq, Eq)]
pub enum Mark {
    Plain,
    /// Crosses the reported cut.
    Crossing,
    /// Crosses another cut as light, and not this one.
    Tie,
}

impl Drawing {
    fn heaviest(&self) -> u64 {
        self.links.iter().map(|link| link.weight).max().unwrap_or(0)
    }

    /// The width of a link of that weight in pixels: from 0.8 it grows with the square root of the weight over the
    /// heaviest, up to 7, or less where there are many links.
    fn width(&self, weight: u64) -> f64 {
        let most = 6.2 * (80.0 / self.links.len() as f64).sqrt().clamp(0.3, 1.0);
        0.8 + most * (weight as f64 / self.heaviest().max(1) as f64).sqrt()
    }

    /// All that is known of a link.
    fn words(&self, number: usize) -> String {
        let Link { first, second, weight, name, .. } = &self.links[number];
        let name = name.as_ref().map(|name| format!(", {name}")).unwrap_or_default();
        format!("link {number}{name}: {} to {}, weight {weight}", self.nodes[*first].name, self.nodes[*second].name)
    }
}

impl Link {
    /// What stands on a marked link: its weight, behind its name if it has one.
    fn label(&self) -> String {
        match &self.name {
            Some(name) => format!("{}: {}", letters::shortened(name), self.weight),
            None => self.weight.to_string(),
        }
    }

    fn colour(&self) -> &'static str {
        match self.mark {
            Mark::Crossing => CROSSING_COLOUR,
            Mark::Tie => TIE_COLOUR,
            Mark::Plain if self.member => MEMBER_COLOUR,
            Mark::Plain => OTHER_COLOUR,
        }
    }
}
