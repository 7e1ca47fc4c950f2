//! The findings as a picture.

use super::{cut, Findings};
use crate::picture::{Drawing, Link, Mark, Node};
use reference::list;

impl Findings<'_> {
    /// The network laid out by its first tree, with the reported cut and, if asked for, all others as light. The file's name stands in
    /// for a title.
    pub fn drawing(&self, file: &str, ties: bool) -> Drawing {
        let node = |node| Node { name: self.names().label(node), inside: self.answer.side.contains(&node) };
        let marks = self.marks(ties);
        let links = self.network().links.iter().enumerate().map(|(number, link)| Link {
            first: link.first,
            second: link.second,
            weight: link.weight,
            name: self.names().links[number].clone(),
            member: self.network().trees[0].members.contains(&number),
            mark: marks[number],
        });
        Drawing {
            title: self.parsed.title.clone().unwrap_or_else(|| file.to_string()),
            caption: self.caption(ties),
            nodes: (0..self.network().nodes).map(node).collect(),
            links: links.collect(),
        }
    }

    /// What each link is marked as.
    fn marks(&self, ties: bool) -> Vec<Mark> {
        let mut marks = vec![Mark::Plain; self.network().links.len()];
        let tied = if ties { &self.sides[1..] } else { &[] };
        for side in tied {
            cut::crossing(self.network(), &list::nodes(side)).into_iter().for_each(|link| marks[link] = Mark::Tie);
        }
        self.crossing.iter().for_each(|&link| marks[link] = Mark::Crossing);
        marks
    }

    /// What stands above the picture.
    fn caption(&self, ties: bool) -> Vec<String> {
        let (severed, nodes) = (self.answer.side.len(), self.network().nodes);
        let cut = format!(
            "The reported cut weighs {} and severs {severed} of {nodes} nodes from {}. {}",
            self.weight(),
            self.names().node(0),
            self.promise(),
        );
        match ties {
            true => vec![cut, self.others_as_light()],
            false => vec![cut],
        }
    }
}
