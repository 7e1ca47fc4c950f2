//! The findings as JSON; docs/REPORT.md describes the fields.

use super::cable::Groups;
use super::overlap::{Overlap, CORNERS};
use super::pairs::{Pair, Pairs};
use super::thickness::Thickness;
use super::{cut, Findings, Unlisted};
use crate::json::Json;
use crate::mistakes::Mistake;
use crate::text::Parsed;
use reference::list;
use reference::report::Side;

impl Findings<'_> {
    /// The report of a file.
    pub fn report_record(&self, file: &str) -> Json {
        let candidate = self.answer.candidate;
        let mut fields = head(file, self.parsed);
        fields.extend([
            ("verdict", usize::from(self.answer.verdict).into()),
            ("weight", candidate.weight.into()),
            ("floor", self.answer.floor.into()),
            ("tree", candidate.tree.into()),
            ("first_link", candidate.first.into()),
            ("second_link", candidate.second.into()),
            ("none_lighter", self.none_lighter().into()),
            ("severed", self.node_records(&self.answer.side)),
            ("others", self.node_records(&self.rest())),
            ("crossing", self.link_records(&self.crossing)),
            ("other_cuts_as_light", self.others().into()),
            ("list_complete", (self.unlisted() == Unlisted::Heavier).into()),
            ("one_cable_crosses_all", self.crossing_all().iter().map(|groups| self.groups_record(groups)).collect()),
            ("sentences", self.sentences().iter().map(String::as_str).collect()),
        ]);
        Json::Record(fields)
    }

    /// The list of a file, in parts.
    pub fn list_record(&self, file: &str) -> impl Iterator<Item = String> + '_ {
        let mut fields = head(file, self.parsed);
        fields.extend([
            ("weight", self.weight().into()),
            ("none_lighter", self.none_lighter().into()),
            ("list_complete", (self.unlisted() == Unlisted::Heavier).into()),
        ]);
        self.parts(fields, "cuts", self.sides.iter())
    }

    /// A record whose last field is a list of cuts, in parts that follow one another, since there may be very many cuts.
    fn parts<'s>(
        &'s self,
        fields: Vec<(&'static str, Json)>,
        name: &str,
        sides: impl Iterator<Item = &'s Side> + 's,
    ) -> impl Iterator<Item = String> + 's {
        let head = Json::Record(fields).to_string();
        let start = format!("{}, \"{name}\": [", &head[..head.len() - 1]);
        let cut = |(place, side): (usize, &Side)| {
            format!("{}{}", if place > 0 { ", " } else { "" }, Json::Record(self.cut_fields(side)))
        };
        let cuts = sides.enumerate().map(cut);
        std::iter::once(start).chain(cuts).chain(std::iter::once("]}\n".to_string()))
    }

    /// The nodes of a side and the links that cross it.
    fn cut_fields(&self, side: &Side) -> Vec<(&'static str, Json)> {
        let nodes = list::nodes(side);
        let crossing = cut::crossing(self.network(), &nodes);
        vec![("severed", self.node_records(&nodes)), ("crossing", self.link_records(&crossing))]
    }

    fn node_record(&self, node: usize) -> Json {
        Json::Record(vec![("node", node.into()), ("name", self.names().nodes[node].as_deref().into())])
    }

    fn node_records(&self, nodes: &[usize]) -> Json {
        nodes.iter().map(|&node| self.node_record(node)).collect()
    }

    fn link_record(&self, link: usize) -> Json {
        let ends = self.network().links[link];
        Json::Record(vec![
            ("link", link.into()),
            ("name", self.names().links[link].as_deref().into()),
            ("first", self.node_record(ends.first)),
            ("second", self.node_record(ends.second)),
            ("weight", ends.weight.into()),
        ])
    }

    fn link_records(&self, links: &[usize]) -> Json {
        links.iter().map(|&link| self.link_record(link)).collect()
    }

    fn groups_record(&self, Groups { from, to }: &Groups) -> Json {
        Json::Record(vec![("from", self.node_records(from)), ("to", self.node_records(to))])
    }
}

impl Overlap<'_> {
    /// Two cuts of the list of a file, and their corners.
    pub fn record(&self, file: &str) -> Json {
        let findings = self.findings;
        let cut = |number: usize| {
            let mut fields = vec![("number", number.into())];
            fields.extend(findings.cut_fields(findings.side(number)));
            Json::Record(fields)
        };
        let corner = |(nodes, name): (&Vec<usize>, &str)| {
            Json::Record(vec![("corner", name.into()), ("nodes", findings.node_records(nodes))])
        };
        let names = CORNERS.map(|corner| corner.name);
        let mut fields = head(file, findings.parsed);
        fields.extend([
            ("weight", findings.weight().into()),
            ("none_lighter", findings.none_lighter().into()),
            ("first_cut", cut(self.numbers[0])),
            ("second_cut", cut(self.numbers[1])),
            ("corners", self.corners.iter().zip(names).map(corner).collect()),
            ("table", self.table.iter().map(|row| row.iter().copied().collect::<Json>()).collect()),
            ("sentences", self.sentences().iter().map(String::as_str).collect()),
        ]);
        Json::Record(fields)
    }
}

impl Thickness<'_> {
    /// How thick a link of a file has to be, in parts.
    pub fn record(&self, file: &str) -> impl Iterator<Item = String> + '_ {
        let (figure, then) = (self.figure, &self.then);
        let mut fields = head(file, figure.findings.parsed);
        fields.extend([
            ("link", figure.findings.link_record(figure.link)),
            ("wanted", figure.wanted.into()),
            ("weight", figure.findings.weight().into()),
            ("thickness", figure.weight.into()),
            ("weight_then", then.weight().into()),
            ("none_lighter", then.none_lighter().into()),
            ("sentences", self.sentences().iter().map(String::as_str).collect()),
        ]);
        then.parts(fields, "too_light", self.too_light().into_iter())
    }
}

impl Pairs<'_> {
    /// The pairs of a tree of a file, and the links that they are made of.
    pub fn record(&self, file: &str) -> Json {
        let findings = self.findings;
        let pair = |pair: &Pair| {
            Json::Record(vec![
                ("first_link", pair.first.into()),
                ("second_link", pair.second.into()),
                ("weight", pair.weight.into()),
            ])
        };
        let mut fields = head(file, findings.parsed);
        fields.extend([
            ("tree", self.tree.into()),
            ("links", findings.link_records(&findings.network().trees[self.tree].members)),
            ("pairs", self.pairs.iter().map(pair).collect()),
        ]);
        Json::Record(fields)
    }
}

/// A file whose network the monitor refuses, with all mistakes and their lines.
pub fn refusal(file: &str, parsed: &Parsed, number: u32, mistakes: &[(usize, Mistake)]) -> Json {
    let mistake = |(line, mistake): &(usize, Mistake)| {
        let Mistake { number, why, .. } = mistake;
        Json::Record(vec![
            ("line", (*line).into()),
            ("number", u64::from(*number).into()),
            ("why", why.as_str().into()),
        ])
    };
    let mut fields = head(file, parsed);
    fields.push(("refused", u64::from(number).into()));
    fields.push(("mistakes", mistakes.iter().map(mistake).collect()));
    Json::Record(fields)
}

fn head(file: &str, parsed: &Parsed) -> Vec<(&'static str, Json)> {
    vec![("file", file.into()), ("title", parsed.title.as_deref().into())]
}
