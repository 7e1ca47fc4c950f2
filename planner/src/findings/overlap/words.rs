//! Two cuts of the list in words. Nothing here may claim more than the contracts of the entries promise; docs/REPORT.md says what each
//! sentence rests on.

use super::{pairs, Corner, Overlap, CORNERS};

/// The longest name of a corner is as wide.
const NAME_WIDTH: usize = "second only".len();

impl Overlap<'_> {
    /// The two cuts, their corners, the table and the sentences.
    pub fn text(&self) -> String {
        let ([first, second], findings) = (self.numbers, self.findings);
        let (weight, promise) = (findings.weight(), findings.promise());
        let head =
            format!("The first cut is number {first} of the list, the second number {second}. Each weighs {weight}.");
        let cuts = self.numbers.map(|number| findings.list_line(number)).concat();
        let (corners, table, sentences) = (self.corner_lines(), self.table_lines(), self.sentences().join("\n"));
        format!("{head} {promise}\n{cuts}\n{corners}\n{table}\n{sentences}\n")
    }

    /// For each corner the number of its nodes, and their names.
    fn corner_lines(&self) -> String {
        let names = |nodes: &[usize]| match nodes {
            [] => "empty".to_string(),
            _ => self.findings.names().node_list(nodes),
        };
        let line = |(corner, nodes): (usize, &Vec<usize>)| {
            format!("{:NAME_WIDTH$}  {:>5}  {}\n", CORNERS[corner].name, nodes.len(), names(nodes))
        };
        let lines: String = self.corners.iter().enumerate().map(line).collect();
        format!("{:NAME_WIDTH$}  Nodes\n{lines}", "Corner")
    }

    /// The unit's table, with the corners' names.
    fn table_lines(&self) -> String {
        let widest = |column: usize| self.table.iter().map(|row| row[column].to_string().len()).max().unwrap_or(0);
        let line = |label: &str, cells: [String; 4]| {
            let cell = |(column, cell): (usize, &String)| {
                format!("  {cell:>width$}", width = widest(column).max(CORNERS[column].name.len()))
            };
            format!("{label:NAME_WIDTH$}{}\n", cells.iter().enumerate().map(cell).collect::<String>())
        };
        let names = CORNERS.map(|corner| corner.name);
        let rows = names.iter().zip(&self.table).map(|(name, row)| line(name, row.map(|weight| weight.to_string())));
        line("Weights", names.map(str::to_string)) + &rows.collect::<String>()
    }

    /// Which corner is empty, which of the cuts a cable crosses, and what is certain of the corners.
    pub(in crate::findings) fn sentences(&self) -> Vec<String> {
        let ([first, second], joins) = (self.numbers, |crossed| self.joined(crossed));
        let mut sentences = vec![
            self.relation().to_string(),
            format!("A new cable crosses both cuts if it joins {}.", joins([true, true])),
            format!("A new cable crosses just the first cut, number {first}, if it joins {}.", joins([true, false])),
            format!("A new cable crosses just the second cut, number {second}, if it joins {}.", joins([false, true])),
            "A new cable between two nodes of one corner crosses neither cut.".to_string(),
        ];
        if self.findings.none_lighter() && !self.corners.iter().any(Vec::is_empty) {
            sentences.push(self.corner_cuts());
        }
        sentences
    }

    fn relation(&self) -> &'static str {
        match self.corners.each_ref().map(Vec::is_empty) {
            [true, ..] => "The cuts are apart: no node is in both.",
            [_, true, ..] => "The second cut severs all that the first does and more: no node is in the first only.",
            [_, _, true, _] => "The first cut severs all that the second does and more: no node is in the second only.",
            _ => "The cuts overlap: no corner is empty.",
        }
    }

    /// All corners, none of them empty, between which a cable crosses just these of the two cuts.
    fn joined(&self, crossed: [bool; 2]) -> String {
        let has_nodes = |corner: usize| !self.corners[corner].is_empty();
        let ways = pairs().filter(|&(one, other)| one < other && has_nodes(one) && has_nodes(other));
        let ways = ways.map(|(one, other)| (CORNERS[one], CORNERS[other]));
        let crosses =
            |(one, other): &(Corner, Corner)| [0, 1].map(|cut| one.inside[cut] != other.inside[cut]) == crossed;
        let way = |(one, other): (Corner, Corner)| format!("a node {} to one {}", one.place, other.place);
        ways.filter(crosses).map(way).collect::<Vec<_>>().join(", or ")
    }

    /// What document 000's Lemma 2.2 says of two lightest cuts without an empty corner, and what follows for one cable.
    fn corner_cuts(&self) -> String {
        let weight = self.findings.weight();
        format!(
            "No cut of the whole network weighs less and no corner is empty, so each corner is a cut of weight {weight} too, and no link \
             that weighs anything joins opposite corners yet: both and neither, or first only and second only. A new cable ends in two \
             corners at most and leaves the others at weight {weight}, so no single cable makes the weakest cut of the whole network \
             heavier."
        )
    }
}
