//! Two cuts of the list: their four corners, the weights between these, held against the network before anything is said of them, and
//! what they mean for a cable.

#[cfg(test)]
mod tests;
mod words;

use super::{cut, Findings};
use crate::names::counted;
use crate::unit::{self, Table};
use reference::sheet;

/// A corner of two sides.
#[derive(Clone, Copy)]
pub struct Corner {
    /// Whether its nodes are in the first side, and whether they are in the second.
    inside: [bool; 2],
    pub name: &'static str,
    /// Where its nodes are, in a sentence.
    place: &'static str,
}

/// The corners in the order of the unit's table.
pub const CORNERS: [Corner; 4] = [
    Corner { inside: [true, true], name: "both", place: "in both" },
    Corner { inside: [true, false], name: "first only", place: "in the first only" },
    Corner { inside: [false, true], name: "second only", place: "in the second only" },
    Corner { inside: [false, false], name: "neither", place: "in neither" },
];

/// Two different cuts of the list, and the weights between their corners.
pub struct Overlap<'a> {
    pub(super) findings: &'a Findings<'a>,
    /// The cuts' numbers in the list, from 1.
    pub(super) numbers: [usize; 2],
    /// The nodes of each corner. Of two different sides one corner at most is empty: neither side is, nor the corner of node 0.
    pub(super) corners: [Vec<usize>; 4],
    pub(super) table: Table,
}

impl Findings<'_> {
    /// Asks the unit for the corners of the cuts that have these numbers in the list. An error if the list has no such cut, or if what
    /// the unit says cannot be said of this network.
    pub fn overlap(&self, numbers: [usize; 2]) -> Result<Overlap<'_>, String> {
        let count = self.sides.len();
        if let Some(none) = numbers.into_iter().find(|number| !(1..=count).contains(number)) {
            return Err(format!("there is no cut {none}: the list has {}", counted(count, "cut")));
        }
        let [first, second] = numbers.map(|number| self.side(number));
        let table = unit::corners(&sheet::write_contents(&self.parsed.contents), first, second);
        let table = table.map_err(|number| format!("the corners must not be refused, number {number}"))?;
        Ok(Overlap::new(self, numbers, table)?)
    }
}

impl<'a> Overlap<'a> {
    /// An error if the cuts are the same, or if the table contradicts the network or itself.
    fn new(findings: &'a Findings<'a>, numbers: [usize; 2], table: Table) -> Result<Overlap<'a>, &'static str> {
        let sides = numbers.map(|number| findings.side(number));
        if sides[0] == sides[1] {
            return Err("the list has a side twice");
        }
        let is_in = |corner: Corner, node: usize| sides.map(|side| cut::holds(side, node)) == corner.inside;
        let nodes = findings.network().nodes;
        let corners = CORNERS.map(|corner| (0..nodes).filter(|&node| is_in(corner, node)).collect());
        let overlap = Overlap { findings, numbers, corners, table };
        match overlap.contradiction() {
            None => Ok(overlap),
            Some(contradiction) => Err(contradiction),
        }
    }

    fn contradiction(&self) -> Option<&'static str> {
        let entry = |(row, column): (usize, usize)| self.table[row][column];
        if pairs().any(|(row, column)| row == column && entry((row, column)) != 0) {
            return Some("the table of the corners has a weight on its diagonal");
        }
        if pairs().any(|(row, column)| entry((row, column)) != entry((column, row))) {
            return Some("an entry of the table of the corners differs from its mirror");
        }
        let adds_up = |cut: usize| {
            let crosses = |&(row, column): &(usize, usize)| CORNERS[row].inside[cut] && !CORNERS[column].inside[cut];
            let sum: u128 = pairs().filter(crosses).map(|pair| u128::from(entry(pair))).sum();
            sum == u128::from(self.findings.weight())
        };
        if !(adds_up(0) && adds_up(1)) {
            return Some("the entries of the table of the corners do not add up to the weight of each cut");
        }
        (self.table != self.weights()).then_some("the links between two corners have another weight")
    }

    /// The weights of the network's links between the corners.
    fn weights(&self) -> Table {
        let mut corner_of = vec![0; self.findings.network().nodes];
        for (corner, nodes) in self.corners.iter().enumerate() {
            nodes.iter().for_each(|&node| corner_of[node] = corner);
        }
        let mut table = Table::default();
        for link in &self.findings.network().links {
            let (one, other) = (corner_of[link.first], corner_of[link.second]);
            if one != other {
                table[one][other] += link.weight;
                table[other][one] += link.weight;
            }
        }
        table
    }
}

/// The rows and columns of the table.
fn pairs() -> impl Iterator<Item = (usize, usize)> {
    (0..CORNERS.len()).flat_map(|row| (0..CORNERS.len()).map(move |column| (row, column)))
}
