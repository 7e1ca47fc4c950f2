//! How thick a link has to be: the smallest weight with which the reported weight is no less than wanted. Before anything is said of it,
//! it is held against the reports of the network with that weight and with one less.

#[cfg(test)]
mod tests;
mod words;

use super::{cut, find, Findings};
use crate::mistakes::OUT_OF_REACH;
use crate::names::{self, counted, enumeration};
use crate::text::{shortened, Parsed};
use crate::unit;
use reference::report::Side;
use reference::sheet::{self, MOST_WEIGHT};

/// What the unit says of a link and a wanted weight.
pub struct Figure<'a> {
    pub(super) findings: &'a Findings<'a>,
    pub(super) link: usize,
    pub(super) wanted: u64,
    /// The smallest weight of the link that is enough; none if no weight is.
    pub(super) weight: Option<u64>,
    /// The network with that weight for the link, or with the largest one if none is enough.
    changed: Parsed,
}

/// The same, and the findings for the changed network.
pub struct Thickness<'a> {
    pub(super) figure: &'a Figure<'a>,
    pub(super) then: Findings<'a>,
}

impl Findings<'_> {
    /// The link that is meant by a name or a number. The error says why none is, or that several are.
    pub fn link(&self, word: &str) -> Result<usize, String> {
        let (names, given) = (self.names(), shortened(word));
        let found = names::tidy(word).map_or(vec![], |name| names.find_links(&name));
        let names_only = "a number means a name here, since names of links are numbers";
        match (&found[..], names.links_have_numbers()) {
            ([link], _) => Ok(*link),
            ([], by_name) => {
                let count = counted(names.links.len(), "link");
                let numbered = if by_name { names_only } else { "they are numbered from 0" };
                Err(format!("there is no link '{given}': the network has {count}, and {numbered}"))
            }
            (several, by_name) => {
                let numbers = enumeration(several.iter().map(usize::to_string).collect());
                let way = match by_name {
                    true => format!("give it a name of its own, for {names_only}"),
                    false => "give its number".to_string(),
                };
                Err(format!("links {numbers} have the name '{given}': to ask for one of them, {way}"))
            }
        }
    }

    /// Asks the unit for the smallest weight of a link with which the reported weight is no less than wanted.
    pub fn figure(&self, link: usize, wanted: u64) -> Result<Figure<'_>, String> {
        let (number, figure) = unit::thickness(&sheet::write_contents(&self.parsed.contents), link as u32, wanted);
        Ok(Figure::new(self, link, wanted, weight_said(number, figure)?))
    }
}

/// The weight that the unit's number and figure say; none if no weight is enough.
fn weight_said(number: u32, figure: u32) -> Result<Option<u64>, String> {
    match (number, figure) {
        (0, weight) => Ok(Some(u64::from(weight))),
        (OUT_OF_REACH, 0) => Ok(None),
        (OUT_OF_REACH, _) => Err("no weight of the link is said to be enough, and one is given".to_string()),
        _ => Err(format!("the link must not be refused, number {number}")),
    }
}

impl<'a> Figure<'a> {
    fn new(findings: &'a Findings<'a>, link: usize, wanted: u64, weight: Option<u64>) -> Figure<'a> {
        let changed = reweighed(findings.parsed, link, weight.unwrap_or(MOST_WEIGHT));
        Figure { findings, link, wanted, weight, changed }
    }

    /// Asks the unit for the findings for the changed network and for the one with one less. An error if these cannot be said of the
    /// networks, or contradict the figure.
    pub fn thickness(&self) -> Result<Thickness<'_>, String> {
        let then = reported(&self.changed)?;
        let one_less = match self.weight {
            None | Some(0) => None,
            Some(weight) => Some(reported(&reweighed(self.findings.parsed, self.link, weight - 1))?.weight()),
        };
        match self.contradiction(then.weight(), one_less) {
            None => Ok(Thickness { figure: self, then }),
            Some(contradiction) => Err(contradiction.to_string()),
        }
    }

    /// What is wrong with the figure, by the reported weight of the changed network and by that with one less, if there is one less.
    fn contradiction(&self, then: u64, one_less: Option<u64>) -> Option<&'static str> {
        let enough = |weight: u64| weight >= self.wanted;
        match self.weight {
            None if enough(then) => Some("no weight of the link is said to be enough, and the largest one is"),
            Some(_) if !enough(then) => Some("the weight that is said to be enough is not"),
            Some(_) if one_less.is_some_and(enough) => {
                Some("less than the weight that is said to be the smallest is enough")
            }
            _ => None,
        }
    }
}

impl Thickness<'_> {
    /// Where no weight is enough, the cuts that keep the reported weight down if the link has the largest one: those that it does not
    /// cross, which are too light whatever it weighs; if it crosses all, all of them.
    pub(super) fn too_light(&self) -> Vec<&Side> {
        let all = || self.then.sides.iter();
        match self.figure.weight {
            Some(_) => vec![],
            None if all().all(|side| self.crosses(side)) => all().collect(),
            None => all().filter(|side| !self.crosses(side)).collect(),
        }
    }

    /// Whether the link crosses the cut of a side.
    fn crosses(&self, side: &Side) -> bool {
        let ends = self.then.network().links[self.figure.link];
        cut::holds(side, ends.first) != cut::holds(side, ends.second)
    }
}

/// The network with this weight for a link, all else as it is.
fn reweighed(parsed: &Parsed, link: usize, weight: u64) -> Parsed {
    let mut changed = parsed.clone();
    changed.contents.network.links[link].weight = weight;
    changed
}

/// The findings for a network that was accepted with another weight.
fn reported(parsed: &Parsed) -> Result<Findings<'_>, String> {
    find(parsed, None)?.map_err(|number| format!("another weight must not be refused, number {number}"))
}
