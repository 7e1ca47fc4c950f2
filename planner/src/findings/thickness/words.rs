//! How thick a link has to be, in words. Nothing here may claim more than the contracts of the entries promise; docs/REPORT.md says what
//! each sentence rests on.

use super::{cut, Figure, Thickness};
use reference::list;
use reference::report::Side;
use reference::sheet::MOST_WEIGHT;
use std::cmp::Ordering;

/// How many cuts that are too light are named.
const MOST_NAMED: usize = 3;

impl Thickness<'_> {
    /// The sentences, a line each.
    pub fn text(&self) -> String {
        self.sentences().join("\n") + "\n"
    }

    /// What the link weighs, the weight that it has to have and what the report is with that; or why there is none.
    pub(in crate::findings) fn sentences(&self) -> Vec<String> {
        let Figure { weight, wanted, .. } = self.figure;
        let mut sentences = vec![self.present()];
        match weight {
            Some(weight) => {
                let (smallest, then) = (self.compared(*weight), &self.then);
                sentences.push(format!(
                    "The smallest weight of this link with which the reported weight is {wanted} or more is {smallest}."
                ));
                sentences.push(format!(
                    "With that weight the reported weight is {}. {}",
                    then.weight(),
                    then.promise()
                ));
            }
            None => sentences.extend(self.why_none()),
        }
        sentences
    }

    fn present(&self) -> String {
        let Figure { findings, link, .. } = self.figure;
        let (names, ends) = (findings.names(), findings.network().links[*link]);
        let (link, joins) = (names.link(*link), names.ends(ends.first, ends.second));
        format!("Link {link} ({joins}) weighs {} now, and the reported weight is {}.", ends.weight, findings.weight())
    }

    /// The figure, beside what the link weighs.
    fn compared(&self, weight: u64) -> String {
        let present = self.figure.findings.network().links[self.figure.link].weight;
        match (weight.cmp(&present), weight) {
            (Ordering::Greater, _) => format!("{weight}, {} more than now", weight - present),
            (Ordering::Equal, _) => format!("{weight}, just what it weighs now"),
            (Ordering::Less, 0) => {
                format!(
                    "0, {present} less than now: the reported weight is that large even if this link weighs nothing"
                )
            }
            (Ordering::Less, _) => format!("{weight}, {} less than now", present - weight),
        }
    }

    /// That no weight is enough, and the cuts that are too light, of which some are named and the others counted.
    fn why_none(&self) -> Vec<String> {
        let (wanted, weight, cuts) = (self.figure.wanted, self.then.weight(), self.too_light());
        let whatever = !cuts.iter().any(|side| self.crosses(side));
        let none = format!("weight of this link makes the reported weight {wanted} or more");
        let mut sentences = vec![match whatever {
            true => format!("No {none}."),
            false => format!("No 4-byte {none}: with {MOST_WEIGHT}, the largest, it is {weight}."),
        }];
        sentences.extend(cuts.iter().take(MOST_NAMED).map(|side| self.too_light_cut(side, whatever)));
        let (such, when) = match whatever {
            true => (" that this link does not cross", "too"),
            false => ("", "then"),
        };
        match cuts.len().saturating_sub(MOST_NAMED) {
            0 => {}
            1 => sentences.push(format!("One more cut{such} weighs {weight} {when}.")),
            more => sentences.push(format!("{more} more cuts{such} weigh {weight} {when}.")),
        }
        sentences
    }

    /// A cut that is too light whatever the link weighs, or even if it has the largest weight.
    fn too_light_cut(&self, side: &Side, whatever: bool) -> String {
        let (then, nodes) = (&self.then, list::nodes(side));
        let (severed, core) = (then.names().node_list(&nodes), then.names().node(0));
        let (weight, links) = (then.weight(), then.links(&cut::crossing(then.network(), &nodes)));
        match whatever {
            true => format!(
                "The cut that severs {severed} from {core} weighs {weight} whatever this link weighs: it crosses {links}, and not this \
                 one."
            ),
            false => {
                format!("Then the cut that severs {severed} from {core} weighs {weight}: it crosses {links}.")
            }
        }
    }
}
