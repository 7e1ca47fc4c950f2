//! The findings in words. Nothing here may claim more than the contracts of the entries promise; docs/REPORT.md says what each sentence
//! rests on.

use super::cable::{self, Groups};
use super::run::run_end;
use super::{cut, Findings, Unlisted};
use crate::names::{counted, enumeration};
use reference::cuts::Candidate;
use reference::list;

impl Findings<'_> {
    /// What the report means: the cut, the others as light, and where a new cable has to run. Where names are numbers, also that the
    /// report's lines do not mean these.
    pub fn sentences(&self) -> Vec<String> {
        let mut sentences = vec![self.cut(), self.others_as_light(), self.new_cable()];
        if self.names().have_numbers() {
            let warning =
                "Some names are numbers: they stand in quotes here, and the lines above have the nodes' own numbers.";
            sentences.push(warning.to_string());
        }
        sentences
    }

    /// The lines of the list, each with its line feed: how many cuts there are and what they weigh, what is known of others, then for
    /// each cut the nodes that it severs and the links that cross it.
    pub fn list_lines(&self) -> impl Iterator<Item = String> + '_ {
        let head =
            format!("{} of weight {}. {}\n", counted(self.sides.len(), "cut"), self.weight(), self.unlisted_cuts());
        std::iter::once(head).chain((1..=self.sides.len()).map(|number| self.list_line(number)))
    }

    /// The line of a cut by its number in the list.
    pub(super) fn list_line(&self, number: usize) -> String {
        let nodes = list::nodes(self.side(number));
        let links = self.links(&cut::crossing(self.network(), &nodes));
        format!("{number}. {}; {links}\n", self.names().node_list(&nodes))
    }

    pub(super) fn weight(&self) -> u64 {
        self.answer.candidate.weight
    }

    /// How many cuts of the list there are beside the reported one.
    pub(super) fn others(&self) -> usize {
        self.sides.len() - 1
    }

    /// `link 3 (2-3:100)`, `links 3 (hall-A to hall-B:100) and 10 radio bridge (1-5:50)`.
    pub(super) fn links(&self, links: &[usize]) -> String {
        let named = |&link: &usize| {
            let ends = self.network().links[link];
            format!("{} ({}:{})", self.names().link(link), self.names().ends(ends.first, ends.second), ends.weight)
        };
        let word = if links.len() == 1 { "link" } else { "links" };
        format!("{word} {}", enumeration(links.iter().map(named).collect()))
    }

    fn cut(&self) -> String {
        let Candidate { weight, tree, first, second, .. } = self.answer.candidate;
        let names = match second {
            None => format!("link {first} of tree {tree} names it"),
            Some(second) => format!("links {first} and {second} of tree {tree} name it"),
        };
        let weighs = match self.crossing.len() {
            1 => format!("which weighs {weight}"),
            _ => format!("which weigh {weight} together"),
        };
        let (severed, core) = (self.names().node_list(&self.answer.side), self.names().node(0));
        let (crossed, promise) = (self.links(&self.crossing), self.promise());
        format!("The cut severs {severed} from {core}. It crosses {crossed}, {weighs}; {names}. {promise}")
    }

    /// What the answer promises about all cuts of the network.
    pub(super) fn promise(&self) -> String {
        if self.none_lighter() {
            return "No cut of the whole network weighs less.".to_string();
        }
        let lightest = "No cut that the listed trees show is lighter";
        self.unshown(lightest, "the whole network may hold one")
    }

    /// What is known of the cuts that the listed trees show, then what there may be beside them, where none weighs less than the floor.
    fn unshown(&self, known: &str, may_hold: &str) -> String {
        let (network, floor) = (self.network(), self.answer.floor);
        let rest = format!("{may_hold}, but none that weighs less than {floor}");
        let unknown = "nothing is known of the cuts that no tree shows";
        match (floor, run_end(network)) {
            (0, None) => format!("{known}. All shares are 0, so {unknown}."),
            (0, Some(end)) => {
                let and = match end.tree {
                    0 => " and",
                    1 => "; its share is 0, and",
                    _ => "; their shares are 0, and",
                };
                format!("{known}. {}{and} {unknown}.", end.reason(network, self.names()))
            }
            (_, None) => format!("{known}; {rest}."),
            (_, Some(end)) => format!("{known}; {rest}. {}.", end.reason(network, self.names())),
        }
    }

    /// How many other cuts are as light, and whether these are all.
    pub(super) fn others_as_light(&self) -> String {
        let (weight, bound) = (self.weight(), self.three_shares);
        let too = match self.others() {
            1 => format!("weighs {weight} too"),
            _ => format!("weigh {weight} too"),
        };
        let others = match self.others() {
            0 => None,
            1 => Some("One other cut".to_string()),
            others => Some(format!("{others} other cuts")),
        };
        match (self.unlisted(), others) {
            (Unlisted::Heavier, None) => format!("No other cut of the whole network weighs {weight}."),
            (Unlisted::Heavier, Some(others)) => format!("{others} of the whole network {too}, and no more do."),
            (Unlisted::NotLighter, None) => format!(
                "No other cut that the listed trees show weighs {weight}. Others may, since three times the shares that count is \
                 {bound} and not more."
            ),
            (Unlisted::NotLighter, Some(others)) => format!(
                "{others} that the listed trees show {too}. There may be more, since three times the shares that count is {bound} \
                 and not more."
            ),
            (Unlisted::Unknown, None) => {
                format!("No other cut that the listed trees show weighs {weight}; whether others do is not known.")
            }
            (Unlisted::Unknown, Some(others)) => {
                format!("{others} that the listed trees show {too}; whether there are more is not known.")
            }
        }
    }

    /// What is known of the cuts that a list does not have.
    fn unlisted_cuts(&self) -> String {
        let (weight, bound) = (self.weight(), self.three_shares);
        match self.unlisted() {
            Unlisted::Heavier => {
                format!("The list is complete: no other cut of the whole network weighs {weight}, and none weighs less.")
            }
            Unlisted::NotLighter => format!(
                "No cut of the whole network weighs less. Others that no tree shows may weigh {weight} too, since three times the \
                 shares that count is {bound} and not more."
            ),
            Unlisted::Unknown => {
                let known = "No cut that the listed trees show is lighter, and all of theirs of this weight are listed";
                self.unshown(known, "the whole network may hold others as light or lighter")
            }
        }
    }

    /// Between which two sides a new cable has to run, that every other cut as light has to be crossed too, and whether that is enough.
    fn new_cable(&self) -> String {
        let (severed, others) = (self.answer.side.len(), self.network().nodes - self.answer.side.len());
        let one_of = |count: usize, what: &str| match count {
            1 => format!("the {what}"),
            _ => format!("one of the {count} {what}s"),
        };
        let between = format!(
            "A new cable makes this cut heavier only if it runs between {} and {}.",
            one_of(severed, "severed node"),
            one_of(others, "other node"),
        );
        let weight = self.weight();
        let enough = match self.unlisted() {
            Unlisted::Heavier => format!("the weakest cut of the whole network weighs more than {weight}"),
            _ => format!("no cut that is listed weighs {weight} any more; whether another cut does is not certain"),
        };
        match self.others() {
            0 => format!("{between} Then {enough}."),
            others => {
                let each = match others {
                    1 => "the other cut has to be crossed too".to_string(),
                    _ => format!("each of the {others} other cuts has to be crossed too"),
                };
                format!(
                    "{between} By the same cable or by further ones, {each}: only then {enough}. {}",
                    self.one_cable()
                )
            }
        }
    }

    /// Where one cable crosses all cuts of the list.
    fn one_cable(&self) -> String {
        let all = match self.sides.len() {
            2 => "both cuts".to_string(),
            count => format!("all {count} cuts"),
        };
        let join = |Groups { from, to }: &Groups| {
            let any = |nodes: &[usize]| match nodes {
                [only] => self.names().node(*only),
                _ => format!("one of {}", self.names().node_list(nodes)),
            };
            format!("{} to {}", any(to), any(from))
        };
        let groups: Vec<String> = self.crossing_all().iter().map(join).collect();
        match groups.is_empty() {
            true => format!("No single cable crosses {all}."),
            false => format!("One cable crosses {all} if it joins {}.", groups.join(", or ")),
        }
    }

    pub(super) fn crossing_all(&self) -> Vec<Groups> {
        cable::crossing_all(self.network().nodes, &self.sides)
    }
}
