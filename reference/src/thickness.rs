//! How thick a link must be (request F-7): the smallest 4-byte weight of the link, others kept, with which the reported weight is no less
//! than wanted. In networks of any size each side that some tree shows says what it needs of the link. In small ones the weight is also
//! searched for, with every side weighed.

use crate::claims;
use crate::cuts::{self, Candidate};
use crate::every_side;
use crate::network::{Link, Network};
use crate::report::{self, Side};
use crate::sheet::{Reading, MOST_WEIGHT};

/// The refusal of a link outside the sheet.
pub const NO_LINK: u32 = 18;
/// The refusal of a wanted weight that no 4-byte weight of the link is enough for.
pub const OUT_OF_REACH: u32 = 20;

/// A link by its number, and the weight that is wanted.
#[derive(Clone, Copy, Debug, PartialEq, Eq)]
pub struct Question {
    pub link: u32,
    pub wanted: u64,
}

/// The figure that answers a question, or the number of a refusal.
pub type Told = Result<u32, u32>;

/// What a sheet that was read is told, with the number of the first refusal.
pub fn outcome_of(reading: &Reading, question: Question) -> Told {
    match reading {
        Ok(contents) => by_candidates(&contents.network, &ShownSides::of(&contents.network), question),
        Err(refusal) => Err(refusal.number),
    }
}

/// The sides that some tree of a network shows, with their weights. A side that several candidates have is there several times.
#[derive(Default)]
pub struct ShownSides(Vec<(Side, u64)>);

impl ShownSides {
    /// The shown sides of a sound network.
    pub fn of(network: &Network) -> ShownSides {
        let mut shown = ShownSides::default();
        cuts::each_candidate(network, |candidate, inside| shown.meet(candidate, inside));
        shown
    }

    pub fn meet(&mut self, candidate: Candidate, inside: &[bool]) {
        self.0.push((report::side_of(inside), candidate.weight));
    }

    /// Of each side, whether it separates the ends of a link, and what the other links that cross it weigh.
    pub fn others<'a>(&'a self, link: &'a Link) -> impl Iterator<Item = (bool, u64)> + 'a {
        self.0.iter().map(|(side, weight)| match separates(side, link) {
            true => (true, weight - link.weight),
            false => (false, *weight),
        })
    }
}

fn separates(side: &Side, link: &Link) -> bool {
    let inside = |node: usize| side[node / 8] >> (node % 8) & 1 == 1;
    inside(link.first) != inside(link.second)
}

/// What a sound network is told, by the sides that its trees show.
pub fn by_candidates(network: &Network, shown: &ShownSides, question: Question) -> Told {
    let link = network.links.get(question.link as usize).ok_or(NO_LINK)?;
    figure(shown, link, question.wanted).ok_or(OUT_OF_REACH)
}

/// The largest need of any side, if the link can meet it: a side that separates the link's ends needs what its other links lack, and no
/// other side may lack anything.
fn figure(shown: &ShownSides, link: &Link, wanted: u64) -> Option<u32> {
    let mut largest = 0;
    for (separates, others) in shown.others(link) {
        let lacking = wanted.saturating_sub(others);
        if lacking > 0 && !separates {
            return None;
        }
        largest = largest.max(lacking);
    }
    u32::try_from(largest).ok()
}

/// The network with another weight of one link.
pub fn with_weight(network: &Network, link: usize, weight: u64) -> Network {
    let mut changed = network.clone();
    changed.links[link].weight = weight;
    changed
}

/// What a sound network of at most [`every_side::MOST_NODES`] nodes is told: the smallest weight with which no side weighs less than
/// wanted, of all its sides that some tree shows.
pub fn by_every_side(network: &Network, question: Question) -> Told {
    let link = question.link as usize;
    if link >= network.links.len() {
        return Err(NO_LINK);
    }
    let without = every_side::shown(&with_weight(network, link, 0));
    let enough = |weight: u64| {
        without.iter().all(|(candidate, side)| {
            let crossing = u64::from(every_side::crosses(network, *side, link));
            candidate.weight + crossing * weight >= question.wanted
        })
    };
    smallest(enough).ok_or(OUT_OF_REACH)
}

/// The smallest 4-byte number of which something holds that holds of every larger one too.
fn smallest(holds: impl Fn(u64) -> bool) -> Option<u32> {
    let (mut from, mut end) = (0, MOST_WEIGHT + 1);
    while from < end {
        let middle = (from + end) / 2;
        if holds(middle) {
            end = middle;
        } else {
            from = middle + 1;
        }
    }
    u32::try_from(from).ok()
}

/// What request F-7 says of what a sound network is told; the error names a claim that does not hold.
pub fn check(network: &Network, question: Question, told: Told) -> Result<(), String> {
    let Question { link, wanted } = question;
    let link = link as usize;
    if link >= network.links.len() {
        return claims::check([(told == Err(NO_LINK), "a link outside the sheet is 18")]);
    }
    let reported = |weight| cuts::answer(&with_weight(network, link, weight)).candidate.weight;
    match told {
        Ok(figure) => {
            let figure = u64::from(figure);
            claims::check([
                (reported(figure) >= wanted, "with the figure the reported weight is no less than wanted"),
                (figure == 0 || reported(figure - 1) < wanted, "with one less the reported weight is less than wanted"),
            ])
        }
        // a side that is too light with the greatest weight does not separate the link's ends, or needs more
        Err(number) => claims::check([
            (number == OUT_OF_REACH, "a link of the sheet has a figure or is 20"),
            (reported(MOST_WEIGHT) < wanted, "20 only if a side weighs too little with any 4-byte weight of the link"),
        ]),
    }
}

#[cfg(test)]
mod tests {
    use super::*;
    use crate::documented::{self, CASE_A};
    use crate::faults;
    use crate::generate::questions::{self, EXTREMES};
    use crate::generate::{self, small_networks};
    use crate::random::Random;
    use crate::sheet;
    use crate::trunks;

    fn told(sheet: &[u8], link: u32, wanted: u64) -> Told {
        outcome_of(&sheet::read_contents(sheet), Question { link, wanted })
    }

    #[test]
    fn a_link_outside_the_sheet_comes_before_a_weight_out_of_reach() {
        assert_eq!(told(&CASE_A, 2, 5), Ok(3));
        assert_eq!(told(&CASE_A, 2, 6), Err(20));
        for link in questions::outside(3) {
            for wanted in EXTREMES {
                assert_eq!(told(&CASE_A, link, wanted), Err(18));
            }
        }
    }

    #[test]
    fn the_sheets_refusals_come_first() {
        for base in faults::bases() {
            let links = base.contents.network.links.len();
            for fault in faults::singles(&base) {
                let sheet = faults::damaged(&base, &[&fault]);
                for link in [0, links as u32, u32::MAX] {
                    assert_eq!(told(&sheet, link, 0), Err(fault.refusal.number));
                    assert_eq!(told(&sheet, link, u64::MAX), Err(fault.refusal.number));
                }
            }
        }
    }

    #[test]
    fn both_methods_agree_and_keep_what_the_request_says() {
        let mut random = Random::new(14);
        for network in small_networks(14, 20) {
            let shown = ShownSides::of(&network);
            let link = random.below(network.links.len());
            for question in questions::turns(&network, &shown, link) {
                let told = by_candidates(&network, &shown, question);
                assert_eq!(by_every_side(&network, question), told, "{question:?} {network:?}");
                assert_eq!(check(&network, question, told), Ok(()), "{question:?} {network:?}");
            }
        }
    }

    #[test]
    fn the_present_weight_does_not_matter() {
        let mut random = Random::new(15);
        for network in small_networks(15, 5) {
            let link = random.below(network.links.len());
            let questions = questions::turns(&network, &ShownSides::of(&network), link);
            let of = |network: &Network| {
                let shown = ShownSides::of(network);
                let told = |&question: &Question| by_candidates(network, &shown, question);
                questions.iter().map(told).collect::<Vec<_>>()
            };
            for weight in [0, 1, 1_000_000, MOST_WEIGHT] {
                assert_eq!(of(&with_weight(&network, link, weight)), of(&network));
            }
        }
    }

    #[test]
    fn trunk_numbers_do_not_matter() {
        let mut random = Random::new(16);
        for network in small_networks(16, 5) {
            let contents = generate::with_trunks(&mut random, network);
            let sheet = sheet::write_contents(&contents);
            let question = questions::any(&mut random, &contents.network, &ShownSides::of(&contents.network));
            let of = |sheet: &[u8]| told(sheet, question.link, question.wanted);
            assert_eq!(of(&sheet), of(&trunks::plain(&sheet)));
        }
    }

    #[test]
    fn sides_that_no_tree_shows_do_not_matter() {
        // nodes 1 and 3 weigh 3 and cross three links of the tree
        let links = [(0, 1, 1), (1, 2, 1), (2, 3, 1), (0, 2, 10), (1, 3, 10)];
        let network = documented::network(4, &links, &[(1, &[0, 1, 2])]);
        let question = Question { link: 0, wanted: 11 };
        assert_eq!(by_candidates(&network, &ShownSides::of(&network), question), Ok(1));
        assert_eq!(by_every_side(&network, question), Ok(1));
    }

    #[test]
    fn wrong_answers_are_noticed() {
        let network = documented::network(3, &[(0, 1, 3), (1, 2, 2), (0, 2, 4)], &[(2, &[0, 2])]);
        let checked = |link, wanted, told| check(&network, Question { link, wanted }, told);
        let enough = Err("with the figure the reported weight is no less than wanted".to_string());
        let smallest = Err("with one less the reported weight is less than wanted".to_string());
        let out_of_reach = Err("20 only if a side weighs too little with any 4-byte weight of the link".to_string());
        assert_eq!(checked(0, 5, Ok(3)), Ok(()));
        assert_eq!(checked(0, 5, Ok(2)), enough);
        assert_eq!(checked(0, 5, Ok(4)), smallest);
        assert_eq!(checked(0, 5, Ok(u32::MAX)), smallest);
        assert_eq!(checked(0, 5, Err(20)), out_of_reach);
        assert_eq!(checked(0, 0, Ok(0)), Ok(()));
        assert_eq!(checked(0, 0, Ok(1)), smallest);
        assert_eq!(checked(0, 7, Err(20)), Ok(()));
        assert_eq!(checked(0, 7, Ok(5)), enough);
        assert_eq!(checked(0, 7, Ok(u32::MAX)), enough);
        assert_eq!(checked(0, 7, Err(18)), Err("a link of the sheet has a figure or is 20".to_string()));
        let outside = Err("a link outside the sheet is 18".to_string());
        assert_eq!(checked(3, 7, Err(18)), Ok(()));
        assert_eq!(checked(3, 7, Err(20)), outside);
        assert_eq!(checked(3, 0, Ok(0)), outside);
    }
}
