//! Links and wanted weights to ask how thick a link must be.

pub use super::outside;
use crate::network::{Link, Network};
use crate::random::Random;
use crate::sheet::{MOST_LINKS, MOST_WEIGHT};
use crate::thickness::{Question, ShownSides};

/// What the shown sides of a network leave to one of its links.
#[derive(Clone, Copy, Debug, PartialEq, Eq)]
pub struct Limits {
    /// The least that the other links weigh of a side that separates the link's ends.
    pub across: u64,
    /// The least weight of a side that does not separate them, if there is one.
    pub beside: Option<u64>,
}

impl Limits {
    pub fn of(shown: &ShownSides, link: &Link) -> Limits {
        let least = |across: bool| {
            let such = shown.others(link).filter(|(separates, _)| *separates == across);
            such.map(|(_, others)| others).min()
        };
        Limits { across: least(true).expect("each two nodes are separated by a tree link"), beside: least(false) }
    }

    /// The reported weight with that weight of the link.
    pub fn reported(&self, weight: u64) -> u64 {
        let across = self.across + weight;
        self.beside.map_or(across, |beside| beside.min(across))
    }

    /// The greatest wanted weight for which the figure is 0.
    pub fn free(&self) -> u64 {
        self.reported(0)
    }

    /// The greatest wanted weight for which there is a figure.
    pub fn reach(&self) -> u64 {
        self.reported(MOST_WEIGHT)
    }
}

/// Figures behind the end of so many bits.
const BITS: [u32; 3] = [8, 16, 31];

/// Wanted weights at which what a link of that weight is told changes, each with the weights around it, and weights of eight bytes.
fn turning_weights(limits: &Limits, weight: u64) -> Vec<u64> {
    let reported = limits.reported(weight);
    let figures = [0, weight, MOST_WEIGHT].into_iter().chain(BITS.map(|bits| 1 << bits));
    let turns = figures.map(|figure| limits.across + figure).chain(limits.beside).chain([weight, reported]);
    let around = turns.flat_map(|turn| [turn.saturating_sub(1), turn, turn + 1]);
    let mut wanted: Vec<u64> = around.chain([0, MOST_WEIGHT]).chain(of_eight_bytes(limits, reported)).collect();
    wanted.sort_unstable();
    wanted.dedup();
    wanted
}

/// Wanted weights of eight bytes whose lower four are within reach, and the greatest.
fn of_eight_bytes(limits: &Limits, reported: u64) -> [u64; 6] {
    let lower_four = |number: u64| number % (1 << 32);
    [
        limits.reach() - lower_four(limits.reach()),
        (1 << 32) + lower_four(limits.free()),
        (1 << 32) + lower_four(reported),
        (MOST_WEIGHT << 32) + lower_four(limits.reach()),
        1 << 63,
        u64::MAX,
    ]
}

/// Questions about a link of a network, at each change of what it is told.
pub fn turns(network: &Network, shown: &ShownSides, link: usize) -> Vec<Question> {
    let of_link = &network.links[link];
    let wanted = turning_weights(&Limits::of(shown, of_link), of_link.weight);
    wanted.into_iter().map(|wanted| Question { link: link as u32, wanted }).collect()
}

/// A question for a network, most often about one of its links: at a change of what it is told, within reach, or any.
pub fn any(random: &mut Random, network: &Network, shown: &ShownSides) -> Question {
    let links = network.links.len();
    if random.once_in(16) {
        return any_outside(random, links);
    }
    let link = if random.once_in(8) { links - 1 } else { random.below(links) };
    let wanted = match random.below(4) {
        0 | 1 => return random.pick(&turns(network, shown, link)),
        2 => random.between(0, Limits::of(shown, &network.links[link]).reach() as usize) as u64,
        _ => random.number() >> random.below(64),
    };
    Question { link: link as u32, wanted }
}

/// The least wanted weight that is out of reach in every network.
pub const UNREACHED: u64 = MOST_LINKS as u64 * MOST_WEIGHT + 1;

/// Wanted weights that do not go by a network: small ones, and ones that are out of reach.
pub const EXTREMES: [u64; 5] = [0, 1, UNREACHED, 1 << 63, u64::MAX];

/// A question about a link outside a sheet of so many links.
fn any_outside(random: &mut Random, links: usize) -> Question {
    Question { link: random.pick(&outside(links)), wanted: random.pick(&EXTREMES) }
}

/// A question for a refused sheet: about one of the links that its header counts, or one outside.
pub fn of_refused(random: &mut Random, links: usize) -> Question {
    match links > 0 && random.once_in(2) {
        true => Question { link: random.below(links) as u32, wanted: random.pick(&EXTREMES) },
        false => any_outside(random, links),
    }
}

#[cfg(test)]
mod tests {
    use super::*;
    use crate::documented;
    use crate::every_side;
    use crate::generate::{self, FEATURES};
    use crate::thickness::{self, Told};
    use crate::{cuts, sheet};
    use std::collections::BTreeSet;

    #[test]
    fn limits_are_those_of_the_sides() {
        let limits = |network: &Network, link: usize| Limits::of(&ShownSides::of(network), &network.links[link]);
        let triangle = documented::network(3, &[(0, 1, 3), (1, 2, 2), (0, 2, 4)], &[(2, &[0, 2])]);
        assert_eq!(limits(&triangle, 0), Limits { across: 2, beside: Some(6) });
        assert_eq!(limits(&triangle, 1), Limits { across: 3, beside: Some(7) });
        assert_eq!(limits(&triangle, 2), Limits { across: 2, beside: Some(5) });
        let parallel = documented::network(2, &[(0, 1, 9), (0, 1, 8)], &[(0, &[1])]);
        assert_eq!(limits(&parallel, 0), Limits { across: 8, beside: None });
    }

    #[test]
    fn the_reported_weight_follows_from_the_limits() {
        let mut random = Random::new(17);
        for feature in FEATURES {
            for _ in 0..10 {
                let size = generate::random_size(&mut random, 2, every_side::MOST_NODES, feature);
                let network = generate::network(&mut random, size, feature);
                let link = random.below(network.links.len());
                let limits = Limits::of(&ShownSides::of(&network), &network.links[link]);
                for weight in [0, network.links[link].weight, MOST_WEIGHT] {
                    let changed = thickness::with_weight(&network, link, weight);
                    assert_eq!(cuts::answer(&changed).candidate.weight, limits.reported(weight));
                }
            }
        }
    }

    /// The network of case A, of whose link 0 more than 6 is out of reach, and what it is told.
    fn told(ask: impl Fn(&Network, &ShownSides) -> Vec<Question>) -> BTreeSet<Told> {
        let network = sheet::read(&documented::CASE_A).expect("a sound sheet");
        let shown = ShownSides::of(&network);
        let told = |question| thickness::by_candidates(&network, &shown, question);
        ask(&network, &shown).into_iter().map(told).collect()
    }

    #[test]
    fn turns_have_every_answer_of_a_small_network() {
        let of_link_0 = told(|network, shown| {
            let turns = turns(network, shown, 0);
            let wanted: Vec<u64> = turns.iter().map(|question| question.wanted).collect();
            assert!([0, 2, 3, 5, 6, 7, 1 << 32, u64::MAX].iter().all(|turn| wanted.contains(turn)), "{wanted:?}");
            turns
        });
        assert_eq!(of_link_0, [Ok(0), Ok(1), Ok(2), Ok(3), Ok(4), Err(20)].into());
    }

    #[test]
    fn numbers_outside_are_so_and_have_a_link_in_their_lower_bits() {
        for links in [1, 2, 255, 2047, MOST_LINKS] {
            let outside = outside(links);
            assert!(outside.iter().all(|&link| link as usize >= links));
            assert!([links as u32, 65_536, u32::MAX].iter().all(|link| outside.contains(link)));
        }
    }

    #[test]
    fn questions_are_of_every_kind() {
        let any = told(|network, shown| {
            let mut random = Random::new(18);
            (0..1000).map(|_| any(&mut random, network, shown)).collect()
        });
        assert_eq!(any, [Ok(0), Ok(1), Ok(2), Ok(3), Ok(4), Err(18), Err(20)].into());
    }

    #[test]
    fn questions_for_refused_sheets_are_of_every_kind() {
        let mut random = Random::new(19);
        let mut seen = BTreeSet::new();
        for _ in 0..200 {
            let Question { link, wanted } = of_refused(&mut random, 3);
            seen.insert((link < 3, wanted));
        }
        assert_eq!(seen, [true, false].iter().flat_map(|inside| EXTREMES.map(|wanted| (*inside, wanted))).collect());
        assert!((0..50).any(|_| of_refused(&mut random, 0).link == 0));
    }
}
