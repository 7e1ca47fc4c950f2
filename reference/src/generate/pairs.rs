//! Trees and areas to ask for the weights of a tree's pairs.

use super::outside;
use crate::network::Network;
use crate::pairs::{row_start, Question};
use crate::random::Random;

/// How many numbers a much longer area has beside those that are needed.
pub const MUCH_LONGER: usize = 1000;

/// Areas for a tree of so many links: of no number, of as many as it has pairs, a few fewer and a few more, of as many as a tree of one link
/// fewer or more has, and much longer.
pub fn rooms(links: usize) -> Vec<usize> {
    let need = row_start(links);
    let around = need.saturating_sub(2)..=need + 2;
    let mut rooms: Vec<usize> = around.chain([0, need - (links - 1), need + links, need + MUCH_LONGER]).collect();
    rooms.sort_unstable();
    rooms.dedup();
    rooms
}

/// Every tree of a network with every area, and trees outside with areas that are too short and long enough.
pub fn all(network: &Network) -> Vec<Question> {
    let trees = network.trees.len();
    let need = row_start(network.nodes - 1);
    let inside = (0..trees as u32).flat_map(|tree| with_rooms(tree, rooms(network.nodes - 1)));
    let outside = outside(trees).into_iter().flat_map(|tree| with_rooms(tree, vec![0, need, need + MUCH_LONGER]));
    inside.chain(outside).collect()
}

fn with_rooms(tree: u32, rooms: Vec<usize>) -> impl Iterator<Item = Question> {
    rooms.into_iter().map(move |room| Question { tree, room })
}

/// The last tree of a network, with as many numbers as it has pairs.
pub fn last(network: &Network) -> Question {
    Question { tree: network.trees.len() as u32 - 1, room: row_start(network.nodes - 1) }
}

/// A question for a network, most often about one of its trees with an area that is long enough.
pub fn any(random: &mut Random, network: &Network) -> Question {
    of_counts(random, network.nodes, network.trees.len(), 8)
}

/// A question for a refused sheet, whose header counts so many nodes and trees: about one of these trees or one outside.
pub fn of_refused(random: &mut Random, nodes: usize, trees: usize) -> Question {
    of_counts(random, nodes.max(2), trees, 2)
}

/// A question about a sheet of so many nodes and trees, once in so many times about a tree outside.
fn of_counts(random: &mut Random, nodes: usize, trees: usize, outside_once_in: usize) -> Question {
    let tree = match trees == 0 || random.once_in(outside_once_in) {
        true => random.pick(&outside(trees)),
        false => random.below(trees) as u32,
    };
    let room = match random.once_in(2) {
        true => row_start(nodes - 1),
        false => random.pick(&rooms(nodes - 1)),
    };
    Question { tree, room }
}

#[cfg(test)]
mod tests {
    use super::*;
    use crate::documented;
    use crate::pairs::PairWeights;
    use std::collections::BTreeSet;

    #[test]
    fn rooms_are_around_the_need() {
        assert_eq!(rooms(1), [0, 1, 2, 1000]);
        assert_eq!(rooms(2), [0, 1, 2, 3, 1001]);
        assert_eq!(rooms(5), [0, 6, 8, 9, 10, 11, 12, 15, 1010]);
        assert_eq!(rooms(255), [0, 32_131, 32_383, 32_384, 32_385, 32_386, 32_387, 32_640, 33_385]);
    }

    /// Three nodes in a ring, and two trees with different pairs.
    fn ring() -> Network {
        documented::network(3, &[(0, 1, 1), (1, 2, 2), (2, 0, 4)], &[(1, &[0, 1]), (1, &[1, 2])])
    }

    #[test]
    fn questions_are_of_every_kind() {
        let network = ring();
        let weights = PairWeights::of(&network);
        let told = |questions: Vec<Question>| -> BTreeSet<_> {
            questions.into_iter().map(|question| weights.told(question)).collect()
        };
        let every = BTreeSet::from([Ok(&[3][..]), Ok(&[6]), Err(23), Err(24)]);
        assert_eq!(told(all(&network)), every);
        assert_eq!(weights.told(last(&network)), Ok(&[6][..]));
        let mut random = Random::new(23);
        assert_eq!(told((0..200).map(|_| any(&mut random, &network)).collect()), every);
        let rooms: BTreeSet<usize> = (0..200).map(|_| any(&mut random, &network).room).collect();
        assert_eq!(rooms, [0, 1, 2, 3, 1001].into());
    }

    #[test]
    fn questions_for_refused_sheets_are_of_every_kind() {
        let mut random = Random::new(24);
        let seen: BTreeSet<(bool, bool)> = (0..200)
            .map(|_| of_refused(&mut random, 4, 3))
            .map(|Question { tree, room }| (tree < 3, room < 3))
            .collect();
        assert_eq!(seen.len(), 4);
        assert!((0..50).any(|_| of_refused(&mut random, 0, 0).tree == 0));
    }
}
