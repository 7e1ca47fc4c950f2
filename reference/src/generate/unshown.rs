//! Networks in which the side that no tree shows, the reported side and three times the shares of the trees that count weigh almost the
//! same.

use super::{hiding_side, runs, some_hung, Size, LIGHT_LINKS};
use crate::network::Network;
use crate::random::Random;
use crate::sheet::MOST_WEIGHT;

/// The shares of all trees that count, together: three times as much, and a little more, is a weight.
const MOST_SHARES: [u64; 4] = [1, 3, 1000, MOST_WEIGHT / 3 - 2];

/// Every tree holds the three links across the side that none shows. Those that count load them to their weight, but for one of them in
/// some networks. The link that some nodes hang by weighs three times their shares, 1 less or 1 more, and no link beside the three weighs
/// less.
pub fn network(random: &mut Random, size: Size) -> Network {
    let most = random.pick(&MOST_SHARES);
    let shares = random.between(1, most as usize) as u64;
    let spare = u64::from(random.once_in(3));
    let reported = 3 * shares - 1 + random.below(3) as u64;
    let hung = some_hung(random, size);
    let mut network = hiding_side(random, size, hung, size.trees, |random, place| match place {
        0 => shares + spare,
        1..LIGHT_LINKS => shares,
        LIGHT_LINKS => reported,
        _ if random.once_in(8) => reported,
        _ => random.between(3 * shares as usize + 2, MOST_WEIGHT as usize) as u64,
    });
    let run = runs::often_all(random, &network);
    runs::share_out(random, &mut network, run, shares);
    runs::end_behind(random, &mut network, run);
    network
}

#[cfg(test)]
mod tests {
    use super::*;
    use crate::every_side::{self, Beside};
    use crate::generate::{self, Feature};
    use crate::{cuts, list};
    use std::cmp::Ordering;
    use std::collections::BTreeSet;

    #[test]
    fn the_side_that_no_tree_shows_stands_in_every_way_to_shares_and_list() {
        let mut random = Random::new(8);
        let mut seen = BTreeSet::new();
        for _ in 0..1000 {
            let size = generate::random_size(&mut random, 5, every_side::MOST_NODES, Feature::Unshown);
            let network = network(&mut random, size);
            let beside = every_side::check_list(&network, &list::by_every_side(&network).sides);
            let Beside { shares, by_one, missing, lighter } = beside.expect("a list that keeps its promise");
            assert_eq!(by_one, shares.is_ne());
            seen.insert((shares, missing, lighter, cuts::longest_run(&network) == network.trees.len()));
        }
        let ways = [
            (Ordering::Greater, 0, 0),
            (Ordering::Equal, 1, 0),
            (Ordering::Equal, 0, 0),
            (Ordering::Less, 0, 1),
            (Ordering::Less, 1, 0),
        ];
        let expected = ways.iter().flat_map(|&(shares, missing, lighter)| {
            [false, true].map(|all_count| (shares, missing, lighter, all_count))
        });
        assert_eq!(seen, expected.collect());
    }
}
