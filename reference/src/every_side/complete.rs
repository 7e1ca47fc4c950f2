//! What request F-14 promises of a small network's list, held against every side of the network.

use super::{counted, require, shares, side_of, sides, weigh};
use crate::list;
use crate::network::Network;
use crate::report::Side;
use std::cmp::Ordering;

/// What there is beside a list.
#[derive(Clone, Copy, Debug, PartialEq, Eq)]
pub struct Beside {
    /// How three times the shares of the trees that count stands to the weight of the listed sides, and whether they differ by 1.
    pub shares: Ordering,
    pub by_one: bool,
    /// How many sides of that weight are not listed, and how many sides are lighter.
    pub missing: usize,
    pub lighter: usize,
}

/// Looks for every side of a sound network of at most [`super::MOST_NODES`] nodes in its list, which is not empty; the error says which
/// promise is not kept.
pub fn check_list(network: &Network, list: &[Side]) -> Result<Beside, String> {
    let listed: Vec<u32> = list.iter().map(|side| side_of(&list::nodes(side))).collect();
    let weight = weigh(network, listed[0]);
    let (mut missing, mut lighter) = (0, 0);
    for side in sides(network) {
        match weigh(network, side).cmp(&weight) {
            Ordering::Less => lighter += 1,
            Ordering::Equal => missing += usize::from(!listed.contains(&side)),
            Ordering::Greater => {}
        }
    }
    let three_shares = 3 * shares(counted(network).iter());
    let shares = three_shares.cmp(&u128::from(weight));
    require(shares.is_lt() || lighter == 0, "a side is lighter")?;
    require(shares.is_le() || missing == 0, "a side of the weight is missing")?;
    Ok(Beside { shares, by_one: three_shares.abs_diff(u128::from(weight)) == 1, missing, lighter })
}

#[cfg(test)]
mod tests {
    use super::*;
    use crate::documented;

    /// Four nodes, each pair joined, where node 0's links weigh 1 and the others what is given.
    fn four_nodes(others: [u64; 3], trees: &[(u64, &[usize])]) -> Network {
        let [a, b, c] = others;
        documented::network(4, &[(0, 1, 1), (0, 2, 1), (0, 3, 1), (1, 2, a), (1, 3, b), (2, 3, c)], trees)
    }

    #[track_caller]
    fn assert_beside(network: &Network, shares: Ordering, by_one: bool, missing: usize, lighter: usize) {
        let beside = check_list(network, &list::by_every_side(network).sides);
        assert_eq!(beside, Ok(Beside { shares, by_one, missing, lighter }));
    }

    /// The star around node 0 does not show the side of the three others, which weighs 3.
    #[test]
    fn the_side_that_no_tree_shows_is_missing_or_lighter() {
        let star: (u64, &[usize]) = (1, &[0, 1, 2]);
        let path: (u64, &[usize]) = (1, &[0, 3, 5]);
        assert_beside(&four_nodes([1, 1, 1], &[star]), Ordering::Equal, false, 1, 0);
        assert_beside(&four_nodes([1, 1, 1], &[star, star]), Ordering::Equal, false, 1, 0);
        assert_beside(&four_nodes([1, 1, 1], &[star, path]), Ordering::Equal, false, 0, 0);
        assert_beside(&four_nodes([1, 2, 2], &[star]), Ordering::Less, true, 0, 1);
        assert_beside(&four_nodes([2, 2, 2], &[star]), Ordering::Less, false, 0, 1);
        assert_beside(&four_nodes([1, 1, 0], &[star]), Ordering::Greater, true, 0, 0);
    }

    #[test]
    fn a_promise_that_is_not_kept_is_noticed() {
        let ring = documented::network(4, &[(0, 1, 1), (1, 2, 1), (2, 3, 1), (3, 0, 1)], &[(1, &[0, 1, 2])]);
        let list = list::by_every_side(&ring).sides;
        assert_eq!(check_list(&ring, &list).map(|beside| beside.missing), Ok(0));
        assert_eq!(check_list(&ring, &list[1..]), Err("a side of the weight is missing".to_string()));
        assert_eq!(check_list(&ring, &list[..5]), Err("a side of the weight is missing".to_string()));
        let star = four_nodes([1, 1, 1], &[(1, &[0, 1, 2])]);
        let heavier = [crate::report::side_bytes([1, 2])];
        assert_eq!(check_list(&star, &heavier).map(|beside| beside.lighter), Ok(4));
        let certified = four_nodes([1, 1, 0], &[(1, &[0, 1, 2])]);
        assert_eq!(check_list(&certified, &[crate::report::side_bytes([1])]), Err("a side is lighter".to_string()));
    }
}
