//! Shares with which the run of trees that count ends at a chosen tree.

use crate::cuts;
use crate::network::Network;
use crate::random::Random;

const MOST_SHARE: u64 = u32::MAX as u64;

/// The greatest share with which a tree behind so many trees, which overload no link, overloads none either.
fn bears(network: &Network, run: usize, tree: usize) -> u64 {
    let loads = cuts::loads(&network.links, &network.trees[..run]);
    let spare = |&member: &usize| network.links[member].weight - loads[member];
    network.trees[tree].members.iter().map(spare).min().unwrap_or(0)
}

/// Gives the trees shares with which the run ends at the first, the last or any of them. In half of the networks the trees before it
/// have so small shares that their threefold sum is at most three quarters of the lightest weight.
pub fn end_run(random: &mut Random, network: &mut Network) {
    let trees = network.trees.len();
    let end = match random.below(4) {
        0 => 0,
        1 => trees - 1,
        _ => random.below(trees),
    };
    let small = random.once_in(2);
    for tree in 0..end {
        let most = bears(network, tree, tree);
        network.trees[tree].share = match small {
            true => random.between(0, most as usize / (4 * end)) as u64,
            false => part(random, most, end - tree),
        };
    }
    end_at(random, network, end);
}

/// A share of at most so much: nothing, all, what is even for so many trees, or any.
fn part(random: &mut Random, most: u64, trees: usize) -> u64 {
    match random.below(8) {
        0 => 0,
        1..4 => most,
        4..6 => most / trees as u64,
        _ => random.between(0, most as usize) as u64,
    }
}

/// How many trees from tree 0 on are to count: often all.
pub fn often_all(random: &mut Random, network: &Network) -> usize {
    let trees = network.trees.len();
    if random.once_in(2) {
        trees
    } else {
        random.between(1, trees)
    }
}

/// Gives the first trees, so many, these shares together, and the others nothing.
pub fn share_out(random: &mut Random, network: &mut Network, run: usize, shares: u64) {
    let mut left = shares;
    for (place, tree) in network.trees.iter_mut().enumerate() {
        tree.share = if place + 1 == run { left } else { random.between(0, left as usize) as u64 };
        left -= tree.share;
    }
}

/// Ends the run behind so many trees, which overload no link, if there is one more.
pub fn end_behind(random: &mut Random, network: &mut Network, run: usize) {
    if run < network.trees.len() {
        end_at(random, network, run);
    }
}

/// Ends the run at a tree behind ones that overload no link: its share loads a link one past its weight, or is the greatest there is.
/// The trees behind it have no share, the greatest that the run would bear, or one more.
fn end_at(random: &mut Random, network: &mut Network, end: usize) {
    if bears(network, end, end) == MOST_SHARE {
        let member = random.pick(&network.trees[end].members);
        network.links[member].weight -= 1;
    }
    let past = bears(network, end, end) + 1;
    network.trees[end].share = random.pick(&[past, past, past, MOST_SHARE]);
    for tree in end + 1..network.trees.len() {
        let fitting = bears(network, end, tree);
        network.trees[tree].share = random.pick(&[0, fitting, fitting, (fitting + 1).min(MOST_SHARE)]);
    }
}

#[cfg(test)]
mod tests {
    use super::*;
    use crate::cuts::Counting;
    use crate::every_side;
    use crate::generate::{self, Feature};
    use crate::network::Tree;

    const NETWORKS: usize = 600;
    const MANY: usize = NETWORKS / 20;
    const FEATURES: [Feature; 2] = [Feature::RunEnds, Feature::WideRun];

    /// A figure of a network, and what it is called.
    type Named<T> = (&'static str, fn(&Network) -> T);

    /// How many of some hundred networks of the feature are such.
    fn count(feature: Feature, such: impl Fn(&Network) -> bool) -> usize {
        let mut random = Random::new(7);
        let mut network = || {
            let size = generate::random_size(&mut random, 2, every_side::MOST_NODES, feature);
            generate::network(&mut random, size, feature)
        };
        (0..NETWORKS).filter(|_| such(&network())).count()
    }

    /// How many trees count.
    fn run(network: &Network) -> usize {
        cuts::longest_run(network)
    }

    /// Whether so many trees bring the load of a link to its weight and so much more.
    fn some_load_is(network: &Network, trees: usize, more: u64) -> bool {
        let loads = cuts::loads(&network.links, &network.trees[..trees]);
        loads.iter().zip(&network.links).any(|(&load, link)| load > 0 && load == link.weight + more)
    }

    /// Whether a tree behind the one that ends the run has a share, and without that one would overload nothing.
    fn one_behind_would_fit(network: &Network) -> bool {
        let fits = |tree: usize| (1..=bears(network, run(network), tree)).contains(&network.trees[tree].share);
        (run(network) + 1..network.trees.len()).any(fits)
    }

    #[test]
    fn runs_end_in_every_place_and_at_the_edge() {
        let situations: [Named<bool>; 7] = [
            ("at the first of several", |network| run(network) == 0 && network.trees.len() > 1),
            ("at a middle one", |network| run(network) > 0 && run(network) + 1 < network.trees.len()),
            ("at the last of several", |network| run(network) > 0 && run(network) + 1 == network.trees.len()),
            ("one past a weight", |network| some_load_is(network, run(network) + 1, 1)),
            ("behind a load at its weight", |network| some_load_is(network, run(network), 0)),
            ("before a share of 0", |network| network.trees[run(network) + 1..].iter().any(|tree| tree.share == 0)),
            ("before one that would fit", one_behind_would_fit),
        ];
        for feature in FEATURES {
            assert_eq!(count(feature, |network| run(network) < network.trees.len()), NETWORKS);
            for (name, situation) in situations {
                let count = count(feature, situation);
                assert!(count > MANY, "{feature:?}, {name}: {count}");
            }
        }
    }

    #[test]
    fn wide_runs_have_the_greatest_shares() {
        let greatest = |tree: &Tree| tree.share == u64::from(u32::MAX);
        assert!(count(Feature::WideRun, |network| network.trees[..run(network)].iter().any(greatest)) > MANY);
        assert!(count(Feature::WideRun, |network| greatest(&network.trees[run(network)])) > MANY);
    }

    /// The sum of the shares of the trees that fit, one after another: each load of a tree's members fits its link's weight. Trees that
    /// do not are left out, and where `stops`, those behind the first of them too.
    fn fitting_shares(network: &Network, fits: fn(u64, u64) -> bool, stops: bool) -> u64 {
        let mut counted: Vec<Tree> = Vec::new();
        for tree in &network.trees {
            counted.push(tree.clone());
            let loads = cuts::loads(&network.links, &counted);
            if !tree.members.iter().all(|&member| fits(loads[member], network.links[member].weight)) {
                counted.pop();
                if stops {
                    break;
                }
            }
        }
        shares(&counted)
    }

    fn shares(trees: &[Tree]) -> u64 {
        trees.iter().map(|tree| tree.share).sum()
    }

    /// Whether other shares than those that count give another floor.
    fn alters(network: &Network, counted: u64) -> bool {
        let floor = |shares: u64| cuts::answer(network).candidate.weight.min(3 * shares);
        floor(counted) != floor(shares(&network.trees[..run(network)]))
    }

    #[test]
    fn wrong_readings_of_the_rule_give_other_floors() {
        let right = |network: &Network| fitting_shares(network, |load, weight| load <= weight, true);
        let in_32_bits = |network: &Network| fitting_shares(network, |load, weight| load % (1 << 32) <= weight, true);
        let readings: [Named<u64>; 6] = [
            ("all or none", |network| shares(cuts::counted(Counting::AllOrNone, network))),
            ("all", |network| shares(&network.trees)),
            ("one tree more", |network| shares(&network.trees[..=run(network)])),
            ("one tree fewer", |network| shares(&network.trees[..run(network).saturating_sub(1)])),
            ("trees behind that fit", |network| fitting_shares(network, |load, weight| load <= weight, false)),
            ("no load at its weight", |network| fitting_shares(network, |load, weight| load < weight, true)),
        ];
        for feature in FEATURES {
            assert_eq!(count(feature, |network| alters(network, right(network))), 0);
            for (name, reading) in readings {
                let count = count(feature, |network| alters(network, reading(network)));
                assert!(count > MANY, "{feature:?}, {name}: {count}");
            }
        }
        assert!(count(Feature::WideRun, |network| alters(network, in_32_bits(network))) > MANY);
    }
}
