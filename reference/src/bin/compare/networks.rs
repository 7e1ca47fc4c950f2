//! Random networks of all sizes.

use reference::generate::{self, Feature, Size, FEATURES};
use reference::network::{joining, Network};
use reference::pairs::PairWeights;
use reference::random::Random;
use reference::report;
use reference::sheet::{self, Contents, LEAST_NODES, MOST_LINKS, MOST_NODES, MOST_TREES};
use reference::sold::Answers;
use reference::{every_side, list};

use crate::judge::{Judge, Judged, Read, Through};

/// The least node counts of middle-sized and of large networks.
const MIDDLE_NODES: usize = every_side::MOST_NODES + 1;
const LARGE_NODES: usize = 41;

/// How many networks of each feature.
pub struct Counts {
    pub small: usize,
    pub middle: usize,
    pub large: usize,
}

/// Random networks of every feature.
pub fn of_every_feature(judge: &mut Judge, random: &mut Random, counts: &Counts) -> Judged {
    for feature in FEATURES {
        judge.kind(&format!("networks: {}", feature.name()));
        for _ in 0..counts.small {
            small(judge, random, feature)?;
        }
        for _ in 0..counts.middle {
            middle(judge, random, feature)?;
        }
        for _ in 0..counts.large {
            large(judge, random, feature)?;
        }
    }
    Ok(())
}

pub fn small(judge: &mut Judge, random: &mut Random, feature: Feature) -> Judged {
    let size = generate::random_size(random, 2, every_side::MOST_NODES, feature);
    let through = judge.all_once_in(2);
    of_feature(judge, random, size, feature, through)
}

pub fn middle(judge: &mut Judge, random: &mut Random, feature: Feature) -> Judged {
    let size = generate::random_size(random, MIDDLE_NODES, LARGE_NODES - 1, feature);
    of_feature(judge, random, size, feature, Through::All)
}

/// A network of many nodes; of few trees, since the reference takes long for many.
pub fn large(judge: &mut Judge, random: &mut Random, feature: Feature) -> Judged {
    let mut size = generate::random_size(random, LARGE_NODES, MOST_NODES, feature);
    size.trees = size.trees.min(3);
    of_feature(judge, random, size, feature, Through::All)
}

/// Networks with as many nodes, links and trees as there may be, or as few, in many combinations.
pub fn at_the_limits(judge: &mut Judge, random: &mut Random) -> Judged {
    judge.kind("networks: at the limits of size");
    for (size, feature) in limits() {
        of_feature(judge, random, size, feature, Through::All)?;
    }
    Ok(())
}

fn limits() -> Vec<(Size, Feature)> {
    let largest = |links, trees| Size::new(MOST_NODES, links, trees);
    let mut limits = vec![
        (largest(MOST_LINKS, MOST_TREES), Feature::LaterTree),
        (largest(MOST_LINKS, 1), Feature::SharesAtWeight),
        (largest(MOST_LINKS, 1), Feature::Ties),
        (largest(MOST_NODES - 1, 1), Feature::Ties),
        (largest(MOST_NODES - 1, 2), Feature::LoadAtWeight),
    ];
    for feature in FEATURES {
        for (nodes, links) in [(4, 5), (5, 20), (9, 64), (10, 65), (30, MOST_LINKS)] {
            limits.push((Size::new(nodes, links, MOST_TREES), feature));
        }
        for (links, trees) in [(1, 1), (1, MOST_TREES), (MOST_LINKS, 1), (MOST_LINKS, MOST_TREES)] {
            limits.push((Size::new(LEAST_NODES, links, trees), feature));
        }
    }
    limits.retain(|(size, feature)| size.nodes >= feature.least_nodes());
    limits
}

fn of_feature(judge: &mut Judge, random: &mut Random, size: Size, feature: Feature, through: Through) -> Judged {
    let network = generate::network(random, size, feature);
    judged(judge, random, network, through)
}

/// The network's sheet, with trunk numbers or without and not always the shortest, has the reference's answer.
pub fn judged(judge: &mut Judge, random: &mut Random, network: Network, through: Through) -> Judged {
    let contents = generate::contents(random, network);
    let shortest = sheet::write_contents(&contents);
    let sheet = match random.once_in(3) {
        true => sheet::write_with_maps(&contents, &generate::longer_maps(random, &contents)),
        false => shortest.clone(),
    };
    judge.longer += u64::from(sheet != shortest);
    let read = sheet::read_contents(&sheet);
    if read.as_ref() != Ok(&contents) {
        return judge.differs(&sheet, format!("{contents:?}\n"), format!("{read:?}, by the reference's reader\n"));
    }
    let network = &contents.network;
    let answers = Answers::of(network);
    if network.nodes <= every_side::MOST_NODES {
        by_every_side(judge, network, &sheet, &answers)?;
    }
    judge.expect(&sheet, &Ok(answers), through)
}

/// Puts other trees in the place of a network's, as different as its links allow.
pub fn mix_trees(random: &mut Random, network: &mut Network) {
    let mut order: Vec<usize> = (0..network.links.len()).collect();
    for tree in &mut network.trees {
        random.shuffle(&mut order);
        tree.members = joining(network.nodes, &network.links, &order);
        tree.members.sort_unstable();
    }
}

/// The shortest sheet of the contents has the reference's answer, and more is asked about it.
pub fn asked(judge: &mut Judge, contents: &Contents, ask: impl FnOnce(&mut Judge, &Read) -> Judged) -> Judged {
    let sheet = sheet::write_contents(contents);
    judge.sheet(&sheet, Through::Entries)?;
    let answers = Answers::of(&contents.network);
    ask(judge, &Read { sheet: &sheet, contents, answers: &answers })
}

/// The same answer, the same list and the same weights of pairs by every side, the demands on the answer, and what request F-14 promises of
/// the list.
fn by_every_side(judge: &mut Judge, network: &Network, sheet: &[u8], answers: &Answers) -> Judged {
    judge.by_every_side += 1;
    let Answers { current: answer, list, pairs, .. } = answers;
    let differ = |judge: &Judge, expected: String, got: String| {
        judge.differs(sheet, expected, got + "by the reference's component search\n")
    };
    let listed = list::by_every_side(network);
    if listed != *list {
        return differ(judge, format!("{listed:?}\n"), format!("{list:?}\n"));
    }
    let weights = PairWeights::by_every_side(network);
    if weights != *pairs {
        return differ(judge, format!("{weights:?}\n"), format!("{pairs:?}\n"));
    }
    let expected = every_side::answer(network);
    if expected != *answer {
        return differ(judge, report::lines(&Ok(expected)), report::lines(&Ok(answer.clone())));
    }
    let demands = every_side::check_demand(network, answer).and(every_side::check_candidates(network));
    match demands.and(every_side::check_list(network, &list.sides)) {
        Ok(beside) => {
            judge.completeness.count(&beside);
            Ok(())
        }
        Err(broken) => judge.differs(sheet, "what the documents demand of every side\n".to_string(), broken + "\n"),
    }
}
