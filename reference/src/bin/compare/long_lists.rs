//! Networks without weight, in which every candidate's side is listed.

use reference::generate::{self, Feature, Size};
use reference::network::Network;
use reference::random::Random;
use reference::sheet::{MOST_LINKS, MOST_NODES, MOST_TREES};

use crate::judge::{Judge, Judged, Through};
use crate::networks;

/// One tree has a side for each candidate, 32,640 of 256 nodes. Of many trees, each adds those that none before it shows.
const SIZES: [Size; 8] = [
    Size::new(MOST_NODES, MOST_NODES - 1, 1),
    Size::new(MOST_NODES, MOST_NODES - 1, MOST_TREES),
    Size::new(MOST_NODES, MOST_NODES, 4),
    Size::new(MOST_NODES, MOST_LINKS, 3),
    Size::new(MOST_NODES, 700, MOST_TREES),
    Size::new(MOST_NODES, MOST_LINKS, MOST_TREES),
    Size::new(129, MOST_LINKS, 8),
    Size::new(64, 300, MOST_TREES),
];

pub fn of_every_size(judge: &mut Judge, random: &mut Random) -> Judged {
    judge.kind("networks: long lists");
    for size in SIZES {
        let network = without_weight(random, size);
        networks::judged(judge, random, network, Through::Entries)?;
    }
    Ok(())
}

/// A network whose trees are as different as its links allow.
fn without_weight(random: &mut Random, size: Size) -> Network {
    let mut network = generate::network(random, size, Feature::Any);
    network.links.iter_mut().for_each(|link| link.weight = 0);
    networks::mix_trees(random, &mut network);
    network
}
