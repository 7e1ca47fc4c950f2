//! Networks whose trees have a shape, most of them with many candidates of one weight.

use reference::every_side;
use reference::generate::Size;
use reference::random::Random;
use reference::shapes::{self, Form, Further, Shape, SHAPES};
use reference::sheet::{MOST_LINKS, MOST_NODES, MOST_TREES, MOST_WEIGHT};

use crate::judge::{Judge, Judged, Through};
use crate::networks;

/// The least and the greatest weight.
const WEIGHTS: [(u64, u64); 7] = [(0, 0), (1, 1), (MOST_WEIGHT, MOST_WEIGHT), (0, 1), (1, 2), (0, 9), (0, MOST_WEIGHT)];

const LONGEST: Size = Size::new(MOST_NODES, MOST_LINKS, MOST_TREES);
/// With all weights the greatest, the sums of a row are the greatest there are.
const HEAVIEST: Size = Size::new(MOST_NODES, MOST_LINKS, 1);

/// Sizes of many nodes, with few trees since the reference takes long for many, and of few nodes with as many trees as there may be.
const SIZES: [Size; 10] = [
    Size::new(MOST_NODES, MOST_LINKS, 1),
    Size::new(MOST_NODES, MOST_LINKS, 2),
    Size::new(MOST_NODES, MOST_LINKS, 3),
    Size::new(MOST_NODES - 1, MOST_LINKS, 2),
    Size::new(129, MOST_LINKS, 3),
    Size::new(128, MOST_LINKS, 3),
    Size::new(2, 1, MOST_TREES),
    Size::new(2, MOST_LINKS, MOST_TREES),
    Size::new(3, 2, MOST_TREES),
    Size::new(3, MOST_LINKS, MOST_TREES),
];

/// What the shapes of a network's trees are taken from: each shape alone, then all.
pub fn kinds() -> Vec<&'static [Shape]> {
    SHAPES.chunks(1).chain([&SHAPES[..]]).collect()
}

pub fn kind_name(kind: &[Shape]) -> String {
    match kind {
        [shape] => format!("networks: {} trees", shape.name()),
        _ => "networks: trees of mixed shapes".to_string(),
    }
}

/// Networks of every kind: so many small ones, some of each size, large ones of few links for all weights, and one with the greatest
/// sums; and a longest sheet.
pub fn of_every_kind(judge: &mut Judge, random: &mut Random, small_networks: usize) -> Judged {
    for kind in kinds() {
        judge.kind(&kind_name(kind));
        for _ in 0..small_networks {
            small(judge, random, kind)?;
        }
        for size in SIZES {
            let weights = random.pick(&WEIGHTS);
            of_kind(judge, random, kind, size, weights, Through::All)?;
        }
        for weights in WEIGHTS {
            let size = few_links(random);
            of_kind(judge, random, kind, size, weights, Through::All)?;
        }
        of_kind(judge, random, kind, HEAVIEST, (MOST_WEIGHT, MOST_WEIGHT), Through::All)?;
    }
    of_kind(judge, random, &SHAPES, LONGEST, (1, 2), Through::All)
}

pub fn small(judge: &mut Judge, random: &mut Random, kind: &[Shape]) -> Judged {
    let nodes = random.between(2, every_side::MOST_NODES);
    let links = random.between(1, 4) * (nodes - 1) + random.below(nodes);
    let size = Size::new(nodes, links, random.between(1, 6));
    let (weights, through) = (random.pick(&WEIGHTS), judge.all_once_in(2));
    of_kind(judge, random, kind, size, weights, through)
}

/// As many nodes as there may be and few links: many sides weigh the same.
pub fn large(judge: &mut Judge, random: &mut Random, kind: &[Shape]) -> Judged {
    let (size, weights) = (few_links(random), random.pick(&WEIGHTS));
    of_kind(judge, random, kind, size, weights, Through::All)
}

fn few_links(random: &mut Random) -> Size {
    let links = MOST_NODES - 1 + random.pick(&[0, 1, 2, 20, MOST_NODES]);
    Size::new(MOST_NODES, links, 4)
}

fn of_kind(
    judge: &mut Judge,
    random: &mut Random,
    kind: &[Shape],
    size: Size,
    weights: (u64, u64),
    through: Through,
) -> Judged {
    let form = Form {
        shapes: kind,
        root_on_top: random.once_in(2),
        different: random.pick(&[1, 1, 2, 3, 8]),
        further: random.pick(&[Further::Anywhere, Further::Leaves]),
        weights,
    };
    let network = shapes::network(random, size, &form);
    networks::judged(judge, random, network, through)
}
