//! Networks by the kind of their trees, made at random from a fixed seed, as sheets with all fields written, trunk numbers too.

use reference::generate::{self, Size};
use reference::random::Random;
use reference::shapes::{self, Form, Further, Shape};
use reference::sheet::{self, Contents, ALL_FIELDS, MOST_TREES, MOST_WEIGHT};

const SEED: u64 = 1;

pub struct Kind {
    pub name: &'static str,
    shape: Shape,
    /// The least and the greatest.
    weights: (u64, u64),
}

const fn of_shape(name: &'static str, shape: Shape) -> Kind {
    Kind { name, shape, weights: (MOST_WEIGHT / 2, MOST_WEIGHT) }
}

/// By the shape of the trees, and random trees where all weights are equal, or where all are 0, so that all candidates weigh the same.
pub const KINDS: [Kind; 6] = [
    of_shape("random", Shape::Random),
    of_shape("path", Shape::Path),
    of_shape("caterpillar", Shape::Caterpillar),
    of_shape("star", Shape::Star),
    Kind { name: "equal", shape: Shape::Random, weights: (MOST_WEIGHT, MOST_WEIGHT) },
    Kind { name: "weight 0", shape: Shape::Random, weights: (0, 0) },
];

pub fn sheet(size: Size, kind: &Kind) -> Vec<u8> {
    let form = Form {
        shapes: &[kind.shape],
        root_on_top: true,
        different: MOST_TREES,
        further: Further::Anywhere,
        weights: kind.weights,
    };
    let mut random = Random::new(SEED);
    let network = shapes::network(&mut random, size, &form);
    all_fields(&generate::with_trunks(&mut random, network))
}

/// The sheet in which every link has all fields.
pub fn all_fields(contents: &Contents) -> Vec<u8> {
    sheet::write_with_maps(contents, &vec![ALL_FIELDS; contents.network.links.len()])
}
