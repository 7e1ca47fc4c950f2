//! The weights of a tree's pairs: those that were reckoned by hand, every tree and area of small networks, all numbers of trees, refused
//! sheets, trunk numbers, and large networks.

use std::collections::HashSet;

use reference::generate::{self, pairs as questions, Feature, Size, FEATURES};
use reference::network::Network;
use reference::pairs::{row_start, Question};
use reference::random::Random;
use reference::shapes::{self, Form, Further, SHAPES};
use reference::sheet::{Contents, MOST_LINKS, MOST_NODES, MOST_TREES, MOST_WEIGHT};
use reference::sold::Answers;
use reference::{documented, every_side};

use crate::judge::{Judge, Judged, Read, Through};
use crate::{networks, sheets};

/// All kinds, with so many small networks of each feature.
pub fn of_every_kind(judge: &mut Judge, random: &mut Random, of_each_feature: usize) -> Judged {
    reckoned(judge)?;
    refused_sheets(judge)?;
    trunk_numbers(judge, random)?;
    numbers_of_trees(judge, random)?;
    for feature in FEATURES.into_iter().flat_map(|feature| vec![feature; of_each_feature]) {
        every_question(judge, random, feature)?;
    }
    large(judge, random)
}

/// Weights that were reckoned by hand, which the reference has to give too.
fn reckoned(judge: &mut Judge) -> Judged {
    judge.kind("pairs: reckoned by hand");
    for documented::PairSheet { name, network, tree, weights } in documented::pair_sheets() {
        let asked = networks::asked(judge, &Contents::without_trunks(network), |judge, read| {
            let by_reference = read.answers.pairs.of_tree(tree);
            if by_reference != Some(&weights) {
                let got = format!("{by_reference:?}, by the reference\n");
                return judge.differs(read.sheet, format!("{weights:?}\n"), got);
            }
            every_room(judge, read, tree)
        });
        asked.map_err(|stop| stop.of_case(name))?;
    }
    Ok(())
}

/// A tree of an accepted sheet with areas that are too short, just long enough and longer.
fn every_room(judge: &mut Judge, read: &Read, tree: u32) -> Judged {
    let links = read.contents.network.nodes - 1;
    questions::rooms(links).into_iter().try_for_each(|room| judge.pairs_of(read, Question { tree, room }))
}

/// Every single fault of the fixed bases, with trees inside and outside and with areas that are too short and long enough.
fn refused_sheets(judge: &mut Judge) -> Judged {
    judge.kind("pairs: refused sheets");
    sheets::each_single_fault(judge, |judge, network, sheet, refusal| {
        let trees = network.trees.len() as u32;
        for tree in [0, trees - 1, trees, u32::MAX] {
            for room in [0, row_start(network.nodes - 1), row_start(MOST_NODES - 1)] {
                judge.refused_pairs(sheet, refusal, Question { tree, room })?;
            }
        }
        Ok(())
    })
}

/// Sheets are told the same with trunk numbers and without.
fn trunk_numbers(judge: &mut Judge, random: &mut Random) -> Judged {
    judge.kind("pairs: with and without trunk numbers");
    let differing = sheets::with_and_without_trunks(judge, random, |judge, random, contents, sheets| {
        let answers = Answers::of(&contents.network);
        let question = questions::any(random, &contents.network);
        for sheet in sheets {
            judge.sheet(sheet, Through::Entries)?;
            judge.pairs_of(&Read { sheet, contents, answers: &answers }, question)?;
        }
        Ok(())
    })?;
    judge.pairs.with_and_without_trunks += differing;
    Ok(())
}

/// Sheets with every number of trees, as different as their links allow, and every question.
fn numbers_of_trees(judge: &mut Judge, random: &mut Random) -> Judged {
    judge.kind("pairs: all numbers of trees");
    for trees in 1..=MOST_TREES {
        let mut network = generate::network(random, Size::new(6, 30, trees), Feature::Any);
        networks::mix_trees(random, &mut network);
        every_question_of(judge, random, network)?;
    }
    Ok(())
}

/// A small network of the feature, with every question.
pub fn every_question(judge: &mut Judge, random: &mut Random, feature: Feature) -> Judged {
    judge.kind("pairs: every tree of small networks");
    let size = generate::random_size(random, 2, every_side::MOST_NODES, feature);
    let network = generate::network(random, size, feature);
    every_question_of(judge, random, network)
}

/// So many trees, no two of which weigh the same, are several.
const SEVERAL: usize = 3;

fn every_question_of(judge: &mut Judge, random: &mut Random, network: Network) -> Judged {
    let contents = generate::contents(random, network);
    networks::asked(judge, &contents, |judge, read| {
        let trees = contents.network.trees.len();
        let unlike: HashSet<_> = (0..trees as u32).map(|tree| read.answers.pairs.of_tree(tree)).collect();
        judge.pairs.of_unlike_trees += u64::from(trees >= SEVERAL && unlike.len() == trees);
        let questions = questions::all(&contents.network);
        questions.into_iter().try_for_each(|question| judge.pairs_of(read, question))
    })
}

/// Sizes of 256 nodes, and one with a node less.
const LARGE: [Size; 4] = [
    Size::new(MOST_NODES, MOST_NODES - 1, 1),
    Size::new(MOST_NODES, 2 * MOST_NODES, 3),
    Size::new(MOST_NODES, MOST_LINKS, 2),
    Size::new(MOST_NODES - 1, MOST_LINKS, 2),
];

/// Large networks whose trees have each shape, with every tree and area. The last tree's weights are reckoned by paths too.
fn large(judge: &mut Judge, random: &mut Random) -> Judged {
    judge.kind("pairs: networks of 256 nodes");
    for shape in SHAPES {
        for size in LARGE {
            let weights = random.pick(&[(0, 1), (0, MOST_WEIGHT), (MOST_WEIGHT, MOST_WEIGHT)]);
            let form = Form { shapes: &[shape], root_on_top: false, different: 2, further: Further::Anywhere, weights };
            let network = shapes::network(random, size, &form);
            networks::asked(judge, &generate::contents(random, network), |judge, read| {
                let last = size.trees as u32 - 1;
                (0..=last).try_for_each(|tree| every_room(judge, read, tree))?;
                judge.pairs_by_paths(read, Question { tree: last, room: row_start(size.nodes - 1) })
            })?;
        }
    }
    Ok(())
}
