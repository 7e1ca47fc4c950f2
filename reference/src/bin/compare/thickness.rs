//! How thick a link must be: figures that were reckoned by hand, numbers outside the sheet, refused sheets, trunk numbers, and every
//! change of what the links of small networks and some of large ones are told.

use reference::generate::questions::{self, EXTREMES};
use reference::generate::{self, Feature, Size, FEATURES};
use reference::network::Network;
use reference::random::Random;
use reference::sheet::{Contents, MOST_LINKS, MOST_NODES};
use reference::sold::Answers;
use reference::thickness::{self, Question, ShownSides};
use reference::{cuts, documented};

use crate::judge::{Judge, Judged, Read, Through};
use crate::{networks, sheets};

/// All kinds, with so many small networks of each feature.
pub fn of_every_kind(judge: &mut Judge, random: &mut Random, of_each_feature: usize) -> Judged {
    reckoned(judge)?;
    outside(judge, random)?;
    refused_sheets(judge)?;
    trunk_numbers(judge, random)?;
    for feature in FEATURES.into_iter().flat_map(|feature| vec![feature; of_each_feature]) {
        every_link(judge, random, feature)?;
    }
    large(judge, random)
}

/// All of the questions about an accepted sheet.
fn each(judge: &mut Judge, read: &Read, questions: &[Question]) -> Judged {
    questions.iter().try_for_each(|&question| judge.thickness_of(read, question))
}

/// Figures that were reckoned by hand, which the reference has to give too.
fn reckoned(judge: &mut Judge) -> Judged {
    judge.kind("thickness: reckoned by hand");
    for figures in documented::figures() {
        let (questions, expected): (Vec<Question>, Vec<_>) = figures.told().into_iter().unzip();
        let asked = networks::asked(judge, &Contents::without_trunks(figures.network), |judge, read| {
            let (network, shown) = (&read.contents.network, &read.answers.shown);
            let of = |&question: &Question| thickness::by_candidates(network, shown, question);
            let told: Vec<_> = questions.iter().map(of).collect();
            if told != expected {
                let got = format!("{told:?} by the reference\n");
                return judge.differs(read.sheet, format!("{questions:?}\n{expected:?}\n"), got);
            }
            each(judge, read, &questions)
        });
        asked.map_err(|stop| stop.of_case(&figures.name))?;
    }
    Ok(())
}

/// Link counts at their limits and at the ends of bytes.
const LINK_COUNTS: [usize; 7] = [1, 2, 8, 255, 256, 2047, MOST_LINKS];

/// Numbers of links outside the sheet, and that of the last one, with weights in reach and out of it.
fn outside(judge: &mut Judge, random: &mut Random) -> Judged {
    judge.kind("thickness: links outside the sheet");
    for links in LINK_COUNTS {
        let network = generate::network(random, Size::new(2, links, 2), Feature::Any);
        let contents = generate::contents(random, network);
        let numbers = generate::outside(links).into_iter().chain([links as u32 - 1]);
        let questions: Vec<Question> =
            numbers.flat_map(|link| EXTREMES.map(|wanted| Question { link, wanted })).collect();
        networks::asked(judge, &contents, |judge, read| each(judge, read, &questions))?;
    }
    Ok(())
}

/// Every single fault of the fixed bases, with links inside and outside and with weights in reach and out of it.
fn refused_sheets(judge: &mut Judge) -> Judged {
    judge.kind("thickness: refused sheets");
    sheets::each_single_fault(judge, |judge, network, sheet, refusal| {
        let links = network.links.len() as u32;
        for link in [0, links - 1, links, u32::MAX] {
            for wanted in [0, u64::MAX] {
                judge.refused_thickness(sheet, refusal, Question { link, wanted })?;
            }
        }
        Ok(())
    })
}

/// Sheets are told the same with trunk numbers and without.
fn trunk_numbers(judge: &mut Judge, random: &mut Random) -> Judged {
    judge.kind("thickness: with and without trunk numbers");
    let differing = sheets::with_and_without_trunks(judge, random, |judge, random, contents, sheets| {
        let answers = Answers::of(&contents.network);
        let question = questions::any(random, &contents.network, &answers.shown);
        for sheet in sheets {
            judge.sheet(sheet, Through::Entries)?;
            judge.thickness_of(&Read { sheet, contents, answers: &answers }, question)?;
        }
        Ok(())
    })?;
    judge.thickness.with_and_without_trunks += differing;
    Ok(())
}

/// In networks of so many nodes all links are asked for.
const MOST_OF_EVERY_LINK: usize = 7;

/// A small network of the feature, with every link.
pub fn every_link(judge: &mut Judge, random: &mut Random, feature: Feature) -> Judged {
    judge.kind("thickness: every link of small networks");
    let size = generate::random_size(random, 2, MOST_OF_EVERY_LINK, feature);
    let network = generate::network(random, size, feature);
    each_turn(judge, random, network, 0..size.links)
}

const LARGE: [(Size, Feature); 6] = [
    (Size::new(MOST_NODES, MOST_NODES - 1, 1), Feature::Any),
    (Size::new(MOST_NODES, MOST_NODES, 1), Feature::Ring),
    (Size::new(MOST_NODES, 600, 2), Feature::HeavyLinks),
    (Size::new(MOST_NODES, 600, 2), Feature::LaterTree),
    (Size::new(MOST_NODES, MOST_LINKS, 1), Feature::Any),
    (Size::new(MOST_NODES, MOST_LINKS, 2), Feature::OtherSize),
];

/// Networks of 256 nodes, with a link of the reported candidate and the last link.
fn large(judge: &mut Judge, random: &mut Random) -> Judged {
    judge.kind("thickness: networks of 256 nodes");
    for (size, feature) in LARGE {
        let network = generate::network(random, size, feature);
        let reported = cuts::answer(&network).candidate.first;
        each_turn(judge, random, network, [reported, size.links - 1])?;
    }
    Ok(())
}

/// Some links of a network, at each change of what they are told.
fn each_turn(
    judge: &mut Judge,
    random: &mut Random,
    network: Network,
    links: impl IntoIterator<Item = usize>,
) -> Judged {
    let contents = generate::contents(random, network);
    networks::asked(judge, &contents, |judge, read| {
        let (network, shown) = (&contents.network, &read.answers.shown);
        let of_link = |link| questions::turns(network, shown, link);
        let questions: Vec<Question> = links.into_iter().flat_map(of_link).collect();
        let by_tree_0 = ShownSides::of(&Network { trees: network.trees[..1].to_vec(), ..network.clone() });
        let told = |shown, question: &Question| thickness::by_candidates(network, shown, *question);
        let by_later_trees = |question: &&Question| told(shown, question) != told(&by_tree_0, question);
        judge.thickness.by_later_trees += questions.iter().filter(by_later_trees).count() as u64;
        each(judge, read, &questions)
    })
}
