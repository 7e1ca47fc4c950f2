//! Corners of two sides: maps of no side, refused sheets, greatest weights, trunk numbers, and each two lightest sides of a network.

use reference::corners::CORNERS;
use reference::generate::crossing::{self, LAYOUTS};
use reference::generate::sides::{self, Flaw, Sides, Which};
use reference::generate::{self, Feature, Size, FEATURES};
use reference::network::Network;
use reference::random::Random;
use reference::report::side_bytes;
use reference::sheet::{self, Reading, MOST_LINKS, MOST_NODES, MOST_WEIGHT};
use reference::{documented, every_side};

use crate::judge::{Judge, Judged, Stop, Through};
use crate::{networks, sheets};

/// How many networks: small ones of each layout and of each feature, with each two of their lightest sides, and large ones of each layout.
pub struct Counts {
    pub of_layout: usize,
    pub of_feature: usize,
    pub large: usize,
}

pub fn of_every_kind(judge: &mut Judge, random: &mut Random, counts: &Counts) -> Judged {
    maps_of_no_side(judge, random)?;
    refused_sheets(judge, random)?;
    greatest_weights(judge)?;
    trunk_numbers(judge, random)?;
    for (place, layout) in LAYOUTS.into_iter().enumerate() {
        for _ in 0..counts.of_layout {
            of_layout(judge, random, place)?;
        }
        for _ in 0..counts.large {
            let network = crossing::network(random, layout, MOST_NODES);
            networks::judged(judge, random, network, Through::All)?;
        }
    }
    for feature in FEATURES {
        for _ in 0..counts.of_feature {
            of_feature(judge, random, feature)?;
        }
    }
    Ok(())
}

/// Node counts at their limits and at the ends of bytes.
const NODE_COUNTS: [usize; 10] = [2, 3, 7, 8, 9, 31, 64, 200, 255, 256];

/// Every flaw of a map, in the first map, in the second and in both.
fn maps_of_no_side(judge: &mut Judge, random: &mut Random) -> Judged {
    judge.kind("corners: maps of no side");
    for nodes in NODE_COUNTS {
        let network = generate::network(random, Size::new(nodes, nodes + 10, 1), Feature::Any);
        let sheet = sheet::write(&network);
        judge.sheet(&sheet, Through::Entries)?;
        let reading = sheet::read_contents(&sheet);
        for flaw in Flaw::all(nodes) {
            let sides = sides::any(random, nodes);
            with_flaw(judge, random, &sheet, &reading, &sides, flaw)?;
        }
    }
    Ok(())
}

fn with_flaw(
    judge: &mut Judge,
    random: &mut Random,
    sheet: &[u8],
    reading: &Reading,
    sides: &Sides,
    flaw: Flaw,
) -> Judged {
    for which in Which::ALL {
        let maps = sides::maps(random, &which.with_flaw(*sides, flaw));
        judge.corners_of(sheet, reading, &maps)?;
    }
    Ok(())
}

/// Every single fault of the fixed bases, with maps of two sides, of no side, and too short.
fn refused_sheets(judge: &mut Judge, random: &mut Random) -> Judged {
    judge.kind("corners: refused sheets");
    sheets::each_single_fault(judge, |judge, network, sheet, refusal| {
        let (nodes, reading) = (network.nodes, Err(refusal));
        let sides = sides::any(random, nodes);
        let maps = sides::maps(random, &sides);
        judge.corners_of(sheet, &reading, &maps)?;
        for flaw in [Flaw::Empty, Flaw::Root, Flaw::Stray(random.between(nodes, MOST_NODES - 1))] {
            with_flaw(judge, random, sheet, &reading, &sides, flaw)?;
        }
        for which in Which::ALL {
            let maps = which.cut_short(random, maps.clone());
            judge.corners_of(sheet, &reading, &maps)?;
        }
        Ok(())
    })
}

/// One node in each corner, and almost all links there may be between two of them.
fn greatest_weights(judge: &mut Judge) -> Judged {
    judge.kind("corners: greatest weights");
    for one in 0..CORNERS {
        for other in 0..one {
            let mut links = vec![(0, 1, MOST_WEIGHT), (1, 2, MOST_WEIGHT), (2, 3, MOST_WEIGHT)];
            links.resize(MOST_LINKS, (one, other, MOST_WEIGHT));
            let network = documented::network(CORNERS, &links, &[(1, &[0, 1, 2])]);
            let sheet = sheet::write(&network);
            judge.sheet(&sheet, Through::Entries)?;
            let maps = [side_bytes([1, 2]).to_vec(), side_bytes([2, 3]).to_vec()];
            judge.corners_of(&sheet, &sheet::read_contents(&sheet), &maps)?;
        }
    }
    Ok(())
}

/// Sheets have the same corners with trunk numbers and without.
fn trunk_numbers(judge: &mut Judge, random: &mut Random) -> Judged {
    judge.kind("corners: with and without trunk numbers");
    let differing = sheets::with_and_without_trunks(judge, random, |judge, random, contents, sheets| {
        let sides = sides::any(random, contents.network.nodes);
        let maps = sides::maps(random, &sides);
        let reading = Ok(contents.clone());
        for sheet in sheets {
            judge.sheet(sheet, Through::Entries)?;
            judge.corners_of(sheet, &reading, &maps)?;
        }
        Ok(())
    })?;
    judge.corners.with_and_without_trunks += differing;
    Ok(())
}

/// A small network of the layout in that place, with each two of its lightest sides.
pub fn of_layout(judge: &mut Judge, random: &mut Random, place: usize) -> Judged {
    judge.kind(&format!("corners: {}", LAYOUTS[place].name()));
    let network = crossing::network(random, LAYOUTS[place], every_side::MOST_NODES);
    judge.corners.crossing.of_layout[place] += each_two(judge, random, network)?;
    Ok(())
}

/// Without weight, a network of so many nodes has 127 lightest sides.
const MOST_OF_EACH_TWO: usize = 8;

/// A small network of the feature, with each two of its lightest sides.
pub fn of_feature(judge: &mut Judge, random: &mut Random, feature: Feature) -> Judged {
    judge.kind("corners: lightest sides of any network");
    let size = generate::random_size(random, 2, MOST_OF_EACH_TWO, feature);
    let network = generate::network(random, size, feature);
    judge.corners.crossing.of_others += each_two(judge, random, network)?;
    Ok(())
}

/// The corners of each two lightest sides of a small network. Tells how many of them cross.
fn each_two(judge: &mut Judge, random: &mut Random, network: Network) -> Result<u64, Stop> {
    let (least, lightest) = every_side::lightest(&network);
    networks::judged(judge, random, network.clone(), Through::Entries)?;
    let contents = generate::contents(random, network);
    let (sheet, reading) = (sheet::write_contents(&contents), Ok(contents));
    let mut crossing = 0;
    for &first in &lightest {
        for &second in &lightest {
            crossing += u64::from(judge.lightest_corners(&sheet, &reading, least, &[first, second])?);
        }
    }
    Ok(crossing)
}
