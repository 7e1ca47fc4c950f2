//! Fixed sheets: the documents' networks, area lengths, faults, sheets cut and with single bytes changed.

use reference::faults::{self, Base, Fault};
use reference::generate::{self, Feature, Size, FEATURES};
use reference::network::Network;
use reference::random::Random;
use reference::report;
use reference::sheet::{self, Contents, Refusal, MOST_LINKS, MOST_TREES};
use reference::{documented, every_side, trunks};

use crate::judge::{Judge, Judged, Stop, Through};

/// The documents' networks, whose lines the reference has to give too.
pub fn documented(judge: &mut Judge) -> Judged {
    judge.kind("the documents' networks");
    for case in documented::all() {
        let reading = sheet::read_contents(&case.sheet);
        let lines = report::lines(&report::outcome_of(&reading)) + &report::trunk_lines(&reading);
        let expected = case.lines + &case.trunk_lines;
        let judged = match lines == expected {
            true => judge.sheet(&case.sheet, Through::All),
            false => judge.differs(&case.sheet, expected, lines + "by the reference\n"),
        };
        judged.map_err(|stop| stop.of_case(&case.name))?;
    }
    Ok(())
}

/// Areas and side maps of every length from 0 to 40, also in 8-byte numbers, with an accepted sheet, one of each refusal, and no byte at all.
pub fn area_lengths(judge: &mut Judge) -> Judged {
    judge.kind("areas and side maps of 0 to 40 bytes");
    let base = &faults::bases()[1];
    judge.all_area_lengths(&documented::CASE_A)?;
    judge.all_area_lengths(&base.sheet)?;
    judge.all_area_lengths(&[])?;
    let mut seen = Vec::new();
    for fault in faults::singles(base) {
        if !seen.contains(&fault.refusal.number) {
            seen.push(fault.refusal.number);
            judge.all_area_lengths(&faults::damaged(base, &[&fault]))?;
        }
    }
    Ok(())
}

/// A small random network's sheet, with trunk numbers or without and not always the shortest.
pub fn random_base(random: &mut Random) -> Base {
    let size = generate::random_size(random, 2, every_side::MOST_NODES, Feature::Any);
    let network = generate::network(random, size, Feature::Any);
    let contents = generate::contents(random, network);
    let maps = match random.once_in(2) {
        true => generate::longer_maps(random, &contents),
        false => sheet::shortest_maps(&contents),
    };
    Base::new(contents, maps)
}

/// The faults' sheet is refused as the faults' definitions say, by the reference and by the monitor.
pub fn refused(judge: &mut Judge, base: &Base, faults: &[&Fault], refusal: Refusal, through: Through) -> Judged {
    judge.expect(&faults::damaged(base, faults), &Err(refusal), through)
}

/// Asks about every single fault of the fixed bases: the network of the sound sheet, the faulty sheet and its refusal.
pub fn each_single_fault(
    judge: &mut Judge,
    mut ask: impl FnMut(&mut Judge, &Network, &[u8], Refusal) -> Judged,
) -> Judged {
    for base in faults::bases() {
        for fault in faults::singles(&base) {
            refused(judge, &base, &[&fault], fault.refusal, Through::Entries)?;
            ask(judge, &base.contents.network, &faults::damaged(&base, &[&fault]), fault.refusal)?;
        }
    }
    Ok(())
}

/// Every single fault of the fixed bases and of random ones, sheets that only look like one, and a fault of each kind in every
/// record of a large sheet.
pub fn single_faults(judge: &mut Judge, random: &mut Random, random_bases: usize) -> Judged {
    judge.kind("single faults");
    let mut bases = faults::bases();
    bases.extend((0..random_bases).map(|_| random_base(random)));
    for base in &bases {
        for fault in faults::singles(base) {
            let through = judge.all_once_in(3);
            refused(judge, base, &[&fault], fault.refusal, through)?;
        }
        for sheet in faults::harmless(base) {
            judge.sheet(&sheet, Through::All)?;
        }
    }
    let large = Base::with_all_fields(random, faults::LARGE_SIZE);
    judge.sheet(&large.sheet, Through::All)?;
    for fault in faults::of_every_record(random, &large) {
        let through = judge.all_once_in(10);
        refused(judge, &large, &[&fault], fault.refusal, through)?;
    }
    Ok(())
}

/// Every pair of single faults of the fixed bases, and some of random ones.
pub fn two_faults(judge: &mut Judge, random: &mut Random, random_bases: usize) -> Judged {
    judge.kind("two faults");
    for base in &faults::bases() {
        let faults = faults::singles(base);
        for (place, one) in faults.iter().enumerate() {
            for other in &faults[place + 1..] {
                let through = judge.all_once_in(100);
                pair_of_faults(judge, base, one, other, through)?;
            }
        }
    }
    for _ in 0..random_bases {
        let base = random_base(random);
        let faults = faults::singles(&base);
        for _ in 0..500 {
            let one = &faults[random.below(faults.len())];
            let other = &faults[random.below(faults.len())];
            let through = judge.all_once_in(100);
            pair_of_faults(judge, &base, one, other, through)?;
        }
    }
    Ok(())
}

/// A sheet with two faults, unless one hides the other.
fn pair_of_faults(judge: &mut Judge, base: &Base, one: &Fault, other: &Fault, through: Through) -> Judged {
    match faults::first_refusal(one, other) {
        Some(refusal) => refused(judge, base, &[one, other], refusal, through),
        None => Ok(()),
    }
}

/// A sheet of the greatest length with so many nodes.
pub fn longest_sheet(random: &mut Random, nodes: usize) -> Base {
    Base::with_all_fields(random, Size::new(nodes, MOST_LINKS, MOST_TREES))
}

/// Small sheets and a longest one, cut at every length.
pub fn cut_sheets(judge: &mut Judge, random: &mut Random) -> Judged {
    judge.kind("sheets cut at every length");
    for base in faults::bases() {
        for end in 0..=base.sheet.len() {
            judge.sheet(&base.sheet[..end], Through::All)?;
        }
    }
    let longest = longest_sheet(random, 20).sheet;
    for end in 0..=longest.len() {
        let through = judge.all_once_in(50);
        judge.sheet(&longest[..end], through)?;
    }
    Ok(())
}

/// All bytes of small sheets changed to all values, some bytes of larger sheets to some.
pub fn changed_bytes(judge: &mut Judge, random: &mut Random, changes: usize) -> Judged {
    judge.kind("single bytes changed");
    for base in faults::bases() {
        let mut sheet = base.sheet.clone();
        for at in 0..sheet.len() {
            for value in 0..=u8::MAX {
                sheet[at] = value;
                let through = judge.all_once_in(100);
                judge.sheet(&sheet, through)?;
            }
            sheet[at] = base.sheet[at];
        }
    }
    let network = generate::network(random, Size::new(30, 70, 3), Feature::Any);
    let middle = sheet::write_contents(&generate::with_trunks(random, network));
    let longest = longest_sheet(random, 8).sheet;
    for _ in 0..changes {
        for base in [&middle, &longest] {
            let through = judge.all_once_in(5);
            judge.sheet(&changed(random, base), through)?;
        }
    }
    Ok(())
}

/// The sheet with one byte changed.
pub fn changed(random: &mut Random, sheet: &[u8]) -> Vec<u8> {
    let mut changed = sheet.to_vec();
    let at = random.below(sheet.len());
    changed[at] ^= random.pick(&[1, 2, 4, 8, 16, 32, 64, 128, 255, 3, 6]);
    changed
}

/// How many networks of each feature have trunk numbers.
const WITH_TRUNKS: usize = 15;

/// Asks about small networks of every feature, each in a sheet with trunk numbers and in one without. Tells how many have two different
/// sheets.
pub fn with_and_without_trunks(
    judge: &mut Judge,
    random: &mut Random,
    ask: impl Fn(&mut Judge, &mut Random, &Contents, [&[u8]; 2]) -> Judged,
) -> Result<u64, Stop> {
    let mut differing = 0;
    for feature in FEATURES.into_iter().flat_map(|feature| [feature; WITH_TRUNKS]) {
        let size = generate::random_size(random, 2, every_side::MOST_NODES, feature);
        let network = generate::network(random, size, feature);
        let contents = generate::with_trunks(random, network);
        let with = sheet::write_contents(&contents);
        let without = trunks::plain(&with);
        ask(judge, random, &contents, [&with, &without])?;
        differing += u64::from(with != without);
    }
    Ok(differing)
}
