//! Random cases of all kinds, as many as are asked for.

use reference::faults;
use reference::generate::crossing::LAYOUTS;
use reference::generate::FEATURES;
use reference::random::Random;

use crate::judge::{Judge, Judged, Through};
use crate::{corners, networks, pairs, shapes, sheets, thickness};

/// How many cases go by between two notes of progress.
const CASES_PER_NOTE: u64 = 10_000;

/// Runs so many random cases.
pub fn run(judge: &mut Judge, random: &mut Random, cases: u64) -> Judged {
    for case in 1..=cases {
        match random.below(115) {
            0..35 => network(judge, random)?,
            35..50 => shaped(judge, random)?,
            50..65 => single_fault(judge, random)?,
            65..80 => two_faults(judge, random)?,
            80..88 => cut(judge, random)?,
            88..100 => changed_byte(judge, random)?,
            100..105 => lightest_corners(judge, random)?,
            105..110 => thickness(judge, random)?,
            _ => pairs(judge, random)?,
        }
        if case % CASES_PER_NOTE == 0 {
            println!("{case} of {cases}");
        }
    }
    Ok(())
}

fn network(judge: &mut Judge, random: &mut Random) -> Judged {
    let feature = random.pick(&FEATURES);
    judge.kind(&format!("networks: {}", feature.name()));
    match random.below(100) {
        0..75 => networks::small(judge, random, feature),
        75..99 => networks::middle(judge, random, feature),
        _ => networks::large(judge, random, feature),
    }
}

fn shaped(judge: &mut Judge, random: &mut Random) -> Judged {
    let kind = random.pick(&shapes::kinds());
    judge.kind(&shapes::kind_name(kind));
    match random.below(100) {
        0..98 => shapes::small(judge, random, kind),
        _ => shapes::large(judge, random, kind),
    }
}

fn lightest_corners(judge: &mut Judge, random: &mut Random) -> Judged {
    let feature = random.pick(&FEATURES);
    let place = random.below(LAYOUTS.len());
    match random.once_in(2) {
        true => corners::of_layout(judge, random, place),
        false => corners::of_feature(judge, random, feature),
    }
}

fn thickness(judge: &mut Judge, random: &mut Random) -> Judged {
    let feature = random.pick(&FEATURES);
    thickness::every_link(judge, random, feature)
}

fn pairs(judge: &mut Judge, random: &mut Random) -> Judged {
    let feature = random.pick(&FEATURES);
    pairs::every_question(judge, random, feature)
}

fn single_fault(judge: &mut Judge, random: &mut Random) -> Judged {
    judge.kind("single faults");
    let base = sheets::random_base(random);
    let faults = faults::singles(&base);
    let fault = &faults[random.below(faults.len())];
    sheets::refused(judge, &base, &[fault], fault.refusal, Through::All)
}

fn two_faults(judge: &mut Judge, random: &mut Random) -> Judged {
    judge.kind("two faults");
    let base = sheets::random_base(random);
    let faults = faults::singles(&base);
    loop {
        let one = &faults[random.below(faults.len())];
        let other = &faults[random.below(faults.len())];
        if let Some(refusal) = faults::first_refusal(one, other) {
            return sheets::refused(judge, &base, &[one, other], refusal, Through::All);
        }
    }
}

fn cut(judge: &mut Judge, random: &mut Random) -> Judged {
    judge.kind("sheets cut");
    let sheet = sheets::random_base(random).sheet;
    let end = random.below(sheet.len());
    judge.sheet(&sheet[..end], Through::All)
}

fn changed_byte(judge: &mut Judge, random: &mut Random) -> Judged {
    judge.kind("single bytes changed");
    let sheet = sheets::random_base(random).sheet;
    judge.sheet(&sheets::changed(random, &sheet), Through::All)
}
