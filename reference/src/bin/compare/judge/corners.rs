//! Holds what the entry of the corners answers against what is expected, with side maps of many kinds, and counts.

use std::collections::BTreeSet;
use std::ops::RangeInclusive;

use reference::corners::{self, Relation, Table, NO_SIDE, RELATIONS, SHORT_MAP};
use reference::cuts::WHOLE;
use reference::generate::crossing::LAYOUTS;
use reference::generate::sides::{self, Flaw, Maps, Sides, Which};
use reference::list;
use reference::report::{Side, SIDE_BYTES};
use reference::sheet::{Reading, LEAST_NODES, MOST_NODES};
use reference::sold::Answers;

use super::call::Call;
use super::{Expected, Judge, Judged, Stop, LONGEST_AREA};
use crate::entry::{self, TABLE_NUMBERS};
use crate::lent::{self, Lent};

/// A map of no side is empty, has node 0, or has a bit from the node count up.
const FLAWS: usize = 3;

/// How many calls of the entry of the corners gave which table, or were refused.
#[derive(Default)]
pub struct Corners {
    pub tables: u64,
    /// By how the sides are related, in the order of [`RELATIONS`].
    pub related: [u64; RELATIONS.len()],
    /// With an entry of more than four bytes, and with a map of more than 32 bytes.
    pub wide: u64,
    pub longer: u64,
    /// Of a sheet with trunk numbers, and of the same without.
    pub with_and_without_trunks: u64,
    /// Calls with one map that is passed twice.
    pub passed_twice: u64,
    pub crossing: LightestCrossing,
    /// Refused with 1: of sound sheets by the map that is too short, with the other map of no side, and of refused sheets.
    pub short: [u64; Which::ALL.len()],
    pub short_beside_no_side: u64,
    pub short_and_refused: u64,
    /// Refused with 21, by the map that is of no side and by its flaw.
    pub no_side: [[u64; FLAWS]; Which::ALL.len()],
    /// Refused for the sheet, with maps that are of sides in some network, and with a map of no side.
    pub refused: u64,
    pub refused_and_no_side: u64,
    /// The lengths of first maps and of second ones, and their highest bits that were refused with 21.
    lengths: [BTreeSet<usize>; 2],
    strays: [BTreeSet<usize>; 2],
}

/// How many tables are of lightest sides that cross.
#[derive(Default)]
pub struct LightestCrossing {
    /// Each two lightest sides of small networks: by layout, and of other networks.
    pub of_layout: [u64; LAYOUTS.len()],
    pub of_others: u64,
    /// Two listed sides of a sheet with verdict 2.
    pub listed: u64,
}

impl Corners {
    fn count(&mut self, reading: &Reading, maps: &Maps, told: &Result<Table, u32>) {
        let nodes = reading.as_ref().map_or(MOST_NODES, |contents| contents.network.nodes);
        let flaws = maps.each_ref().map(|map| flaw(nodes, map));
        self.lengths.iter_mut().zip(maps).for_each(|(lengths, map)| _ = lengths.insert(map.len()));
        match (told, flaws[0].or(flaws[1])) {
            (Ok(table), _) => self.count_table(maps, table),
            (Err(SHORT_MAP), _) if reading.is_err() => self.short_and_refused += 1,
            (Err(SHORT_MAP), flaw) => {
                self.short[which(maps.each_ref().map(|map| map.len() < SIDE_BYTES))] += 1;
                self.short_beside_no_side += u64::from(flaw.is_some());
            }
            (Err(NO_SIDE), Some(flaw)) => self.count_no_side(flaws, flaw),
            (Err(_), Some(_)) => self.refused_and_no_side += 1,
            (Err(_), None) => self.refused += 1,
        }
    }

    fn count_table(&mut self, maps: &Maps, table: &Table) {
        self.tables += 1;
        self.wide += u64::from(table.as_flattened().iter().any(|&entry| entry > u64::from(u32::MAX)));
        self.longer += u64::from(maps.iter().any(|map| map.len() > SIDE_BYTES));
        let relation = Relation::of(side(&maps[0]), side(&maps[1]));
        let counts = RELATIONS.iter().zip(&mut self.related).filter(|(counted, _)| **counted == relation);
        counts.for_each(|(_, count)| *count += 1);
    }

    fn count_no_side(&mut self, flaws: [Option<Flaw>; 2], first: Flaw) {
        let kind = match first {
            Flaw::Empty => 0,
            Flaw::Root => 1,
            Flaw::Stray(_) => 2,
        };
        self.no_side[which(flaws.map(|flaw| flaw.is_some()))][kind] += 1;
        for (strays, flaw) in self.strays.iter_mut().zip(flaws) {
            if let Some(Flaw::Stray(bit)) = flaw {
                strays.insert(bit);
            }
        }
    }

    /// What has to be among the calls, and how often it is.
    pub fn needed(&self) -> Vec<(u64, &'static str)> {
        let [equal, first_inside, second_inside, apart, crossing] = self.related;
        let LightestCrossing { of_layout: [rings, rings_of_rings, grids], of_others, listed } = self.crossing;
        let least = |counts: &[u64]| counts.iter().copied().min().unwrap_or(0);
        let all = |seen: &[BTreeSet<usize>; 2], mut numbers: RangeInclusive<usize>| {
            u64::from(numbers.all(|number| seen.iter().all(|seen| seen.contains(&number))))
        };
        vec![
            (equal, "the corners of equal sides"),
            (first_inside, "the corners of a first side inside the second"),
            (second_inside, "the corners of a second side inside the first"),
            (apart, "the corners of sides that are apart"),
            (crossing, "the corners of sides that cross"),
            (self.wide, "a weight between corners of more than four bytes"),
            (self.longer, "a side map of more than 32 bytes"),
            (self.with_and_without_trunks, "the corners of a sheet with trunk numbers and without"),
            (self.passed_twice, "a side map that is passed twice"),
            (rings, "lightest sides of a ring that cross"),
            (rings_of_rings, "lightest sides of a ring of rings that cross"),
            (grids, "lightest sides of a grid that cross"),
            (of_others, "lightest sides of another network that cross"),
            (listed, "listed sides with verdict 2 that cross"),
            (least(&self.short), "a first map, a second one or both that are too short"),
            (self.short_beside_no_side, "a map that is too short beside one of no side"),
            (self.short_and_refused, "a map that is too short with a refused sheet"),
            (least(self.no_side.as_flattened()), "each flaw of a first map, of a second one and of both"),
            (all(&self.lengths, 0..=LONGEST_AREA), "maps of each length"),
            (all(&self.strays, LEAST_NODES..=MOST_NODES - 1), "maps with each bit from the node count up"),
            (self.refused, "maps of two sides with a refused sheet"),
            (self.refused_and_no_side, "a map of no side with a refused sheet"),
        ]
    }
}

/// The first 32 bytes of a map that has them.
fn side(map: &[u8]) -> &Side {
    map.first_chunk().expect("a map of 32 bytes or more")
}

/// The flaw of a map of 32 bytes or more in a network of so many nodes.
fn flaw(nodes: usize, map: &[u8]) -> Option<Flaw> {
    match list::nodes(map.first_chunk()?)[..] {
        [] => Some(Flaw::Empty),
        [0, ..] => Some(Flaw::Root),
        [.., last] if last >= nodes => Some(Flaw::Stray(last)),
        _ => None,
    }
}

/// Where the maps that something holds of stand in [`Which::ALL`].
fn which(holds: [bool; 2]) -> usize {
    match holds {
        [_, false] => 0,
        [false, true] => 1,
        [true, true] => 2,
    }
}

/// The node count in a sheet's header, or the nearest that there is.
pub fn node_count(sheet: &[u8]) -> usize {
    let count = sheet.first_chunk().map_or(0, |count| usize::from(u16::from_le_bytes(*count)));
    count.clamp(LEAST_NODES, MOST_NODES)
}

impl Judge {
    /// The corners of any maps are the expected ones, and those of two listed sides.
    pub fn through_corners(&mut self, sheet: &[u8], expected: &Expected, reading: &Reading) -> Judged {
        let maps = sides::any_maps(&mut self.map_random, node_count(sheet));
        self.corners_of(sheet, reading, &maps)?;
        match expected {
            Ok(answers) => self.listed_corners(sheet, reading, answers),
            Err(_) => Ok(()),
        }
    }

    fn listed_corners(&mut self, sheet: &[u8], reading: &Reading, answers: &Answers) -> Judged {
        let sides = [0; 2].map(|_| self.map_random.pick(&answers.list.sides));
        let reported = &answers.current;
        if reported.verdict == WHOLE {
            let cross = self.lightest_corners(sheet, reading, reported.candidate.weight, &sides)?;
            self.corners.crossing.listed += u64::from(cross);
        } else {
            let maps = sides::maps(&mut self.map_random, &sides);
            self.corners_of(sheet, reading, &maps)?;
        }
        Ok(())
    }

    /// The same with side maps of all lengths from 0 on, of two sides or with a flaw.
    pub fn corners_of_every_length(&mut self, sheet: &[u8], reading: &Reading) -> Judged {
        let nodes = node_count(sheet);
        for first_length in 0..=LONGEST_AREA {
            for second_length in 0..=LONGEST_AREA {
                let sides = sides::any(&mut self.map_random, nodes);
                let flaw = self.map_random.pick(&[Flaw::Empty, Flaw::Root]);
                let which = self.map_random.pick(&Which::ALL);
                for [first, second] in [sides, which.with_flaw(sides, flaw)] {
                    let first = sides::map(&mut self.map_random, &first, first_length);
                    let second = sides::map(&mut self.map_random, &second, second_length);
                    self.corners_of(sheet, reading, &[first, second])?;
                }
            }
        }
        Ok(())
    }

    /// The corners of two sides are the expected ones and keep what is said of lightest sides, where `least` is the least that any side
    /// weighs. Tells whether the two are lightest and cross.
    pub fn lightest_corners(
        &mut self,
        sheet: &[u8],
        reading: &Reading,
        least: u64,
        sides: &Sides,
    ) -> Result<bool, Stop> {
        let maps = sides::maps(&mut self.map_random, sides);
        let table = self.corners_of(sheet, reading, &maps)?;
        let Ok(contents) = reading else { return Ok(false) };
        match corners::check_lightest(&contents.network, least, &sides[0], &sides[1], &table) {
            Ok(cross) => Ok(cross),
            Err(claim) => Err(self.breaks(sheet, &maps, &table, &claim)),
        }
    }

    /// The corners of two maps are the expected ones and keep what they have to. The table is the one that the entry has written.
    pub fn corners_of(&mut self, sheet: &[u8], reading: &Reading, maps: &Maps) -> Result<Table, Stop> {
        let told = corners::outcome_of(reading, &maps[0], &maps[1]);
        self.corners.count(reading, maps, &told);
        let table = told.unwrap_or_default();
        self.call_corners(sheet, maps, told.err().unwrap_or(0), &table)?;
        if let (Ok(_), Ok(contents)) = (told, reading) {
            let kept = corners::check(&contents.network, side(&maps[0]), side(&maps[1]), &table);
            kept.map_err(|claim| self.breaks(sheet, maps, &table, &claim))?;
        }
        Ok(table)
    }

    fn call_corners(&mut self, sheet: &[u8], maps: &Maps, number: u32, table: &Table) -> Judged {
        let random = &mut self.map_random;
        let passed = if maps[0] == maps[1] { random.between(1, 2) } else { 2 };
        let mut lent_maps = maps.each_ref().map(|map| Lent::holding(map, random));
        let kept_maps = lent_maps.clone();
        let call = Call::new(random, sheet, TABLE_NUMBERS, number, table.as_flattened());
        self.row().wcut_corners += 1;
        self.corners.passed_twice += u64::from(passed == 1);
        let entry = |sheet: &mut Lent, table: &mut Lent<u64>| entry::corners(sheet, &mut lent_maps[..passed], table);
        self.called(sheet, call, entry, || format!("corners\n{}", show_maps(maps)))?;
        if lent_maps == kept_maps {
            return Ok(());
        }
        let [first, second] = lent_maps.map(|map| map.show());
        self.differs(sheet, show_maps(maps), format!("maps changed to {first}\nand {second}\n"))
    }

    /// A table that does not keep a claim.
    fn breaks(&self, sheet: &[u8], maps: &Maps, table: &Table, claim: &str) -> Stop {
        self.difference(sheet, format!("{claim}\n"), format!("{}table {table:?}\n", show_maps(maps)))
    }
}

fn show_maps([first, second]: &Maps) -> String {
    format!("first map {}\nsecond map {}\n", lent::show(first), lent::show(second))
}
