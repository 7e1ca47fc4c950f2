//! Damaged sheets: every single fault of a sound sheet with the refusal that follows from the fault's own definition, and the
//! refusal of two faults in one sheet.

use crate::documented::network;
use crate::every_side::path;
use crate::generate::{self, Feature, Size};
use crate::network::{Network, Tree};
use crate::random::Random;
use crate::sheet::{self, Contents, Place, Refusal, MOST_TREES};

/// A sound sheet and where its records start.
pub struct Base {
    pub contents: Contents,
    pub sheet: Vec<u8>,
    maps: Vec<u8>,
    link_starts: Vec<usize>,
    tree_starts: Vec<usize>,
}

impl Base {
    /// The sheet of a sound network whose link records have the given map bytes.
    pub fn new(contents: Contents, maps: Vec<u8>) -> Base {
        let sheet = sheet::write_with_maps(&contents, &maps);
        let mut start = sheet::HEADER_BYTES;
        let mut starts = |length: usize| {
            start += length;
            start - length
        };
        let link_starts = maps.iter().map(|&map| starts(1 + sheet::field_bytes(map))).collect();
        let Network { links, trees, .. } = &contents.network;
        let tree_bytes = sheet::tree_bytes(links.len());
        let tree_starts = trees.iter().map(|_| starts(tree_bytes)).collect();
        Base { contents, sheet, maps, link_starts, tree_starts }
    }

    /// The sheet of a random network of that size with all fields written.
    pub fn with_all_fields(random: &mut Random, size: Size) -> Base {
        let network = generate::network(random, size, Feature::Any);
        Base::new(generate::with_trunks(random, network), vec![sheet::ALL_FIELDS; size.links])
    }

    fn network(&self) -> &Network {
        &self.contents.network
    }

    /// Where the records start, the end of the sheet included.
    pub fn record_starts(&self) -> Vec<usize> {
        [&self.link_starts[..], &self.tree_starts[..], &[self.sheet.len()]].concat()
    }

    /// Turns over a bit of a tree's link map.
    fn flip(&self, tree: usize, bit: usize) -> Edit {
        Edit::Flip(self.tree_starts[tree] + sheet::SHARE_BYTES + bit / 8, 1 << (bit % 8))
    }
}

/// Links whose map bytes are 7, 0, 1, 2, 3, 4, 5, 6 and the same again, in the shortest sheet without trunk numbers.
const LINKS: [(usize, usize, u64); 16] = [
    (0, 1, 3),
    (0, 1, 3),
    (2, 1, 3),
    (2, 3, 3),
    (0, 1, 3),
    (0, 1, 5),
    (2, 1, 6),
    (2, 3, 1),
    (3, 0, 9),
    (3, 0, 9),
    (1, 0, 9),
    (1, 2, 9),
    (3, 0, 9),
    (3, 0, 2),
    (1, 0, 7),
    (1, 3, 4),
];
/// Their trunk numbers, with which the map bytes of the second half have bit 3.
const TRUNKS: [u16; 16] = [0, 0, 0, 0, 0, 0, 0, 0, 7, 0, 65_535, 1, 256, 255, 263, 2];

/// Small sheets with every map byte, with link maps of one byte and of two, with and without stray bits, the last ones with trunk
/// numbers.
pub fn bases() -> Vec<Base> {
    let shortest = |network: Network, trunks: &[u16]| {
        let contents = Contents { network, trunks: trunks.to_vec() };
        let maps = sheet::shortest_maps(&contents);
        Base::new(contents, maps)
    };
    let written = |network: Network, trunk: u16, map: u8| {
        let links = network.links.len();
        Base::new(Contents { network, trunks: vec![trunk; links] }, vec![map; links])
    };
    let one_link = network(2, &LINKS[..1], &[(1, &[0])]);
    let five_links = network(4, &LINKS[..5], &[(1, &[0, 2, 3]), (1, &[2, 3, 4])]);
    let one_byte = network(4, &LINKS[..8], &[(1, &[0, 2, 3]), (2, &[1, 6, 7]), (0, &[2, 5, 7])]);
    let eleven_links = network(4, &LINKS[..11], &[(1, &[0, 2, 3]), (2, &[6, 8, 10]), (3, &[2, 3, 9])]);
    let two_bytes = network(4, &LINKS, &[(1, &[0, 11, 15]), (2, &[7, 8, 14]), (1, &[11, 12, 15])]);
    vec![
        shortest(one_link.clone(), &[0]),
        shortest(five_links.clone(), &[0; 5]),
        shortest(one_byte.clone(), &[0; 8]),
        written(one_byte, 0, sheet::LINK_FIELDS),
        shortest(eleven_links, &[0; 11]),
        shortest(one_link, &[263]),
        written(five_links, 263, sheet::ALL_FIELDS),
        shortest(two_bytes, &TRUNKS),
    ]
}

#[derive(Clone, Debug, PartialEq, Eq)]
enum Edit {
    /// Bytes from an offset on are replaced.
    Set(usize, Vec<u8>),
    /// The bits of a mask are turned over in one byte.
    Flip(usize, u8),
    /// The sheet ends at an offset.
    Cut(usize),
    /// Bytes follow.
    Append(Vec<u8>),
}

/// An edit or several, and the refusal of the sheet that has no other fault.
#[derive(Clone, Debug)]
pub struct Fault {
    edits: Vec<Edit>,
    pub refusal: Refusal,
}

fn fault(place: Place, number: u32, edit: Edit) -> Fault {
    Fault { edits: vec![edit], refusal: Refusal { place, number } }
}

/// The sheet with all of the faults.
pub fn damaged(base: &Base, faults: &[&Fault]) -> Vec<u8> {
    let mut sheet = base.sheet.clone();
    let mut end = sheet.len();
    let mut behind: Vec<u8> = Vec::new();
    for edit in faults.iter().flat_map(|fault| &fault.edits) {
        match edit {
            Edit::Set(at, bytes) => sheet[*at..at + bytes.len()].copy_from_slice(bytes),
            Edit::Flip(at, mask) => sheet[*at] ^= mask,
            Edit::Cut(at) => end = end.min(*at),
            Edit::Append(bytes) => behind.extend(bytes),
        }
    }
    sheet.truncate(end);
    sheet.extend(behind);
    sheet
}

/// The refusal of a sheet with both faults: the one that is found first. None if one fault undoes or hides the other.
pub fn first_refusal(one: &Fault, other: &Fault) -> Option<Refusal> {
    let same_record = one.refusal.place == other.refusal.place;
    let may_undo = matches!(one.refusal.number, 10 | 14 | 15) && one.refusal.number == other.refusal.number;
    if same_record && may_undo {
        return None;
    }
    let clash = |one: &Edit| other.edits.iter().any(|other| edits_clash(one, other) || edits_clash(other, one));
    if one.edits.iter().any(clash) {
        return None;
    }
    Some(one.refusal.min(other.refusal))
}

fn edits_clash(one: &Edit, other: &Edit) -> bool {
    match (one, other) {
        (Edit::Set(at, bytes), Edit::Set(other_at, other_bytes)) => {
            *at < other_at + other_bytes.len() && *other_at < at + bytes.len()
        }
        (Edit::Set(at, bytes), Edit::Flip(other_at, _)) => (*at..at + bytes.len()).contains(other_at),
        (Edit::Flip(at, mask), Edit::Flip(other_at, other_mask)) => at == other_at && mask & other_mask != 0,
        (Edit::Set(at, bytes), Edit::Cut(end)) => at + bytes.len() > *end,
        (Edit::Flip(at, _), Edit::Cut(end)) => at >= end,
        (Edit::Append(_), Edit::Cut(_) | Edit::Append(_)) => true,
        _ => false,
    }
}

/// Every single fault of a base.
pub fn singles(base: &Base) -> Vec<Fault> {
    let mut faults = header_faults(base);
    for link in 0..base.network().links.len() {
        faults.extend(link_cuts(base, link));
        faults.extend(link_faults(base, link).concat());
    }
    for tree in 0..base.network().trees.len() {
        faults.extend(tree_cuts(base, tree));
        faults.extend(tree_faults(base, tree).concat());
    }
    for length in [1, 2, 5, 300] {
        faults.push(fault(Place::End, 16, Edit::Append(vec![7; length])));
    }
    faults
}

/// A size with as many stray bits as a link map can have.
pub const LARGE_SIZE: Size = Size::new(8, 2041, MOST_TREES);

/// All faults of link 0, one of each kind in every other link, every stray bit and one of each other kind in every tree. Only
/// link 0 has cuts among them. The base has all fields written, and each of its trees has faults of each kind.
pub fn of_every_record(random: &mut Random, base: &Base) -> Vec<Fault> {
    let mut faults = link_cuts(base, 0);
    faults.extend(link_faults(base, 0).concat());
    for link in 1..base.network().links.len() {
        faults.extend(one_of_each(random, &link_faults(base, link)));
    }
    for tree in 0..base.network().trees.len() {
        let [stray_bits, other_counts, swaps] = tree_faults(base, tree);
        faults.extend(stray_bits);
        faults.extend(one_of_each(random, &[other_counts, swaps]));
    }
    faults
}

fn one_of_each(random: &mut Random, kinds: &[Vec<Fault>]) -> Vec<Fault> {
    kinds.iter().map(|kind| kind[random.below(kind.len())].clone()).collect()
}

fn header_faults(base: &Base) -> Vec<Fault> {
    const NODES_AT: usize = 0;
    const LINKS_AT: usize = 2;
    const TREES_AT: usize = 4;
    let header = |number, edit| fault(Place::Header, number, edit);
    let count = |number, at, count: usize| header(number, Edit::Set(at, (count as u16).to_le_bytes().to_vec()));
    let mut faults: Vec<Fault> = (0..sheet::HEADER_BYTES).map(|end| header(3, Edit::Cut(end))).collect();
    faults.extend([0, 1, 257, 512, 65_535].map(|nodes| count(4, NODES_AT, nodes)));
    faults.extend([base.network().nodes - 2, 2049, 65_535].map(|links| count(5, LINKS_AT, links)));
    faults.push(count(5, NODES_AT, base.network().links.len() + 2));
    faults.extend([0, 33, 255].map(|trees| header(6, Edit::Set(TREES_AT, vec![trees]))));
    faults
}

/// The sheet cut before and inside a link record.
fn link_cuts(base: &Base, link: usize) -> Vec<Fault> {
    let start = base.link_starts[link];
    let end = start + 1 + sheet::field_bytes(base.maps[link]);
    let cut = |at: usize| fault(Place::Link(link), if at == start { 7 } else { 9 }, Edit::Cut(at));
    (start..end).map(cut).collect()
}

/// The faults of a link record by kind: the map byte, ends that are too large, equal ends.
fn link_faults(base: &Base, link: usize) -> [Vec<Fault>; 3] {
    let nodes = base.network().nodes;
    [
        map_byte_faults(base, link),
        end_faults(base, link, |end, _| vec![nodes, nodes + 1, 256 + end, 65_535]),
        end_faults(base, link, |_, other| vec![other]),
    ]
}

fn map_byte_faults(base: &Base, link: usize) -> Vec<Fault> {
    let mut wrong = vec![16, 17, 24, 31, 32, 64, 128, 135, 143, 255];
    if link == 0 {
        wrong.extend((0..sheet::ALL_FIELDS).filter(|&map| map != sheet::LINK_FIELDS));
    }
    let set = |map| fault(Place::Link(link), 8, Edit::Set(base.link_starts[link], vec![map]));
    wrong.into_iter().map(set).collect()
}

/// Each end that stands in the record set to wrong numbers, which follow from it and from the other end. The other end stands in
/// the record too, or is the one of the link before.
fn end_faults(base: &Base, link: usize, wrong: impl Fn(usize, usize) -> Vec<usize>) -> Vec<Fault> {
    let link_ends = base.network().links[link];
    let ends = [link_ends.first, link_ends.second];
    let map = base.maps[link];
    let mut faults = Vec::new();
    for (end, bit) in [sheet::FIRST_END_BIT, sheet::SECOND_END_BIT].into_iter().enumerate() {
        if map & bit == 0 {
            continue;
        }
        let at = base.link_starts[link] + 1 + sheet::field_bytes(map & (bit - 1));
        for wrong in wrong(ends[end], ends[1 - end]) {
            let bytes = (wrong as u16).to_le_bytes().to_vec();
            faults.push(fault(Place::Link(link), 10, Edit::Set(at, bytes)));
        }
    }
    faults
}

/// Where the field of that bit stands in each link record that has it.
fn field_starts(base: &Base, bit: u8) -> Vec<usize> {
    let start = |(&start, &map): (&usize, &u8)| {
        let before = sheet::field_bytes(map & (bit - 1));
        (map & bit != 0).then_some(start + 1 + before)
    };
    base.link_starts.iter().zip(&base.maps).filter_map(start).collect()
}

/// The sheet cut before and inside a tree record.
fn tree_cuts(base: &Base, tree: usize) -> Vec<Fault> {
    let start = base.tree_starts[tree];
    let end = start + sheet::tree_bytes(base.network().links.len());
    (start..end).map(|at| fault(Place::Tree(tree), 12, Edit::Cut(at))).collect()
}

/// The faults of a link map by kind: a stray bit, a member taken out or another link put in, both.
fn tree_faults(base: &Base, tree: usize) -> [Vec<Fault>; 3] {
    let links = base.network().links.len();
    let flip = |number, bit| fault(Place::Tree(tree), number, base.flip(tree, bit));
    let stray_bits = (links..sheet::map_bytes(links) * 8).map(|bit| flip(13, bit));
    let other_counts = (0..links).map(|bit| flip(14, bit));
    [stray_bits.collect(), other_counts.collect(), swap_faults(base, tree)]
}

/// A member taken out and another link put in that closes a cycle: its ends are joined without the member.
fn swap_faults(base: &Base, tree: usize) -> Vec<Fault> {
    let network = base.network();
    let listed: &Tree = &network.trees[tree];
    let mut faults = Vec::new();
    for link in (0..network.links.len()).filter(|link| !listed.members.contains(link)) {
        let ends = network.links[link];
        let joined_by = path(network, listed, ends.first, ends.second).unwrap_or_default();
        for &member in listed.members.iter().filter(|member| !joined_by.contains(member)) {
            let refusal = Refusal { place: Place::Tree(tree), number: 15 };
            faults.push(Fault { edits: vec![base.flip(tree, member), base.flip(tree, link)], refusal });
        }
    }
    faults
}

/// Sheets that differ from the base and have no fault: each weight at its limits and around that of units already sold, each trunk
/// number and each share at its limits.
pub fn harmless(base: &Base) -> Vec<Vec<u8>> {
    let mut sheets = Vec::new();
    let mut set = |at: usize, number: &[u8]| {
        let edit = fault(Place::End, 0, Edit::Set(at, number.to_vec()));
        sheets.push(damaged(base, &[&edit]));
    };
    for at in field_starts(base, sheet::WEIGHT_BIT) {
        for weight in [0, 1_000_000, 1_000_001, 1 << 24, u32::MAX] {
            set(at, &weight.to_le_bytes());
        }
    }
    for at in field_starts(base, sheet::TRUNK_BIT) {
        for trunk in [0, 1, 255, 256, u16::MAX] {
            set(at, &trunk.to_le_bytes());
        }
    }
    for &at in &base.tree_starts {
        for share in [u32::MAX, 0] {
            set(at, &share.to_le_bytes());
        }
    }
    sheets
}

#[cfg(test)]
mod tests {
    use super::*;
    use std::collections::BTreeSet;

    #[test]
    fn bases_are_sound_and_have_every_map_byte() {
        for base in bases() {
            assert_eq!(sheet::read_contents(&base.sheet), Ok(base.contents.clone()));
            assert!(harmless(&base).iter().all(|sheet| sheet::read(sheet).is_ok()));
        }
        let maps: BTreeSet<u8> = bases().iter().flat_map(|base| base.maps.clone()).collect();
        assert_eq!(maps, (0..=15).collect());
    }

    #[test]
    fn every_single_fault_is_refused_by_its_number_at_its_place() {
        let mut numbers = BTreeSet::new();
        for base in bases() {
            for fault in singles(&base) {
                assert_eq!(sheet::read(&damaged(&base, &[&fault])), Err(fault.refusal), "{fault:?}");
                numbers.insert(fault.refusal.number);
            }
        }
        assert_eq!(numbers, (3..=16).filter(|&number| number != 11).collect());
    }

    #[test]
    fn every_record_of_a_large_sheet_has_a_fault_of_each_kind() {
        let mut random = Random::new(1);
        let base = Base::with_all_fields(&mut random, LARGE_SIZE);
        assert_eq!(sheet::read_contents(&base.sheet), Ok(base.contents.clone()));
        let mut seen = BTreeSet::new();
        for fault in of_every_record(&mut random, &base) {
            let Refusal { place, number } = fault.refusal;
            let sheet = damaged(&base, &[&fault]);
            assert_eq!(sheet::read(&sheet), Err(fault.refusal), "{fault:?}");
            let equal_ends = match place {
                Place::Link(link) if number == 10 => {
                    let ends = &sheet[base.link_starts[link] + 1..][..4];
                    ends[..2] == ends[2..]
                }
                _ => false,
            };
            seen.insert((place, number, equal_ends));
        }
        let kinds = [(8, false), (10, false), (10, true)];
        for (link, (number, equal_ends)) in (0..2041).flat_map(|link| kinds.map(|kind| (link, kind))) {
            assert!(seen.contains(&(Place::Link(link), number, equal_ends)), "{number} at link {link}");
        }
        for (tree, number) in (0..32).flat_map(|tree| [13, 14, 15].map(|number| (tree, number))) {
            assert!(seen.contains(&(Place::Tree(tree), number, false)), "{number} at tree {tree}");
        }
        assert!([7, 9].iter().all(|&number| seen.contains(&(Place::Link(0), number, false))));
    }

    #[test]
    fn the_first_of_two_faults_is_refused() {
        let mut seen = BTreeSet::new();
        for base in &bases()[..7] {
            let faults = singles(base);
            for (place, one) in faults.iter().enumerate() {
                for other in &faults[place + 1..] {
                    if let Some(refusal) = first_refusal(one, other) {
                        let sheet = damaged(base, &[one, other]);
                        assert_eq!(sheet::read(&sheet), Err(refusal), "{one:?} {other:?}");
                        let same_record = one.refusal.place == other.refusal.place;
                        seen.insert((one.refusal.number, other.refusal.number, same_record));
                    }
                }
            }
        }
        let links = [(8, 9), (8, 10), (9, 10)];
        let trees = [(12, 14), (12, 15), (13, 14), (13, 15), (14, 15)];
        for (one, other) in links.into_iter().chain(trees) {
            assert!(seen.contains(&(one, other, true)) || seen.contains(&(other, one, true)));
        }
    }
}
