//! The link sheet: from bytes to a network with its trunk numbers or to a refusal, and from these to their shortest sheet.

use crate::network::{joining, Link, Network, Tree};

pub const HEADER_BYTES: usize = 5;
pub const LEAST_NODES: usize = 2;
pub const MOST_NODES: usize = 256;
pub const MOST_LINKS: usize = 2048;
pub const MOST_TREES: usize = 32;
pub const MOST_WEIGHT: u64 = CURRENT.most_weight;
pub const LONGEST_SHEET: usize = 30_853;

/// What the formats of link sheets differ in.
pub struct Format {
    pub most_weight: u64,
    /// The map byte of a link record with all fields, the greatest there is.
    pub all_fields: u8,
}

/// Document 01's format, of units already sold.
pub const BASE: Format = Format { most_weight: 1_000_000, all_fields: LINK_FIELDS };
/// The format before trunk numbers: every weight of four bytes is allowed.
pub const WIDE: Format = Format { most_weight: u32::MAX as u64, all_fields: LINK_FIELDS };
/// The format in force: a link record may have a trunk number.
pub const CURRENT: Format = Format { most_weight: WIDE.most_weight, all_fields: ALL_FIELDS };

/// The bits of a link record's map byte.
pub const FIRST_END_BIT: u8 = 1;
pub const SECOND_END_BIT: u8 = 2;
pub const WEIGHT_BIT: u8 = 4;
pub const TRUNK_BIT: u8 = 8;
/// The bits of the three fields that make a link; link 0 has them all.
pub const LINK_FIELDS: u8 = FIRST_END_BIT | SECOND_END_BIT | WEIGHT_BIT;
/// The map byte of a link record with all four fields.
pub const ALL_FIELDS: u8 = LINK_FIELDS | TRUNK_BIT;

const END_BYTES: usize = 2;
const WEIGHT_BYTES: usize = 4;
pub const TRUNK_BYTES: usize = 2;
pub const SHARE_BYTES: usize = 4;

/// What a sheet holds: a network, and the trunk number of each of its links.
#[derive(Clone, Debug, PartialEq, Eq)]
pub struct Contents {
    pub network: Network,
    pub trunks: Vec<u16>,
}

impl Contents {
    /// A network whose links all have trunk number 0.
    pub fn without_trunks(network: Network) -> Contents {
        let trunks = vec![0; network.links.len()];
        Contents { network, trunks }
    }
}

/// What a sheet reads as.
pub type Reading = Result<Contents, Refusal>;

/// The record at which a sheet is refused, in the order in which records are checked.
#[derive(Clone, Copy, Debug, PartialEq, Eq, PartialOrd, Ord)]
pub enum Place {
    Header,
    Link(usize),
    Tree(usize),
    /// Behind the last tree.
    End,
}

/// Why a sheet is refused: document 01's number, and where. The lesser of two refusals is the one that is found first.
#[derive(Clone, Copy, Debug, PartialEq, Eq, PartialOrd, Ord)]
pub struct Refusal {
    pub place: Place,
    pub number: u32,
}

fn refuse<T>(place: Place, number: u32) -> Result<T, Refusal> {
    Err(Refusal { place, number })
}

/// How many bytes the link map of a tree record has.
pub fn map_bytes(links: usize) -> usize {
    links.div_ceil(8)
}

/// How many bytes a tree record has.
pub fn tree_bytes(links: usize) -> usize {
    SHARE_BYTES + map_bytes(links)
}

/// How many bytes the fields behind a link record's map byte have.
pub fn field_bytes(map: u8) -> usize {
    let ends = usize::from(map & FIRST_END_BIT != 0) + usize::from(map & SECOND_END_BIT != 0);
    let weight = usize::from(map & WEIGHT_BIT != 0);
    let trunk = usize::from(map & TRUNK_BIT != 0);
    ends * END_BYTES + weight * WEIGHT_BYTES + trunk * TRUNK_BYTES
}

/// The bytes of a sheet that are not read yet.
struct Unread<'a>(&'a [u8]);

impl<'a> Unread<'a> {
    fn take(&mut self, bytes: usize) -> Option<&'a [u8]> {
        let (taken, rest) = self.0.split_at_checked(bytes)?;
        self.0 = rest;
        Some(taken)
    }

    fn number(&mut self, bytes: usize) -> Option<u64> {
        Some(number(self.take(bytes)?))
    }
}

/// A number with its lowest byte first.
pub fn number(bytes: &[u8]) -> u64 {
    bytes.iter().rev().fold(0, |value, &byte| value * 256 + u64::from(byte))
}

/// The link count in a sheet's header, and 0 if the sheet ends there.
pub fn link_count(sheet: &[u8]) -> usize {
    sheet.get(2..4).map_or(0, |count| number(count) as usize)
}

/// The tree count in a sheet's header, and 0 if the sheet ends there.
pub fn tree_count(sheet: &[u8]) -> usize {
    sheet.get(4).map_or(0, |&count| usize::from(count))
}

/// What the panel reads: the network of a sheet in the format in force, or the first of refusals 3 to 16.
pub fn read(sheet: &[u8]) -> Result<Network, Refusal> {
    read_contents(sheet).map(|contents| contents.network)
}

/// What the cable crew reads too: a sheet in the format in force with its trunk numbers, or the same refusal.
pub fn read_contents(sheet: &[u8]) -> Reading {
    read_in(&CURRENT, sheet)
}

/// A sheet in that format, or the first of refusals 3 to 16.
pub fn read_in(format: &Format, sheet: &[u8]) -> Reading {
    let mut unread = Unread(sheet);
    let (nodes, link_count, tree_count) = read_header(&mut unread)?;
    let (mut links, mut trunks) = (Vec::new(), Vec::new());
    let mut record = BEFORE_LINK_0;
    for place in 0..link_count {
        record = read_link(&mut unread, format, nodes, place, record)?;
        links.push(record.link);
        trunks.push(record.trunk);
    }
    let mut trees = Vec::new();
    for place in 0..tree_count {
        trees.push(read_tree(&mut unread, nodes, &links, place)?);
    }
    if !unread.0.is_empty() {
        return refuse(Place::End, 16);
    }
    Ok(Contents { network: Network { nodes, links, trees }, trunks })
}

fn read_header(unread: &mut Unread) -> Result<(usize, usize, usize), Refusal> {
    let Some(header) = unread.take(HEADER_BYTES) else {
        return refuse(Place::Header, 3);
    };
    let nodes = number(&header[0..2]) as usize;
    let links = number(&header[2..4]) as usize;
    let trees = number(&header[4..5]) as usize;
    if !(LEAST_NODES..=MOST_NODES).contains(&nodes) {
        return refuse(Place::Header, 4);
    }
    if !(nodes - 1..=MOST_LINKS).contains(&links) {
        return refuse(Place::Header, 5);
    }
    if !(1..=MOST_TREES).contains(&trees) {
        return refuse(Place::Header, 6);
    }
    Ok((nodes, links, trees))
}

/// What a link record says, with what it leaves out taken from the record before.
#[derive(Clone, Copy)]
struct Record {
    link: Link,
    trunk: u16,
}

/// Link 0 leaves out nothing but its trunk number.
const BEFORE_LINK_0: Record = Record { link: Link { first: 0, second: 0, weight: 0 }, trunk: 0 };

fn read_link(unread: &mut Unread, format: &Format, nodes: usize, at: usize, before: Record) -> Result<Record, Refusal> {
    let place = Place::Link(at);
    let Some(&[map]) = unread.take(1) else {
        return refuse(place, 7);
    };
    if map > format.all_fields || (at == 0 && map & LINK_FIELDS != LINK_FIELDS) {
        return refuse(place, 8);
    }
    let Some(record) = read_fields(unread, map, before) else {
        return refuse(place, 9);
    };
    let link = record.link;
    if link.first >= nodes || link.second >= nodes || link.first == link.second {
        return refuse(place, 10);
    }
    if link.weight > format.most_weight {
        return refuse(place, 11);
    }
    Ok(record)
}

/// The fields whose bit stands from the sheet, the others from the record before; none if the sheet ends inside them.
fn read_fields(unread: &mut Unread, map: u8, before: Record) -> Option<Record> {
    let Record { mut link, mut trunk } = before;
    if map & FIRST_END_BIT != 0 {
        link.first = unread.number(END_BYTES)? as usize;
    }
    if map & SECOND_END_BIT != 0 {
        link.second = unread.number(END_BYTES)? as usize;
    }
    if map & WEIGHT_BIT != 0 {
        link.weight = unread.number(WEIGHT_BYTES)?;
    }
    if map & TRUNK_BIT != 0 {
        trunk = unread.number(TRUNK_BYTES)? as u16;
    }
    Some(Record { link, trunk })
}

fn read_tree(unread: &mut Unread, nodes: usize, links: &[Link], at: usize) -> Result<Tree, Refusal> {
    let place = Place::Tree(at);
    let Some(record) = unread.take(tree_bytes(links.len())) else {
        return refuse(place, 12);
    };
    let (share, map) = record.split_at(SHARE_BYTES);
    let members: Vec<usize> = (0..map.len() * 8).filter(|&bit| map[bit / 8] >> (bit % 8) & 1 == 1).collect();
    if members.last().is_some_and(|&last| last >= links.len()) {
        return refuse(place, 13);
    }
    if members.len() != nodes - 1 {
        return refuse(place, 14);
    }
    if !join_all(nodes, links, &members) {
        return refuse(place, 15);
    }
    Ok(Tree { share: number(share), members })
}

/// Whether the members join every node to node 0: whether two components are joined so often that one is left.
fn join_all(nodes: usize, links: &[Link], members: &[usize]) -> bool {
    joining(nodes, links, members).len() == nodes - 1
}

/// The shortest sheet of a network, without trunk numbers: a field equal to the link before it is left out, and link 0 has all. Any
/// network whose numbers fit the fields can be written, sound or not; higher bytes of a number that does not fit are left out.
pub fn write(network: &Network) -> Vec<u8> {
    write_contents(&Contents::without_trunks(network.clone()))
}

/// The shortest sheet with trunk numbers: one equal to that of the link before is left out, and for link 0 a 0.
pub fn write_contents(contents: &Contents) -> Vec<u8> {
    write_with_maps(contents, &shortest_maps(contents))
}

/// The map byte of each link with the bits of the fields that differ from the link before.
pub fn shortest_maps(contents: &Contents) -> Vec<u8> {
    let before = std::iter::once(BEFORE_LINK_0).chain(records(contents));
    let mut maps: Vec<u8> = before.zip(records(contents)).map(|(before, record)| differing(before, record)).collect();
    if let Some(map) = maps.first_mut() {
        *map |= LINK_FIELDS;
    }
    maps
}

fn records(contents: &Contents) -> impl Iterator<Item = Record> + '_ {
    contents.network.links.iter().zip(&contents.trunks).map(|(&link, &trunk)| Record { link, trunk })
}

/// The bits of the fields in which a record differs from the one before.
fn differing(before: Record, record: Record) -> u8 {
    let differs = |bit: u8, differs: bool| if differs { bit } else { 0 };
    differs(FIRST_END_BIT, before.link.first != record.link.first)
        | differs(SECOND_END_BIT, before.link.second != record.link.second)
        | differs(WEIGHT_BIT, before.link.weight != record.link.weight)
        | differs(TRUNK_BIT, before.trunk != record.trunk)
}

/// The sheet whose link records have the given map bytes.
pub fn write_with_maps(contents: &Contents, maps: &[u8]) -> Vec<u8> {
    let network = &contents.network;
    let mut sheet = Vec::new();
    put(&mut sheet, network.nodes as u64, 2);
    put(&mut sheet, network.links.len() as u64, 2);
    put(&mut sheet, network.trees.len() as u64, 1);
    for (record, &map) in records(contents).zip(maps) {
        put_record(&mut sheet, map, record);
    }
    for tree in &network.trees {
        put(&mut sheet, tree.share, SHARE_BYTES);
        sheet.extend(link_map(network.links.len(), &tree.members));
    }
    sheet
}

/// A map byte, and the fields whose bit stands.
fn put_record(sheet: &mut Vec<u8>, map: u8, record: Record) {
    let Record { link, trunk } = record;
    sheet.push(map);
    if map & FIRST_END_BIT != 0 {
        put(sheet, link.first as u64, END_BYTES);
    }
    if map & SECOND_END_BIT != 0 {
        put(sheet, link.second as u64, END_BYTES);
    }
    if map & WEIGHT_BIT != 0 {
        put(sheet, link.weight, WEIGHT_BYTES);
    }
    if map & TRUNK_BIT != 0 {
        put(sheet, u64::from(trunk), TRUNK_BYTES);
    }
}

/// A number as so many bytes, the lowest first.
fn put(sheet: &mut Vec<u8>, number: u64, bytes: usize) {
    sheet.extend(&number.to_le_bytes()[..bytes]);
}

/// The link map of a tree; members that do not fit into its bytes are left out.
fn link_map(links: usize, members: &[usize]) -> Vec<u8> {
    let mut map = vec![0; map_bytes(links)];
    for &member in members {
        if let Some(byte) = map.get_mut(member / 8) {
            *byte |= 1 << (member % 8);
        }
    }
    map
}
