//! What is answered: the candidate found, its floor and verdict, and the bytes of both areas.

use crate::read::{bit_set, Link, Record, Sheet};
use reference::report::{REPORT_BYTES, SIDE_BYTES};

const NO_SECOND: u16 = 65535;

/// What a call leaves: the number that it returned and both areas.
#[derive(Debug, PartialEq)]
pub struct Outcome {
    pub number: u32,
    pub side: [u8; SIDE_BYTES],
    pub report: [u8; REPORT_BYTES],
}

impl Outcome {
    /// A number with both areas as they were, all zeros.
    pub fn unwritten(number: u32) -> Outcome {
        Outcome { number, side: [0; SIDE_BYTES], report: [0; REPORT_BYTES] }
    }
}

/// The first candidate so far; a single link stands in both places. The side has one mark a node, 0 or 1.
pub struct Found {
    pub weight: u64,
    pub nodes: u16,
    pub tree: u8,
    pub first: u16,
    pub second: u16,
    pub side: Vec<u8>,
}

/// The outcome of a sheet whose first candidate is the one found.
pub fn accepted(sheet: &Sheet, found: &Found) -> Outcome {
    let mut outcome = Outcome::unwritten(0);
    let floor = floor(sheet, found.weight);
    write_side(&mut outcome.side, &found.side);
    write_report(&mut outcome.report, found, floor);
    outcome
}

/// The lesser of the weight and three times the shares of the trees that count, the longest run from tree 0 on that overloads no
/// link.
fn floor(sheet: &Sheet, weight: u64) -> u64 {
    let mut loads = vec![0; sheet.links.len()];
    let mut shares = 0;
    for tree in &sheet.trees {
        if !fits(&sheet.links, &loads, tree) {
            break;
        }
        add_share(&mut loads, tree);
        shares += tree.share as u64;
    }
    weight.min(3 * shares)
}

/// Whether a tree's share fits all its members; no load is above its link's weight.
fn fits(links: &[Link], loads: &[u32], tree: &Record) -> bool {
    let spare = links.iter().zip(loads).map(|(l, load)| l.weight - load);
    spare.enumerate().all(|(k, spare)| !bit_set(tree.map, k) || tree.share <= spare)
}

/// Adds a tree's share to its members' loads.
fn add_share(loads: &mut [u32], tree: &Record) {
    for (k, load) in loads.iter_mut().enumerate() {
        if bit_set(tree.map, k) {
            *load += tree.share;
        }
    }
}

fn write_side(area: &mut [u8], side: &[u8]) {
    for (byte, marks) in area.iter_mut().zip(side.chunks(8)) {
        *byte = marks.iter().enumerate().map(|(bit, mark)| mark << bit).sum();
    }
}

fn write_report(area: &mut [u8], found: &Found, floor: u64) {
    let second = if found.first == found.second { NO_SECOND } else { found.second };
    area[0] = if floor == found.weight { 2 } else { 1 };
    area[1] = found.tree;
    area[2..4].copy_from_slice(&found.nodes.to_le_bytes());
    area[4..6].copy_from_slice(&found.first.to_le_bytes());
    area[6..8].copy_from_slice(&second.to_le_bytes());
    area[8..16].copy_from_slice(&found.weight.to_le_bytes());
    area[16..24].copy_from_slice(&floor.to_le_bytes());
}
