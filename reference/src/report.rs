//! The outcome of a sheet, as the bytes of both areas, as the report program's lines and as those of the cable crew's program.

use crate::cuts::{self, Answer};
use crate::sheet::{self, Reading, Refusal};

pub const SIDE_BYTES: usize = 32;
pub const REPORT_BYTES: usize = 24;
const NO_SECOND: u16 = 65_535;
/// Where the weight stands in the report area.
const WEIGHT_AT: usize = 8;

pub type Outcome = Result<Answer, Refusal>;

/// The answer of a sheet, or the first of refusals 3 to 16.
pub fn outcome(sheet: &[u8]) -> Outcome {
    outcome_of(&sheet::read_contents(sheet))
}

/// The same of a sheet that was read.
pub fn outcome_of(reading: &Reading) -> Outcome {
    reading.as_ref().map(|contents| cuts::answer(&contents.network)).map_err(|refusal| *refusal)
}

/// A side as an area has it: node k is bit k mod 8 of byte k / 8.
pub type Side = [u8; SIDE_BYTES];

/// The bytes of the side with these nodes.
pub fn side_bytes(nodes: impl IntoIterator<Item = usize>) -> Side {
    let mut bytes = [0; SIDE_BYTES];
    for node in nodes {
        bytes[node / 8] |= 1 << (node % 8);
    }
    bytes
}

/// The bytes of the side with the nodes that are marked as inside.
pub fn side_of(inside: &[bool]) -> Side {
    let mut bytes = [0; SIDE_BYTES];
    for (byte, nodes) in bytes.iter_mut().zip(inside.chunks(8)) {
        *byte = nodes.iter().rev().fold(0, |byte, &inside| byte << 1 | u8::from(inside));
    }
    bytes
}

/// The first 32 bytes of the side area.
pub fn side_area(answer: &Answer) -> Side {
    side_bytes(answer.side.iter().copied())
}

/// The first 24 bytes of the report area. The numbers of a sound network fit their fields.
pub fn report_area(answer: &Answer) -> [u8; REPORT_BYTES] {
    let candidate = answer.candidate;
    let second = candidate.second.map_or(NO_SECOND, |second| second as u16);
    let mut area = [0; REPORT_BYTES];
    area[0] = answer.verdict;
    area[1] = candidate.tree as u8;
    area[2..4].copy_from_slice(&(candidate.nodes as u16).to_le_bytes());
    area[4..6].copy_from_slice(&(candidate.first as u16).to_le_bytes());
    area[6..8].copy_from_slice(&second.to_le_bytes());
    area[WEIGHT_AT..WEIGHT_AT + 8].copy_from_slice(&candidate.weight.to_le_bytes());
    area[16..24].copy_from_slice(&answer.floor.to_le_bytes());
    area
}

/// The weight that a report area holds.
pub fn weight_in(area: &[u8; REPORT_BYTES]) -> u64 {
    sheet::number(&area[WEIGHT_AT..WEIGHT_AT + 8])
}

/// What the report program prints.
pub fn lines(outcome: &Outcome) -> String {
    let answer = match outcome {
        Ok(answer) => answer,
        Err(refusal) => return refused(refusal),
    };
    let candidate = answer.candidate;
    let second = candidate.second.map_or("-".to_string(), |second| second.to_string());
    let mut lines = format!(
        "answer {} {} {} {} {} {} {}\nside",
        answer.verdict, candidate.weight, answer.floor, candidate.tree, candidate.first, second, candidate.nodes
    );
    for node in &answer.side {
        lines.push_str(&format!(" {node}"));
    }
    lines.push('\n');
    lines
}

/// What the cable crew's program prints: each link's number and trunk number.
pub fn trunk_lines(reading: &Reading) -> String {
    match reading {
        Ok(contents) => contents.trunks.iter().enumerate().map(|(link, trunk)| format!("{link} {trunk}\n")).collect(),
        Err(refusal) => refused(refusal),
    }
}

/// What both programs print of a refused sheet.
fn refused(refusal: &Refusal) -> String {
    format!("refused {}\n", refusal.number)
}

#[cfg(test)]
mod tests {
    use super::*;
    use crate::cuts::Candidate;

    #[test]
    fn areas_have_the_documented_layout() {
        let weight = 0x1112_1314_0102_0304;
        let candidate = Candidate { weight, nodes: 4, tree: 31, first: 0x0506, second: Some(0x0708) };
        let floor = 0x1A1B_1C1D_0A0B_0C0D;
        let mut answer = Answer { verdict: 1, floor, candidate, side: vec![1, 8, 15, 255] };
        let start = [1, 31, 4, 0, 6, 5, 8, 7];
        let weight = [4, 3, 2, 1, 0x14, 0x13, 0x12, 0x11];
        let floor = [0x0D, 0x0C, 0x0B, 0x0A, 0x1D, 0x1C, 0x1B, 0x1A];
        let report = [start, weight, floor].concat();
        assert_eq!(report_area(&answer)[..], report);
        assert_eq!(weight_in(&report_area(&answer)), answer.candidate.weight);
        let mut side = [0; 32];
        (side[0], side[1], side[31]) = (2, 0x81, 0x80);
        assert_eq!(side_area(&answer), side);
        let inside: Vec<bool> = (0..256).map(|node| answer.side.contains(&node)).collect();
        assert_eq!(side_of(&inside), side);
        assert_eq!(side_of(&inside[..10]), side_bytes([1, 8]));
        answer.candidate.second = None;
        assert_eq!(report_area(&answer)[6..8], [255, 255]);
    }
}
