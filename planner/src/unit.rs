//! The answers of the proved code, through the C entries of the monitor's archive or through the report program.

use crate::mistakes;
use reference::cuts::{Answer, Candidate};
use reference::entry;
use reference::list;
use reference::network::Network;
use reference::report::{self, Side, REPORT_BYTES, SIDE_BYTES};
use std::ffi::OsStr;
use std::io::{self, Write};
use std::process::{Command, Output, Stdio};

const NO_SECOND: u16 = 65_535;

/// What the monitor says of a sheet: an answer, or the number of its refusal.
pub type Said<T> = Result<T, u32>;

/// What an entry says that returned this number and left this in its areas.
fn said<T>(number: u32, answer: T) -> Said<T> {
    match number {
        0 => Ok(answer),
        refusal => Err(refusal),
    }
}

/// What the entry of the report leaves in its areas.
pub fn answer(sheet: &[u8]) -> Said<Answer> {
    let (mut side, mut area): (Side, [u8; REPORT_BYTES]) = ([0; SIDE_BYTES], [0; REPORT_BYTES]);
    // SAFETY: each pointer is that of a slice or an array with the length behind it, and none of the three overlaps another.
    let number = unsafe {
        entry::wcut_report(sheet.as_ptr(), sheet.len(), side.as_mut_ptr(), SIDE_BYTES, area.as_mut_ptr(), REPORT_BYTES)
    };
    said(number, read_areas(&side, &area))
}

fn read_areas(side: &Side, area: &[u8; REPORT_BYTES]) -> Answer {
    let two = |at: usize| u16::from_le_bytes([area[at], area[at + 1]]);
    let eight = |at: usize| (0..8).rev().fold(0, |value, byte| value << 8 | u64::from(area[at + byte]));
    let candidate = Candidate {
        weight: eight(8),
        nodes: usize::from(two(2)),
        tree: usize::from(area[1]),
        first: usize::from(two(4)),
        second: Some(two(6)).filter(|&second| second != NO_SECOND).map(usize::from),
    };
    Answer { verdict: area[0], floor: eight(16), candidate, side: list::nodes(side) }
}

/// The sides that the entry of the list writes, into an area that has room for all that the network can have.
pub fn list(sheet: &[u8], network: &Network) -> Said<Vec<Side>> {
    let most_sides = network.trees.len() * network.nodes * (network.nodes - 1) / 2;
    let mut sides: Vec<Side> = vec![[0; SIDE_BYTES]; most_sides];
    let mut count = 0;
    let area = sides.as_flattened_mut();
    // SAFETY: each pointer is that of a slice with the length behind it or of a number, and none of the three overlaps another.
    let number = unsafe {
        entry::wcut_list(sheet.as_ptr(), sheet.len(), area.as_mut_ptr(), area.len(), std::ptr::from_mut(&mut count))
    };
    sides.truncate(count as usize);
    said(number, sides)
}

/// The weights between the four corners of two sides. Rows and columns are: in both, first only, second only, neither.
pub type Table = [[u64; 4]; 4];

/// What the entry of the corners writes for two sides.
pub fn corners(sheet: &[u8], first: &Side, second: &Side) -> Said<Table> {
    let mut table: Table = [[0; 4]; 4];
    let cells = table.as_flattened_mut();
    // SAFETY: each pointer to bytes is that of a slice or an array with the length behind it, and is only read; the cells are 16 numbers
    // that none of these overlaps.
    let number = unsafe {
        let (first, second) = (first.as_ptr(), second.as_ptr());
        entry::wcut_corners(sheet.as_ptr(), sheet.len(), first, SIDE_BYTES, second, SIDE_BYTES, cells.as_mut_ptr())
    };
    said(number, table)
}

/// The number that the entry of the thickness returns for a link, and the figure that it writes, which is 0 for a refusal.
pub fn thickness(sheet: &[u8], link: u32, wanted: u64) -> (u32, u32) {
    let mut thickness = u32::MAX;
    // SAFETY: the pointer to bytes is that of a slice with the length behind it, and is only read; the other one is that of a number.
    let number =
        unsafe { entry::wcut_thickness(sheet.as_ptr(), sheet.len(), link, wanted, std::ptr::from_mut(&mut thickness)) };
    (number, thickness)
}

/// The weights that the entry of the pairs writes for a tree, by their slots, into an area of so many numbers. No side has the weight that
/// the area is filled with, so a slot that was not written is noticed.
pub fn pairs(sheet: &[u8], tree: u32, count: usize) -> Said<Vec<u64>> {
    let mut weights = vec![u64::MAX; count];
    // SAFETY: each pointer is that of a slice with the length behind it, the first is only read, and they do not overlap.
    let number = unsafe { entry::wcut_pairs(sheet.as_ptr(), sheet.len(), tree, weights.as_mut_ptr(), weights.len()) };
    said(number, weights)
}

/// What the report program prints for a sheet; the error says why that is no report.
pub fn run_program(program: &OsStr, sheet: &[u8]) -> Result<Said<Answer>, String> {
    let name = program.to_string_lossy();
    let Output { status, stdout, .. } = run(program, sheet).map_err(|error| format!("{name}: {error}"))?;
    if !status.success() {
        return Err(format!("{name}: ended with {status}"));
    }
    let lines = String::from_utf8(stdout).map_err(|_| format!("{name}: printed what is no text"))?;
    parse_lines(&lines).ok_or_else(|| format!("{name} printed {lines:?}: these are not the lines of a report"))
}

/// Runs a program with the sheet as its standard input, which it need not read to the end.
fn run(program: &OsStr, sheet: &[u8]) -> io::Result<Output> {
    let mut child = Command::new(program).stdin(Stdio::piped()).stdout(Stdio::piped()).spawn()?;
    let input = child.stdin.take();
    std::thread::scope(|scope| {
        scope.spawn(move || input.map(|mut input| input.write_all(sheet)));
        child.wait_with_output()
    })
}

/// The lines of the report program for an answer or a refusal.
pub fn lines(said: &Said<Answer>) -> String {
    match said {
        Ok(answer) => report::lines(&Ok(answer.clone())),
        Err(number) => format!("refused {number}\n"),
    }
}

/// Reads the report program's output; none if it is not laid out as document 01 says.
fn parse_lines(output: &str) -> Option<Said<Answer>> {
    let words: Vec<&str> = output.split_whitespace().collect();
    let said = match words[..] {
        ["refused", number] => Err(number.parse().ok().filter(|&number| mistakes::meaning(number).is_some())?),
        _ => Ok(parse_answer(&words)?),
    };
    (lines(&said) == output).then_some(said)
}

/// The answer in the words of both lines, if the number of nodes in the first is that of the second.
fn parse_answer(words: &[&str]) -> Option<Answer> {
    let ["answer", verdict, weight, floor, tree, first, second, nodes, "side", side @ ..] = words else {
        return None;
    };
    let candidate = Candidate {
        weight: weight.parse().ok()?,
        nodes: nodes.parse().ok().filter(|&nodes| nodes == side.len())?,
        tree: tree.parse().ok()?,
        first: first.parse().ok()?,
        second: if *second == "-" { None } else { Some(second.parse().ok()?) },
    };
    let side = side.iter().map(|node| node.parse().ok()).collect::<Option<_>>()?;
    Some(Answer { verdict: verdict.parse().ok()?, floor: floor.parse().ok()?, candidate, side })
}

#[cfg(test)]
mod tests {
    use super::*;
    use reference::documented::CASE_A;

    #[test]
    fn lines_are_read() {
        assert_eq!(parse_lines("refused 16\n"), Some(Err(16)));
        let pair = Candidate { weight: 20, nodes: 2, tree: 3, first: 4, second: Some(50) };
        let expected = Answer { verdict: 1, floor: 6, candidate: pair, side: vec![7, 255] };
        assert_eq!(parse_lines("answer 1 20 6 3 4 50 2\nside 7 255\n"), Some(Ok(expected)));
        let single = parse_lines("answer 2 5 5 0 0 - 1\nside 1\n").and_then(Result::ok);
        assert_eq!(single.map(|answer| answer.candidate.second), Some(None));
    }

    #[test]
    fn lines_of_another_layout_are_not_read() {
        let wrong = [
            "",
            "refused\n",
            "refused 0\n",
            "refused 17\n",
            "refused 04\n",
            "refused 4",
            "refused 4\n\n",
            "refused 4\r\n",
            "answer 2 5 5 0 0 - 1\n",
            "answer 2 5 5 0 0 - 1\nside 1",
            "answer 2 5 5 0 0 - 1 side 1\n",
            "answer 2 5 5 0 0 - 1\nside  1\n",
            "answer 2 5 5 0 0 - 1\n side 1\n",
            "answer 2 5 5 0 0 - 2\nside 1\n",
            "answer 2 5 5 0 0 - 01\nside 1\n",
            "answer 2 5 5 0 0 - x\nside 1\n",
            "answer 2 5 5 0 0 1\nside 1\n",
            "answer 2 5 5 0 0 x 1\nside 1\n",
            "answer 2 +5 5 0 0 - 1\nside 1\n",
            "answer 2 5 5 0 0 - 1\nside -1\n",
            "answer 2 5 5 0 0 - 1\nside 1\nside 1\n",
        ];
        for lines in wrong {
            assert_eq!(parse_lines(lines), None, "{lines:?}");
        }
    }

    /// Of the triangle 0-1:3, 1-2:2, 0-2:4.
    #[test]
    fn the_entry_of_the_corners_is_asked() {
        let side = |nodes: &[usize]| report::side_bytes(nodes.iter().copied());
        let apart = [[0, 0, 0, 0], [0, 0, 2, 3], [0, 2, 0, 4], [0, 3, 4, 0]];
        assert_eq!(corners(&CASE_A, &side(&[1]), &side(&[2])), Ok(apart));
        let inside = [[0, 2, 0, 4], [2, 0, 0, 3], [0, 0, 0, 0], [4, 3, 0, 0]];
        assert_eq!(corners(&CASE_A, &side(&[1, 2]), &side(&[2])), Ok(inside));
        for wrong in [&[][..], &[0, 1], &[1, 3], &[255]] {
            assert_eq!(corners(&CASE_A, &side(wrong), &side(&[1])), Err(21));
            assert_eq!(corners(&CASE_A, &side(&[1]), &side(wrong)), Err(21));
        }
        assert_eq!(corners(&CASE_A[..4], &side(&[]), &side(&[1])), Err(3));
    }

    /// Of the same triangle, whose tree has the links 0-1 and 0-2: node 1 weighs 5, node 2 weighs 6, both together 7.
    #[test]
    fn the_entry_of_the_thickness_is_asked() {
        let of_0 = [0, 2, 3, 5, 6, 7].map(|wanted| thickness(&CASE_A, 0, wanted));
        assert_eq!(of_0, [(0, 0), (0, 0), (0, 1), (0, 3), (0, 4), (20, 0)]);
        let of_1 = [3, 4, 7, 8, u64::MAX].map(|wanted| thickness(&CASE_A, 1, wanted));
        assert_eq!(of_1, [(0, 0), (0, 1), (0, 4), (20, 0), (20, 0)]);
        assert_eq!([3, 256, 65_536, u32::MAX].map(|link| thickness(&CASE_A, link, 0)), [(18, 0); 4]);
        assert_eq!(thickness(&CASE_A[..4], 3, u64::MAX), (3, 0));
    }

    /// Of the same triangle: links 0 and 2, its tree, stand for nodes 1 and 2 together, and links 1 and 2, a second tree, for node 2.
    #[test]
    fn the_entry_of_the_pairs_is_asked() {
        assert_eq!(pairs(&CASE_A, 0, 1), Ok(vec![7]));
        assert_eq!(pairs(&CASE_A, 0, 3), Ok(vec![7, u64::MAX, u64::MAX]));
        let mut two_trees = CASE_A.to_vec();
        two_trees[4] = 2;
        two_trees.extend([0, 0, 0, 0, 0b110]);
        assert_eq!([0, 1, 2].map(|tree| pairs(&two_trees, tree, 1)), [Ok(vec![7]), Ok(vec![6]), Err(23)]);
        assert!([1, 256, u32::MAX].iter().all(|&tree| pairs(&CASE_A, tree, 0) == Err(23)));
        assert_eq!(pairs(&CASE_A, 0, 0), Err(24));
        assert_eq!(pairs(&CASE_A[..4], 1, 0), Err(3));
    }

    #[test]
    fn areas_are_read_as_document_01_and_request_f_2_lay_them_out() {
        let mut side = [0; 32];
        (side[0], side[1], side[31]) = (2, 0x81, 0x80);
        let mut area =
            [1, 31, 4, 0, 6, 5, 8, 7, 4, 3, 2, 1, 0x14, 0x13, 0x12, 0x11, 0x0D, 0x0C, 0x0B, 0x0A, 0, 0, 0, 1];
        let candidate =
            Candidate { weight: 0x1112_1314_0102_0304, nodes: 4, tree: 31, first: 0x0506, second: Some(0x0708) };
        let expected = Answer { verdict: 1, floor: 0x0100_0000_0A0B_0C0D, candidate, side: vec![1, 8, 15, 255] };
        assert_eq!(read_areas(&side, &area), expected);
        (area[6], area[7]) = (255, 255);
        assert_eq!(read_areas(&side, &area).candidate.second, None);
    }
}
