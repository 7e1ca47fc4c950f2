//! Times the entry of the corners, `wcut_corners`, against that of the report, `wcut_report`, on the same sheets.

use crate::networks::{self, KINDS};
use crate::{entry, timed, LONGEST, MIDDLE, SERIES};
use reference::entry::wcut_corners;
use reference::generate::Size;
use reference::random::Random;
use reference::report::{self, Side, SIDE_BYTES};

/// The time of the corners over the report's.
const LIMIT: f64 = 0.7;
/// Sheets on which a search has little to do.
const SMALL: [Size; 5] =
    [Size::new(2, 1, 1), Size::new(2, 2048, 1), Size::new(2, 2048, 32), Size::new(4, 2048, 1), Size::new(16, 2048, 1)];

/// Two sides of a network with so many nodes: node 1 is in both, each behind it at random in either.
pub fn sides(nodes: usize) -> (Side, Side) {
    let mut random = Random::new(1);
    let mut side = || report::side_bytes((1..nodes).filter(|&node| node == 1 || random.below(2) == 1));
    (side(), side())
}

/// The sum of the table that the entry writes.
fn corners_entry(sheet: &[u8], first: &Side, second: &Side) -> u64 {
    let mut table = [0; 16];
    // SAFETY: each pointer is that of a slice or an array with the length behind it, the table has 16 numbers, and no two overlap.
    let number = unsafe {
        wcut_corners(
            sheet.as_ptr(),
            sheet.len(),
            first.as_ptr(),
            SIDE_BYTES,
            second.as_ptr(),
            SIDE_BYTES,
            table.as_mut_ptr(),
        )
    };
    assert_eq!(number, 0);
    table.iter().sum()
}

/// Prints the row of one sheet, and answers the time of the corners over the report's.
fn print_row(size: Size, kind: &networks::Kind) -> f64 {
    let bytes = networks::sheet(size, kind);
    let (first, second) = sides(size.nodes);
    let (mut report, mut corners) = (f64::MAX, f64::MAX);
    for _ in 0..if bytes.len() > 5000 { 100 } else { 2000 } {
        timed(&mut report, || entry(&bytes));
        timed(&mut corners, || corners_entry(&bytes, &first, &second));
    }
    let ratio = corners / report;
    let Size { nodes, links, trees } = size;
    println!(
        "{nodes:>5} {links:>5} {trees:>5}  {:<11} {:>9.4} {:>10.4} {ratio:>14.2}",
        kind.name,
        1e3 * report,
        1e3 * corners
    );
    ratio
}

/// Prints all rows and the largest ratio, and answers whether it keeps its limit.
pub fn print_table() -> bool {
    println!("nodes links trees  kind        report ms corners ms corners/report");
    let kinds = |size: Size| KINDS.iter().map(move |kind| (size, kind));
    let others = SERIES.into_iter().chain(SMALL).map(|size| (size, &KINDS[0]));
    let rows = kinds(LONGEST).chain(kinds(MIDDLE)).chain(others);
    let largest = rows.map(|(size, kind)| print_row(size, kind)).fold(0.0, f64::max);
    let kept = if largest <= LIMIT { "" } else { ": EXCEEDED" };
    println!("corners of two sides: largest corners/report {largest:.3}, limit {LIMIT:.3}{kept}");
    largest <= LIMIT
}
