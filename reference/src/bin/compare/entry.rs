//! Calls of the C entries. The caller sees in what it has lent whether anything was changed.

use reference::corners::CORNERS;
use reference::entry::{wcut_corners, wcut_list, wcut_pairs, wcut_report, wcut_thickness};
use reference::report::{weight_in, REPORT_BYTES, SIDE_BYTES};
use reference::thickness::Question;

use crate::lent::Lent;

/// How many numbers a table of corners has.
pub const TABLE_NUMBERS: usize = CORNERS * CORNERS;

/// Calls the entry of the report and returns its number.
pub fn report(sheet: &mut Lent, side: &mut Lent, report: &mut Lent) -> u32 {
    let (sheet, side, report) = (sheet.lent(), side.lent(), report.lent());
    // SAFETY: each pointer is that of a slice with the length behind it, and the three slices do not overlap.
    unsafe {
        wcut_report(sheet.as_ptr(), sheet.len(), side.as_mut_ptr(), side.len(), report.as_mut_ptr(), report.len())
    }
}

/// The same with the entry of the list.
pub fn list(sheet: &mut Lent, sides: &mut Lent, count: &mut Lent<u32>) -> u32 {
    let (sheet, sides) = (sheet.lent(), sides.lent());
    // SAFETY: each pointer is that of a slice with the length behind it or of a number, and none of the three overlaps another.
    unsafe { wcut_list(sheet.as_ptr(), sheet.len(), sides.as_mut_ptr(), sides.len(), &mut count.lent()[0]) }
}

/// The same with the entry of the corners and two side maps, or one that is passed twice.
pub fn corners(sheet: &mut Lent, maps: &mut [Lent], table: &mut Lent<u64>) -> u32 {
    let sheet = sheet.lent();
    let last = maps.len() - 1;
    let [(first, first_length), (second, second_length)] = [0, last].map(|place| {
        let map = maps[place].lent();
        (map.as_ptr(), map.len())
    });
    let table = &mut table.lent()[..TABLE_NUMBERS];
    // SAFETY: each pointer is that of a slice with the length behind it or of 16 numbers. The numbers overlap no slice.
    unsafe { wcut_corners(sheet.as_ptr(), sheet.len(), first, first_length, second, second_length, table.as_mut_ptr()) }
}

/// The same with the entry of the thickness.
pub fn thickness(sheet: &mut Lent, question: Question, figure: &mut Lent<u32>) -> u32 {
    let sheet = sheet.lent();
    // SAFETY: the first pointer is that of a slice with the length behind it, the last that of a number, which does not overlap the slice.
    unsafe { wcut_thickness(sheet.as_ptr(), sheet.len(), question.link, question.wanted, &mut figure.lent()[0]) }
}

/// The same with the entry of the pairs.
pub fn pairs(sheet: &mut Lent, tree: u32, weights: &mut Lent<u64>) -> u32 {
    let (sheet, weights) = (sheet.lent(), weights.lent());
    // SAFETY: each pointer is that of a slice with the length behind it, and the two slices do not overlap.
    unsafe { wcut_pairs(sheet.as_ptr(), sheet.len(), tree, weights.as_mut_ptr(), weights.len()) }
}

/// The weight that the entry of the report gives for a sheet, or the number of the refusal.
pub fn reported_weight(sheet: &[u8]) -> Result<u64, u32> {
    let (mut side, mut report) = ([0; SIDE_BYTES], [0; REPORT_BYTES]);
    // SAFETY: each pointer is that of a slice or an array with the length behind it, and none of the three overlaps another.
    let number = unsafe {
        wcut_report(sheet.as_ptr(), sheet.len(), side.as_mut_ptr(), side.len(), report.as_mut_ptr(), report.len())
    };
    match number {
        0 => Ok(weight_in(&report)),
        number => Err(number),
    }
}
