//! The C entries of the monitor's archive, which is linked into the binaries that are built with the feature `archive`.

extern "C" {
    /// As `include/wcut.h` declares it: each pointer has as many bytes as the length behind it says, and no two overlap.
    pub fn wcut_report(
        sheet: *const u8,
        sheet_length: usize,
        side: *mut u8,
        side_length: usize,
        report: *mut u8,
        report_length: usize,
    ) -> u32;

    /// The same of the sheet and the area; the count is a number that neither overlaps.
    pub fn wcut_list(
        sheet: *const u8,
        sheet_length: usize,
        sides: *mut u8,
        sides_length: usize,
        count: *mut u32,
    ) -> u32;

    /// The same of the sheet and the two maps, which may be one; the table is 16 numbers that none of them overlaps.
    pub fn wcut_corners(
        sheet: *const u8,
        sheet_length: usize,
        first: *const u8,
        first_length: usize,
        second: *const u8,
        second_length: usize,
        table: *mut u64,
    ) -> u32;

    /// The same of the sheet; the figure is a number that it does not overlap.
    pub fn wcut_thickness(sheet: *const u8, sheet_length: usize, link: u32, wanted: u64, thickness: *mut u32) -> u32;

    /// The same of the sheet; the weights are as many numbers as the count behind them says, and the sheet does not overlap them.
    pub fn wcut_pairs(sheet: *const u8, sheet_length: usize, tree: u32, weights: *mut u64, weights_count: usize)
        -> u32;
}
