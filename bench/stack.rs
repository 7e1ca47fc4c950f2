//! How deep the entries' stack goes.

use crate::answer::Outcome;
use reference::entry::{wcut_corners, wcut_list, wcut_pairs, wcut_report, wcut_thickness};
use reference::report::{Side, SIDE_BYTES};
use reference::thickness::OUT_OF_REACH;
use std::arch::asm;

const PAINT: u128 = u128::MAX / 3;
/// More than an entry needs.
const STACK_BYTES: usize = 256 * 1024;
/// So many arguments of an entry are in registers.
const REGISTERS: usize = 6;

/// Calls an entry on a painted stack of its own, and answers its number and the bytes from the stack's top down to the last one
/// overwritten, those of the arguments that stand on the stack included.
///
/// # Safety
///
/// The arguments are what the entry asks for.
unsafe fn call(entry: usize, arguments: &[usize]) -> (u32, usize) {
    let mut stack = vec![PAINT; STACK_BYTES / size_of::<u128>()];
    let mut registers = [0; REGISTERS];
    let (in_registers, on_stack) = arguments.split_at(arguments.len().min(REGISTERS));
    registers[..in_registers.len()].copy_from_slice(in_registers);
    let top = stack.len() - on_stack.len().div_ceil(2);
    for (pair, word) in on_stack.chunks(2).zip(&mut stack[top..]) {
        *word = pair[0] as u128 | (pair.get(1).copied().unwrap_or(0) as u128) << 64;
    }
    let number: u32;
    // SAFETY: the call has the C convention's registers, and a stack of its own which is larger than the entry needs, aligned to 16 bytes
    // where its further arguments begin; r12 holds the stack before, since the convention keeps it.
    unsafe {
        asm!(
            "xchg rsp, r12",
            "call {entry}",
            "mov rsp, r12",
            entry = in(reg) entry,
            inout("r12") stack[..top].as_mut_ptr_range().end => _,
            in("rdi") registers[0],
            in("rsi") registers[1],
            in("rdx") registers[2],
            in("rcx") registers[3],
            in("r8") registers[4],
            in("r9") registers[5],
            lateout("eax") number,
            clobber_abi("C"),
        );
    }
    let untouched = stack.iter().take_while(|&&word| word == PAINT).count();
    (number, size_of_val(&stack[untouched..]))
}

/// The stack that the report of a sheet takes.
pub fn depth(sheet: &[u8]) -> usize {
    let Outcome { mut side, mut report, .. } = Outcome::unwritten(0);
    let (s, r) = (side.as_mut_ptr() as usize, report.as_mut_ptr() as usize);
    let arguments = [sheet.as_ptr() as usize, sheet.len(), s, side.len(), r, report.len()];
    // SAFETY: each pointer is that of a slice with the length behind it, and the three slices do not overlap.
    let (number, depth) = unsafe { call(wcut_report as *const () as usize, &arguments) };
    assert_eq!(number, 0);
    depth
}

/// The stack that the list of a sheet takes.
pub fn list_depth(sheet: &[u8], most_sides: usize) -> usize {
    let mut sides = vec![0; most_sides * SIDE_BYTES];
    let mut count: u32 = 0;
    let (s, c) = (sides.as_mut_ptr() as usize, std::ptr::from_mut(&mut count) as usize);
    let arguments = [sheet.as_ptr() as usize, sheet.len(), s, sides.len(), c];
    // SAFETY: each pointer is that of a slice with the length behind it or of a number, and none of the three overlaps another.
    let (number, depth) = unsafe { call(wcut_list as *const () as usize, &arguments) };
    assert_eq!(number, 0);
    depth
}

/// The stack that the corners of two sides of a sheet take.
pub fn corners_depth(sheet: &[u8], first: &Side, second: &Side) -> usize {
    let mut table = [0u64; 16];
    let (f, s) = (first.as_ptr() as usize, second.as_ptr() as usize);
    let arguments = [sheet.as_ptr() as usize, sheet.len(), f, SIDE_BYTES, s, SIDE_BYTES, table.as_mut_ptr() as usize];
    // SAFETY: each pointer is that of a slice or an array with the length behind it, the table has 16 numbers, and no two overlap.
    let (number, depth) = unsafe { call(wcut_corners as *const () as usize, &arguments) };
    assert_eq!(number, 0);
    depth
}

/// The stack that the thickness of a sheet's first link takes, for a weight that is out of reach.
pub fn thickness_depth(sheet: &[u8]) -> usize {
    let mut figure: u32 = 0;
    let arguments = [sheet.as_ptr() as usize, sheet.len(), 0, usize::MAX, std::ptr::from_mut(&mut figure) as usize];
    // SAFETY: the pointer to the sheet is that of a slice with the length behind it, and the figure is a number that it does not overlap.
    let (number, depth) = unsafe { call(wcut_thickness as *const () as usize, &arguments) };
    assert_eq!(number, OUT_OF_REACH);
    depth
}

/// The stack that the pairs of a sheet's first tree take.
pub fn pairs_depth(sheet: &[u8], most_pairs: usize) -> usize {
    let mut weights = vec![0u64; most_pairs];
    let arguments = [sheet.as_ptr() as usize, sheet.len(), 0, weights.as_mut_ptr() as usize, weights.len()];
    // SAFETY: each pointer is that of a slice or a vector with the length behind it, and the two do not overlap.
    let (number, depth) = unsafe { call(wcut_pairs as *const () as usize, &arguments) };
    assert_eq!(number, 0);
    depth
}
