//! Times the entry `wcut_report` of the proved archive, from a sheet's bytes to both areas, against two in plain Rust: its search alone
//! (`plain`), for a network that was read already, and whole the plain method (`before`), which weighs every pair by itself. The networks
//! are made from a fixed seed and written as sheets. All three answer each sheet and must agree; they are timed in turns, and the best
//! time of each counts.
//! Then it times the entries of the list, `wcut_list`, of the corners, `wcut_corners`, and of a cable's thickness, `wcut_thickness`, against
//! `wcut_report` on the same sheets.
//! With `--stack`, it prints instead how many bytes of stack each entry takes for longest sheets.

mod answer;
mod before;
mod corners;
mod lists;
mod networks;
mod places;
mod plain;
mod read;
mod rows;
mod stack;
mod thickness;
mod ties;

use answer::Outcome;
use networks::{Kind, KINDS};
use reference::entry::{wcut_list, wcut_report};
use reference::generate::Size;
use reference::pairs::row_start;
use std::hint::black_box;
use std::process::exit;
use std::sync::atomic::{AtomicUsize, Ordering};
use std::time::Instant;

const LONGEST: Size = Size::new(256, 2048, 32);
const MIDDLE: Size = Size::new(40, 80, 4);
/// Sizes that differ from the longest in one number.
const SERIES: [Size; 6] = [
    Size::new(256, 2048, 1),
    Size::new(256, 2048, 8),
    Size::new(64, 2048, 32),
    Size::new(128, 2048, 32),
    Size::new(256, 512, 32),
    Size::new(256, 1024, 32),
];

/// How often a node's links are added to the rows of one tree at most: in the node's own row, and in that of each node above it whose
/// heaviest child does not stand between them. In a tree of 256 nodes there are at most 7 such nodes.
const LINK_STEPS: usize = 8;

/// The best times of one sheet, in seconds.
struct Times {
    entry: f64,
    search: f64,
    before: f64,
}

/// The entry's time over the others' times.
struct Ratios {
    search: f64,
    before: f64,
}

const LONGEST_LIMITS: Ratios = Ratios { search: 1.3, before: 1.0 / 10.0 };
const MIDDLE_LIMITS: Ratios = Ratios { search: 1.3, before: 1.0 / 4.0 };

fn entry(sheet: &[u8]) -> Outcome {
    let mut outcome = Outcome::unwritten(0);
    let Outcome { number, side, report } = &mut outcome;
    // SAFETY: each pointer is that of a slice with the length behind it, and the three slices do not overlap.
    *number = unsafe {
        wcut_report(sheet.as_ptr(), sheet.len(), side.as_mut_ptr(), side.len(), report.as_mut_ptr(), report.len())
    };
    outcome
}

/// The number of sides that the entry of the list writes, or the number with which it refuses.
fn list_entry(sheet: &[u8], area: &mut [u8]) -> Result<usize, u32> {
    let mut count = 0;
    // SAFETY: each pointer is that of a slice with the length behind it or of a number, and none of the three overlaps another.
    let number = unsafe {
        wcut_list(sheet.as_ptr(), sheet.len(), area.as_mut_ptr(), area.len(), std::ptr::from_mut(&mut count))
    };
    if number == 0 {
        Ok(count as usize)
    } else {
        Err(number)
    }
}

/// So many places on the stack, some hundred bytes apart and over a page together, take turns: how fast a call is depends on where its
/// arrays lie.
const STACK_PLACES: usize = 17;

/// The call's answer; its time counts where it is the best.
fn timed<T>(best: &mut f64, call: impl FnOnce() -> T) -> T {
    static CALLS: AtomicUsize = AtomicUsize::new(0);
    let place = CALLS.fetch_add(1, Ordering::Relaxed) % STACK_PLACES;
    let (answer, time) = deeper(place, || {
        let start = Instant::now();
        let answer = call();
        (answer, start.elapsed().as_secs_f64())
    });
    *best = best.min(time);
    answer
}

/// The call's answer, so many frames further down the stack.
fn deeper<T>(frames: usize, call: impl FnOnce() -> T) -> T {
    let room = black_box([0u8; 256]);
    let answer = if frames == 0 { call() } else { deeper(frames - 1, call) };
    black_box(&room);
    answer
}

/// The best time of each, or the answers that differ. In each turn the plain method is timed once, the others so many times.
fn best_times(bytes: &[u8], turns: usize, calls: usize) -> Result<Times, String> {
    let sheet = read::read_sheet(bytes).map_err(|number| format!("refused {number}"))?;
    let mut best = Times { entry: f64::MAX, search: f64::MAX, before: f64::MAX };
    for _ in 0..turns {
        let before = timed(&mut best.before, || before::report(bytes));
        for _ in 0..calls {
            let entry = timed(&mut best.entry, || entry(bytes));
            let found = timed(&mut best.search, || plain::search(&sheet));
            let search = answer::accepted(&sheet, &found);
            if entry != before || search != before {
                return Err(format!("entry: {entry:?}\nsearch: {search:?}\nbefore: {before:?}"));
            }
        }
    }
    Ok(best)
}

/// Prints the row of one network and answers its ratios.
fn print_row(size: Size, kind: &Kind, turns: usize, calls: usize) -> Ratios {
    let times = best_times(&networks::sheet(size, kind), turns, calls);
    let Times { entry, search, before } = times.unwrap_or_else(|differs| {
        eprintln!("the answers differ\n{differs}");
        exit(1)
    });
    let steps = size.trees * (LINK_STEPS * size.links + size.nodes * size.nodes);
    println!(
        "{:>5} {:>5} {:>5}  {:<11} {:>9.4} {:>9.4} {:>9.3} {:>12.2} {:>12.3} {:>7.2}",
        size.nodes,
        size.links,
        size.trees,
        kind.name,
        1e3 * entry,
        1e3 * search,
        1e3 * before,
        entry / search,
        entry / before,
        1e9 * entry / steps as f64,
    );
    Ratios { search: entry / search, before: entry / before }
}

/// Prints the rows of all kinds and answers the largest ratios.
fn print_kinds(size: Size, turns: usize, calls: usize) -> Ratios {
    let mut largest = Ratios { search: 0.0, before: 0.0 };
    for kind in &KINDS {
        let ratios = print_row(size, kind, turns, calls);
        largest.search = largest.search.max(ratios.search);
        largest.before = largest.before.max(ratios.before);
    }
    largest
}

/// Prints the largest ratios of some sheets with their limits, and answers whether they keep them.
fn print_largest(sheets: &str, largest: &Ratios, limits: &Ratios) -> bool {
    let both = [("search", largest.search, limits.search), ("before", largest.before, limits.before)];
    for (other, ratio, limit) in both {
        let kept = if ratio <= limit { "" } else { ": EXCEEDED" };
        println!("{sheets}: largest entry/{other} {ratio:.3}, limit {limit:.3}{kept}");
    }
    both.iter().all(|(_, ratio, limit)| ratio <= limit)
}

/// Prints all rows and the largest ratios, and answers whether these keep their limits.
fn print_table() -> bool {
    println!("Best times. entry: from bytes to both areas; search: its search alone, in plain Rust; before: the plain method whole, in");
    println!("plain Rust; ns/step: the entry's time over trees x ({LINK_STEPS} x links + nodes x nodes).");
    println!("nodes links trees  kind         entry ms search ms before ms entry/search entry/before ns/step");
    let longest = print_kinds(LONGEST, 4, 150);
    let middle = print_kinds(MIDDLE, 400, 20);
    for size in SERIES {
        print_row(size, &KINDS[0], 3, 150);
    }
    let longest_kept = print_largest("256 nodes, 2048 links, 32 trees", &longest, &LONGEST_LIMITS);
    let middle_kept = print_largest("40 nodes, 80 links, 4 trees", &middle, &MIDDLE_LIMITS);
    longest_kept && middle_kept
}

fn main() {
    match std::env::args().nth(1).as_deref() {
        None => {
            let kept = [print_table(), lists::print_table(), corners::print_table(), thickness::print_table()];
            exit(i32::from(kept.contains(&false)))
        }
        Some("--stack") => {
            let sheets = KINDS.map(|kind| networks::sheet(LONGEST, &kind));
            let deepest = |depth: &dyn Fn(&[u8]) -> usize| sheets.iter().map(|sheet| depth(sheet)).max().unwrap_or(0);
            println!("stack depth {} bytes", deepest(&stack::depth));
            println!("list stack depth {} bytes", deepest(&|sheet| stack::list_depth(sheet, lists::MOST_SIDES)));
            let (first, second) = corners::sides(LONGEST.nodes);
            println!("corners stack depth {} bytes", deepest(&|sheet| stack::corners_depth(sheet, &first, &second)));
            println!("thickness stack depth {} bytes", deepest(&stack::thickness_depth));
            // behind the pairs of all links would stand the row of one more
            let most_pairs = row_start(LONGEST.nodes - 1);
            println!("pairs stack depth {} bytes", deepest(&|sheet| stack::pairs_depth(sheet, most_pairs)));
        }
        Some(_) => {
            eprintln!("usage: bench [--stack]");
            exit(2)
        }
    }
}
