//! Times the entry of the list, `wcut_list`, against that of the report, `wcut_report`, on the same sheets.

use crate::networks::{self, KINDS};
use crate::ties::Wheel::{Paths, Stars};
use crate::ties::{all_weights_0, dense, idle_nodes, late_side, paths_again, ring, wheel};
use crate::{entry, list_entry, timed, LONGEST, MIDDLE, STACK_PLACES};
use reference::generate::Size;
use reference::network::Network;
use reference::report::SIDE_BYTES;
use reference::sheet::{self, MOST_LINKS, MOST_NODES, MOST_TREES};
use std::time::{Duration, Instant};

/// Lists of up to so many sides keep the limits.
const SHORT: usize = 1000;
/// The list's time over the report's.
const LIMIT: f64 = 4.0;
/// The same of lists with fewer than so many sides, on the networks by kind.
const FEW: usize = 100;
const FEW_LIMIT: f64 = 2.3;
/// The same on networks in which most candidates of all trees are of one weight, and few of their sides are shown by two trees.
const HARD_LIMIT: f64 = 14.0;
/// The same where the area is too short for a long list.
const REFUSED_LIMIT: f64 = 3.0;
/// The number with which such a list is refused.
const NO_ROOM: u32 = 19;
/// The most sides that a sheet can have.
pub const MOST_SIDES: usize = MOST_TREES * MOST_NODES * (MOST_NODES - 1) / 2;

/// A row's turns end after this time, but each place on the stack has its turn, and no row has more than so many.
const ROW_TIME: Duration = Duration::from_millis(200);
const MOST_TURNS: usize = 2000;

struct Case {
    name: String,
    bytes: Vec<u8>,
}

/// The best times of one sheet, in seconds.
struct Times {
    report: f64,
    list: f64,
}

impl Times {
    fn ratio(&self) -> f64 {
        self.list / self.report
    }

    /// Prints the row of the sheet.
    fn print(&self, name: &str, sides: &str) {
        println!("{name:<37} {sides:>7} {:>9.4} {:>9.4} {:>11.2}", 1e3 * self.report, 1e3 * self.list, self.ratio());
    }
}

/// The largest ratios of lists with few sides and of short lists, and the longest time of all.
struct Largest {
    few: f64,
    ratio: f64,
    list: f64,
}

impl Largest {
    /// Of some sheets, whose rows are printed.
    fn of(cases: impl IntoIterator<Item = Case>, area: &mut [u8]) -> Largest {
        cases
            .into_iter()
            .map(|case| print_row(&case, area))
            .fold(Largest { few: 0.0, ratio: 0.0, list: 0.0 }, Largest::max)
    }

    fn max(self, other: Largest) -> Largest {
        Largest { few: self.few.max(other.few), ratio: self.ratio.max(other.ratio), list: self.list.max(other.list) }
    }
}

fn of_network(name: &str, network: &Network) -> Case {
    let Network { nodes, links, trees } = network;
    Case { name: format!("{nodes:>5} {:>5} {:>5}  {name}", links.len(), trees.len()), bytes: sheet::write(network) }
}

fn of_kind(size: Size, kind: &networks::Kind) -> Case {
    let name = format!("{:>5} {:>5} {:>5}  {}", size.nodes, size.links, size.trees, kind.name);
    Case { name, bytes: networks::sheet(size, kind) }
}

fn by_kind() -> impl Iterator<Item = Case> {
    [LONGEST, MIDDLE].into_iter().flat_map(|size| KINDS.iter().map(move |kind| of_kind(size, kind)))
}

/// Nearly as many sides as there can be.
fn long() -> Case {
    of_network("all weights 0", &all_weights_0(MOST_NODES, MOST_LINKS / MOST_NODES, MOST_TREES))
}

fn made() -> Vec<Case> {
    vec![
        of_network("ring", &ring(MOST_NODES, MOST_LINKS, MOST_TREES, 6)),
        of_network("idle nodes", &idle_nodes(MOST_NODES, MOST_LINKS, MOST_TREES, 32)),
        of_network("ring", &ring(MOST_NODES, MOST_LINKS, 1, 6)),
        of_network("ring", &ring(40, 80, 4, 1)),
        of_network("idle nodes", &idle_nodes(40, 80, 4, 12)),
        of_network("ring", &ring(45, 45, 1, 1)),
        of_network("stars, paths", &wheel(10, &[Stars(16), Paths(16)])),
        of_network("stars, paths", &wheel(45, &[Stars(16), Paths(16)])),
        of_network("path, stars, path", &wheel(45, &[Paths(1), Stars(30), Paths(1)])),
        of_network("star, paths", &wheel(45, &[Stars(1), Paths(30)])),
        of_network("one side", &late_side(MOST_NODES, 1)),
        of_network("dense", &dense(2, MOST_TREES)),
        long(),
    ]
}

fn hard() -> Vec<Case> {
    vec![
        of_network("stars, path", &wheel(45, &[Stars(31), Paths(1)])),
        of_network("late side", &late_side(46, 2)),
        of_network("dense", &dense(8, MOST_TREES)),
        of_network("dense", &dense(12, MOST_TREES)),
        of_network("dense", &dense(20, 6)),
        of_network("paths again", &paths_again(15, 11, MOST_TREES)),
    ]
}

/// Times both in turns, and answers what the list did.
fn best_times(bytes: &[u8], area: &mut [u8]) -> (Times, Result<usize, u32>) {
    let mut best = Times { report: f64::MAX, list: f64::MAX };
    let mut answer = Ok(0);
    let start = Instant::now();
    for turn in 0..MOST_TURNS {
        if turn >= STACK_PLACES && start.elapsed() > ROW_TIME {
            break;
        }
        timed(&mut best.report, || entry(bytes));
        answer = timed(&mut best.list, || list_entry(bytes, area));
    }
    (best, answer)
}

/// Prints the row of one sheet. A long list has no ratio to keep.
fn print_row(case: &Case, area: &mut [u8]) -> Largest {
    let (times, answer) = best_times(&case.bytes, area);
    let sides = answer.expect("the area has room for all sides");
    times.print(&case.name, &sides.to_string());
    let up_to = |most| if sides <= most { times.ratio() } else { 0.0 };
    Largest { few: up_to(FEW), ratio: up_to(SHORT), list: times.list }
}

/// Prints the row of one sheet whose sides the area has no room for, and answers its ratio.
fn print_refused(case: &Case, area: &mut [u8]) -> f64 {
    let (times, answer) = best_times(&case.bytes, area);
    assert_eq!(answer, Err(NO_ROOM));
    times.print(&case.name, "refused");
    times.ratio()
}

/// Prints the largest ratio of some lists with its limit, and answers whether it keeps it.
fn print_largest(lists: &str, ratio: f64, limit: f64) -> bool {
    let kept = if ratio <= limit { "" } else { ": EXCEEDED" };
    println!("{lists}: largest list/report {ratio:.3}, limit {limit:.3}{kept}");
    ratio <= limit
}

/// Prints all rows, the largest ratios and the longest time, and answers whether the ratios keep their limits.
pub fn print_table() -> bool {
    println!("nodes links trees  kind                 sides report ms   list ms list/report");
    let mut area = vec![0; MOST_SIDES * SIDE_BYTES];
    let by_kind = Largest::of(by_kind(), &mut area);
    let made = Largest::of(made(), &mut area);
    let hard = Largest::of(hard(), &mut area);
    let refused = print_refused(&long(), &mut area[..SHORT * SIDE_BYTES]);
    println!("longest list: {:.1} ms", 1e3 * by_kind.list.max(made.list).max(hard.list));
    let kept = [
        print_largest(&format!("lists of at most {SHORT} sides"), by_kind.ratio.max(made.ratio), LIMIT),
        print_largest("hard ones", hard.ratio, HARD_LIMIT),
        print_largest(&format!("lists of fewer than {FEW} sides, of networks by kind"), by_kind.few, FEW_LIMIT),
        print_largest(&format!("list refused, with room for {SHORT} sides"), refused, REFUSED_LIMIT),
    ];
    !kept.contains(&false)
}
