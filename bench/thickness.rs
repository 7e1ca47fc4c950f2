//! Times the entry of a cable's thickness, `wcut_thickness`, against that of the report, `wcut_report`: on the same sheets, and on these
//! with the link at 0 and at the largest weight, whose searches it makes.

use crate::networks::{self, all_fields, KINDS};
use crate::{entry, timed, LONGEST, MIDDLE, SERIES};
use reference::entry::wcut_thickness;
use reference::generate::Size;
use reference::network::{Link, Network, Tree};
use reference::report;
use reference::sheet::{self, Contents, MOST_NODES, MOST_TREES, MOST_WEIGHT};
use reference::thickness;

/// The time of the thickness over that of the sheet's report, on the networks by kind.
const LIMIT: f64 = 2.2;
/// The time of the thickness over that of both reports together, on all sheets.
const BOTH_LIMIT: f64 = 1.1;

/// A sheet, a link of it, and what stands for it in the table.
struct Case {
    name: String,
    bytes: Vec<u8>,
    link: usize,
}

/// The time of the thickness over that of the report, and over that of both reports together.
struct Ratios {
    report: f64,
    both: f64,
}

impl Ratios {
    /// The largest of those of some sheets, whose rows are printed.
    fn largest(cases: impl IntoIterator<Item = Case>) -> Ratios {
        let larger = |a: Ratios, b: Ratios| Ratios { report: a.report.max(b.report), both: a.both.max(b.both) };
        cases.into_iter().map(print_row).fold(Ratios { report: 0.0, both: 0.0 }, larger)
    }
}

/// The entry's number and figure.
fn thickness_entry(sheet: &[u8], link: usize, wanted: u64) -> (u32, u32) {
    let mut figure = 0;
    // SAFETY: the pointer to the sheet is that of a slice with the length behind it, and the figure is a number that it does not overlap.
    let number =
        unsafe { wcut_thickness(sheet.as_ptr(), sheet.len(), link as u32, wanted, std::ptr::from_mut(&mut figure)) };
    (number, figure)
}

/// The sheet with another weight of the link.
fn with_weight(case: &Case, weight: u64) -> Vec<u8> {
    let contents = sheet::read_contents(&case.bytes).expect("the sheet is accepted");
    let network = thickness::with_weight(&contents.network, case.link, weight);
    all_fields(&Contents { network, ..contents })
}

/// The first link of a network by its kind.
fn of_kind(size: Size, kind: &networks::Kind) -> Case {
    let Size { nodes, links, trees } = size;
    let name = format!("{nodes:>5} {links:>5} {trees:>5}  {}", kind.name);
    Case { name, bytes: networks::sheet(size, kind), link: 0 }
}

/// A ring whose links weigh the same, and a node beside it with one link, which weighs 0. The report finds that node first, and nothing as
/// light behind it. With a heavy link all pairs of ring links are as light as any, and each has to be held against the first.
fn leaf(nodes: usize, trees: usize) -> Case {
    let last = nodes - 1;
    let step = |node: usize| Link { first: node, second: (node + 1) % last, weight: 1 };
    let mut links: Vec<Link> = (0..last).map(step).collect();
    links.push(Link { first: 0, second: last, weight: 0 });
    let tree = Tree { share: 0, members: (0..nodes).filter(|&link| link != last - 1).collect() };
    let network = Network { nodes, links, trees: vec![tree; trees] };
    let name = format!("{nodes:>5} {nodes:>5} {trees:>5}  leaf");
    Case { name, bytes: all_fields(&Contents::without_trunks(network)), link: last }
}

/// Prints the row of one sheet, for a wanted weight that takes both searches, and answers the ratios.
fn print_row(case: Case) -> Ratios {
    let Case { name, bytes, link } = &case;
    let (least, most) = (with_weight(&case, 0), with_weight(&case, MOST_WEIGHT));
    let wanted = report::weight_in(&entry(&least).report) + 1;
    let (mut alone, mut at_0, mut at_most, mut thickness) = (f64::MAX, f64::MAX, f64::MAX, f64::MAX);
    for _ in 0..if bytes.len() > 5000 { 100 } else { 2000 } {
        timed(&mut alone, || entry(bytes));
        timed(&mut at_0, || entry(&least));
        timed(&mut at_most, || entry(&most));
        timed(&mut thickness, || thickness_entry(bytes, *link, wanted));
    }
    let ratios = Ratios { report: thickness / alone, both: thickness / (at_0 + at_most) };
    let (alone, both) = (1e3 * alone, 1e3 * (at_0 + at_most));
    let time = 1e3 * thickness;
    println!("{name:<30} {alone:>9.4} {both:>7.4} {time:>12.4} {:>16.2} {:>14.2}", ratios.report, ratios.both);
    ratios
}

/// Prints all rows and the largest ratios, and answers whether these keep their limits.
pub fn print_table() -> bool {
    println!("both: the reports with the link at 0 and at the largest weight");
    println!("nodes links trees  kind        report ms both ms thickness ms thickness/report thickness/both");
    let kinds = |size: Size| KINDS.iter().map(move |kind| of_kind(size, kind));
    let series = SERIES.into_iter().map(|size| of_kind(size, &KINDS[0]));
    let by_kind = Ratios::largest(kinds(LONGEST).chain(kinds(MIDDLE)).chain(series));
    let made = Ratios::largest([leaf(MOST_NODES, MOST_TREES), leaf(MOST_NODES, 1), leaf(40, 4)]);
    let kept = |ratio: f64, limit: f64| if ratio <= limit { "" } else { ": EXCEEDED" };
    let (report, both) = (by_kind.report, by_kind.both.max(made.both));
    println!(
        "thickness of a cable: largest thickness/report {report:.3} by kind, {:.3} made, limit {LIMIT:.3} by kind{}",
        made.report,
        kept(report, LIMIT)
    );
    println!("largest thickness/both {both:.3}, limit {BOTH_LIMIT:.3}{}", kept(both, BOTH_LIMIT));
    report <= LIMIT && both <= BOTH_LIMIT
}
