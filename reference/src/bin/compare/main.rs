//! Compares the monitor with the second implementation: the C entries of the archive that is linked in, the report program and the cable
//! crew's program.

mod corners;
mod entry;
mod inputs;
mod judge;
mod lent;
mod long_lists;
mod networks;
mod pairs;
mod program;
mod shapes;
mod sheets;
mod soak;
mod thickness;

use std::path::PathBuf;
use std::process::ExitCode;
use std::time::{SystemTime, UNIX_EPOCH};

use judge::{
    Before, Completeness, Corners, Judge, Judged, LightestCrossing, Lists, Programs, Row, Runs, Stop, Trunked,
};
use networks::Counts;
use reference::random::Random;

const USAGE: &str = "\
usage: compare REPORT TRUNKS [--seed S] [--soak N]

Sends sheets to the C entries, to the report program REPORT and to the cable crew's program TRUNKS, and holds numbers, areas,
counts, tables, figures, weights, lines and exit status against the reference's.
Without --soak: a fixed share of every kind, about three minutes long, with seed 1 unless --seed gives another.
With --soak N, from 1 on: N random cases with a new seed, which is printed first; --seed S --soak N runs the same again.
Prints how many of what kind were run. A case is a sheet with its areas or pauses; it has answers of the entries, one of each
program, or all. The list of a sheet may be asked for with several areas, its corners with several side maps, how thick its
links must be with several wanted weights, and the pairs of its trees with several areas. The first answer that differs is
printed with its sheet, and ends it with status 1.";

const FIXED_SEED: u64 = 1;

struct Settings {
    programs: Programs,
    seed: Option<u64>,
    soak: Option<u64>,
}

fn settings() -> Option<Settings> {
    let mut arguments = std::env::args_os().skip(1);
    let mut program = || arguments.next().filter(|name| name != "--help").map(PathBuf::from);
    let programs = Programs { report: program()?, trunks: program()? };
    let mut settings = Settings { programs, seed: None, soak: None };
    while let Some(name) = arguments.next() {
        let value = arguments.next()?.to_str()?.parse().ok()?;
        match name.to_str()? {
            "--seed" => settings.seed = Some(value),
            "--soak" if value > 0 => settings.soak = Some(value),
            _ => return None,
        }
    }
    Some(settings)
}

/// A seed from the clock, short enough to be typed.
fn new_seed() -> u64 {
    let now = SystemTime::now().duration_since(UNIX_EPOCH).unwrap_or_default();
    Random::new(now.as_nanos() as u64).number() % 1_000_000_000
}

fn fixed_share(judge: &mut Judge, random: &mut Random) -> Judged {
    sheets::documented(judge)?;
    sheets::area_lengths(judge)?;
    sheets::single_faults(judge, random, 12)?;
    sheets::two_faults(judge, random, 20)?;
    sheets::cut_sheets(judge, random)?;
    sheets::changed_bytes(judge, random, 1000)?;
    inputs::long_inputs(judge, random)?;
    inputs::short_reads(judge, random)?;
    networks::of_every_feature(judge, random, &Counts { small: 500, middle: 65, large: 5 })?;
    networks::at_the_limits(judge, random)?;
    shapes::of_every_kind(judge, random, 300)?;
    long_lists::of_every_size(judge, random)?;
    corners::of_every_kind(judge, random, &corners::Counts { of_layout: 100, of_feature: 20, large: 8 })?;
    thickness::of_every_kind(judge, random, 12)?;
    pairs::of_every_kind(judge, random, 12)?;
    judge.saw_all()
}

fn print_rows(rows: &[Row]) {
    let columns = [
        "wcut_report",
        "wcut_list",
        "wcut_corners",
        "wcut_thickness",
        "wcut_pairs",
        "report",
        "trunks",
        "accepted",
        "refused",
    ];
    println!("{:<44}{}", "kind", columns.map(|column| format!("{column:>15}")).concat());
    for row in rows.iter().filter(|row| row.calls_and_runs() > 0) {
        let calls = [row.wcut_report, row.wcut_list, row.wcut_corners, row.wcut_thickness, row.wcut_pairs];
        let numbers = calls.into_iter().chain([row.report, row.trunks, row.accepted, row.refused]);
        let numbers: String = numbers.map(|number| format!("{number:>15}")).collect();
        println!("{:<44}{numbers}", row.kind);
    }
}

fn print_table(judge: &Judge) {
    print_rows(&judge.rows);
    let accepted = &judge.accepted;
    println!(
        "accepted: {} whole, {} with floor 0, {} by a pair, {} by a later tree",
        accepted.whole, accepted.floor_zero, accepted.pair, accepted.later_tree
    );
    println!("of more than four bytes: {} weights, {} floors", accepted.wide_weight, accepted.wide_floor);
    let Runs { first, middle, last } = judge.runs;
    println!("not all trees count: the first ends the run in {first}, a middle one in {middle}, the last in {last}");
    let numbers = judge.refusals.iter().enumerate().skip(1);
    let refusals: Vec<String> = numbers.map(|(number, count)| format!("{number}: {count}")).collect();
    println!("refused: {}", refusals.join(", "));
    println!("as units already sold read them: {}", judge.as_sold);
    let Trunked { sheets, accepted, cut_off, raised } = judge.trunked;
    println!("with bit 3: {sheets}, of them accepted: {accepted}, with a trunk number cut off: {cut_off}");
    println!("refused by units already sold for bit 3: {} with 8, {raised} with 11 first", sheets - raised);
    let Before { floor, verdict, same_tree, other_tree } = judge.before;
    println!("another floor than by the rule of units already sold: {floor}, another verdict: {verdict}");
    println!("another side than by their order: {same_tree} of the same tree, {other_tree} of another");
    print_lists(&judge.lists);
    print_completeness(&judge.completeness);
    print_corners(&judge.corners);
    print_kinds("thickness", &judge.thickness.counts());
    print_kinds("pairs", &judge.pairs.counts());
    println!(
        "networks: {} by every side too, {} in a longer sheet than the shortest",
        judge.by_every_side, judge.longer
    );
}

fn print_lists(lists: &Lists) {
    let Lists { written, several, of_several_trees, many: _, sides, longest, short, short_and_refused } = lists;
    println!("lists: {written} of {sides} sides, {several} of several, {of_several_trees} with sides of several trees");
    println!("the longest list: {longest} sides; areas too short: {short} refused with 19, {short_and_refused} for the sheet");
}

fn print_completeness(completeness: &Completeness) {
    let Completeness { above, one_above, equal, equal_missing, .. } = completeness;
    println!("every side against the list, three shares above its weight: {above}, by 1: {one_above}");
    println!("equal to it: {equal}, with a side of the weight missing: {equal_missing}");
    let Completeness { below, one_below, one_below_missing, one_below_lighter, .. } = completeness;
    println!(
        "below it: {below}, by 1: {one_below}, of these with a side missing: {one_below_missing}, with a lighter one: {one_below_lighter}"
    );
}

fn print_corners(corners: &Corners) {
    let Corners { tables, wide, longer, with_and_without_trunks, passed_twice, .. } = corners;
    let [equal, first_inside, second_inside, apart, crossing] = corners.related;
    println!(
        "corners: {tables} tables, {equal} of equal sides, {apart} of sides apart, {crossing} of sides that cross"
    );
    println!("one side inside the other: the first in {first_inside}, the second in {second_inside}");
    println!("with a weight of more than four bytes: {wide}, with a map of more than 32 bytes: {longer}");
    println!("with trunk numbers and without: {with_and_without_trunks}, with one map passed twice: {passed_twice}");
    let LightestCrossing { of_layout: [rings, rings_of_rings, grids], of_others, listed } = corners.crossing;
    println!("lightest sides that cross: {rings} of rings, {rings_of_rings} of rings of rings, {grids} of grids");
    println!("of other small networks: {of_others}, listed with verdict 2: {listed}");
    let Corners { short: [first, second, both], short_beside_no_side, short_and_refused, .. } = corners;
    println!("maps refused with 1: the first in {first}, the second in {second}, both in {both}");
    println!("beside one of no side: {short_beside_no_side}, with a refused sheet: {short_and_refused}");
    let [first, second, both] = corners.no_side.map(|flaws| flaws.iter().sum::<u64>());
    let Corners { refused, refused_and_no_side, .. } = corners;
    println!("maps refused with 21: the first in {first}, the second in {second}, both in {both}");
    println!("refused for the sheet: {refused} with maps of sides, {refused_and_no_side} with a map of no side");
}

/// A line for each kind of calls that is counted.
fn print_kinds(calls: &str, counts: &[(u64, &str)]) {
    println!("{calls:<70}{:>10}", "times");
    for (count, kind) in counts {
        println!("{kind:<70}{count:>10}");
    }
}

fn main() -> ExitCode {
    let Some(settings) = settings() else {
        eprintln!("{USAGE}");
        return ExitCode::from(2);
    };
    let default_seed = if settings.soak.is_some() { new_seed() } else { FIXED_SEED };
    let seed = settings.seed.unwrap_or(default_seed);
    let mut judge = Judge::new(settings.programs, seed);
    let mut random = Random::new(seed);
    println!("seed {seed}");
    let judged = match settings.soak {
        Some(cases) => soak::run(&mut judge, &mut random, cases),
        None => fixed_share(&mut judge, &mut random),
    };
    if let Err(Stop::CannotRun(program, error)) = judged {
        eprintln!("{} cannot be run: {error}", program.display());
        return ExitCode::from(2);
    }
    print_table(&judge);
    let (cases, answers) = (judge.cases(), judge.calls_and_runs());
    if let Err(Stop::Differs(difference)) = judged {
        println!("{difference}\ncompare: {cases} cases, {answers} answers, 1 differs, seed {seed}");
        return ExitCode::FAILURE;
    }
    if let Err(Stop::Lacks(lacking)) = judged {
        println!("compare: no case has {lacking}, seed {seed}");
        return ExitCode::FAILURE;
    }
    println!("compare: {cases} cases, {answers} answers, 0 differ, seed {seed}");
    ExitCode::SUCCESS
}
