//! Holds what the entries and both programs answer against what is expected, and counts.

mod call;
mod complete;
mod corners;
mod kinds;
mod list;
mod pairs;
mod thickness;

pub use complete::Completeness;
pub use corners::{Corners, LightestCrossing};
pub use list::Lists;
pub use pairs::Pairs;
pub use thickness::Thickness;

use std::fmt;
use std::io;
use std::path::{Path, PathBuf};
use std::thread;

use reference::cuts;
use reference::network::Network;
use reference::random::Random;
use reference::report::{self, Outcome, REPORT_BYTES, SIDE_BYTES};
use reference::sheet::{self, Contents, Reading, Refusal};
use reference::sold::Answers;
use reference::trunks::{Readings, Seen};

use crate::entry;
use crate::lent::{self, Lent};
use crate::program::{self, Run};

const LONGEST_AREA: usize = 40;
const LAST_REFUSAL: usize = 16;

/// A sheet that has another answer than the expected one.
pub struct Difference {
    kind: String,
    sheet: Vec<u8>,
    expected: String,
    got: String,
}

impl fmt::Display for Difference {
    fn fmt(&self, formatter: &mut fmt::Formatter) -> fmt::Result {
        writeln!(formatter, "differs, kind: {}", self.kind)?;
        writeln!(formatter, "sheet: {}", lent::show(&self.sheet))?;
        write!(formatter, "expected:\n{}", self.expected)?;
        write!(formatter, "got:\n{}", self.got)
    }
}

/// Why the comparison ends early.
pub enum Stop {
    Differs(Difference),
    CannotRun(PathBuf, io::Error),
    /// No case has what some must have.
    Lacks(&'static str),
}

impl Stop {
    /// The same, and a difference names the case.
    pub fn of_case(self, name: &str) -> Stop {
        match self {
            Stop::Differs(difference) => {
                let kind = format!("{}: {name}", difference.kind);
                Stop::Differs(Difference { kind, ..difference })
            }
            other => other,
        }
    }
}

pub type Judged = Result<(), Stop>;

/// What is expected of a sheet: a refusal, or the answers of its network by the rules in force and by those before.
pub type Expected = Result<Answers, Refusal>;

/// An accepted sheet, what it holds, and the answers of its network.
pub struct Read<'a> {
    pub sheet: &'a [u8],
    pub contents: &'a Contents,
    pub answers: &'a Answers,
}

/// Which way a sheet goes: to the entries, or to both programs too.
#[derive(Clone, Copy)]
pub enum Through {
    Entries,
    All,
}

/// The report program, and the cable crew's.
pub struct Programs {
    pub report: PathBuf,
    pub trunks: PathBuf,
}

/// What was judged of one kind.
#[derive(Default)]
pub struct Row {
    pub kind: String,
    /// Calls of each entry, and runs of each program.
    pub wcut_report: u64,
    pub wcut_list: u64,
    pub wcut_corners: u64,
    pub wcut_thickness: u64,
    pub wcut_pairs: u64,
    pub report: u64,
    pub trunks: u64,
    /// Cases by their expected outcome.
    pub accepted: u64,
    pub refused: u64,
}

impl Row {
    pub fn calls_and_runs(&self) -> u64 {
        let calls = [self.wcut_report, self.wcut_list, self.wcut_corners, self.wcut_thickness, self.wcut_pairs];
        calls.iter().sum::<u64>() + self.report + self.trunks
    }
}

/// How many of the accepted cases have which answer.
#[derive(Default)]
pub struct Accepted {
    pub whole: u64,
    pub floor_zero: u64,
    pub pair: u64,
    pub later_tree: u64,
    /// With a weight, and with a floor, of more than four bytes.
    pub wide_weight: u64,
    pub wide_floor: u64,
}

/// How many accepted sheets have fewer trees that count than listed ones, by the tree that ends the run.
#[derive(Default)]
pub struct Runs {
    /// Alone or the first of several.
    pub first: u64,
    pub middle: u64,
    pub last: u64,
}

impl Runs {
    fn count(&mut self, network: &Network) {
        let (counted, listed) = (cuts::longest_run(network), network.trees.len());
        if counted == listed {
            return;
        }
        match counted {
            0 => self.first += 1,
            _ if counted + 1 == listed => self.last += 1,
            _ => self.middle += 1,
        }
    }
}

/// How many sheets have bit 3 in the map of a link record that a reader comes to.
#[derive(Default)]
pub struct Trunked {
    pub sheets: u64,
    pub accepted: u64,
    /// With a trunk number that is cut off.
    pub cut_off: u64,
    /// With a weight before it that document 01's format refuses.
    pub raised: u64,
}

impl Trunked {
    fn count(&mut self, seen: &Seen, accepted: bool) {
        self.sheets += u64::from(seen.trunk);
        self.accepted += u64::from(seen.trunk && accepted);
        self.cut_off += u64::from(seen.cut_off);
        self.raised += u64::from(seen.trunk && seen.raised);
    }
}

/// How many accepted cases have another answer than by the rules of units already sold.
#[derive(Default)]
pub struct Before {
    /// Another floor, and another verdict, by their rule for the trees that count.
    pub floor: u64,
    pub verdict: u64,
    /// Another candidate by their order, of the same tree and of another.
    pub same_tree: u64,
    pub other_tree: u64,
}

impl Before {
    fn count(&mut self, answers: &Answers) {
        let Answers { current, listed, base, .. } = answers;
        self.floor += u64::from(listed.floor != base.floor);
        self.verdict += u64::from(listed.verdict != base.verdict);
        let same_tree = current.candidate.tree == listed.candidate.tree;
        self.same_tree += u64::from(same_tree && current.candidate != listed.candidate);
        self.other_tree += u64::from(!same_tree);
    }
}

pub struct Judge {
    programs: Programs,
    /// For the lengths and patterns of areas, and for which sheets go through the programs too.
    random: Random,
    /// For side maps and what is lent with them: calls of the entry of the corners leave all others as they are.
    map_random: Random,
    /// For questions of how thick a link must be, and for those for the pairs of a tree, in the same way.
    question_random: Random,
    pair_random: Random,
    pub rows: Vec<Row>,
    current_row: usize,
    pub accepted: Accepted,
    pub runs: Runs,
    /// How many cases were refused by each number.
    pub refusals: [u64; LAST_REFUSAL + 1],
    /// How many networks were reckoned by every side too.
    pub by_every_side: u64,
    /// How many networks were written in a longer sheet than the shortest.
    pub longer: u64,
    /// How many sheets units already sold read the same.
    pub as_sold: u64,
    pub trunked: Trunked,
    pub before: Before,
    pub lists: Lists,
    pub completeness: Completeness,
    pub corners: Corners,
    pub thickness: Thickness,
    pub pairs: Pairs,
}

impl Judge {
    pub fn new(programs: Programs, seed: u64) -> Judge {
        Judge {
            programs,
            random: Random::new(!seed),
            map_random: Random::new(seed.rotate_left(32)),
            question_random: Random::new(!seed.rotate_left(32)),
            pair_random: Random::new(seed.rotate_left(16)),
            rows: vec![Row::default()],
            current_row: 0,
            accepted: Accepted::default(),
            runs: Runs::default(),
            refusals: [0; LAST_REFUSAL + 1],
            by_every_side: 0,
            longer: 0,
            as_sold: 0,
            trunked: Trunked::default(),
            before: Before::default(),
            lists: Lists::default(),
            completeness: Completeness::default(),
            corners: Corners::default(),
            thickness: Thickness::default(),
            pairs: Pairs::default(),
        }
    }

    /// The sheets that follow are of this kind.
    pub fn kind(&mut self, kind: &str) {
        let known = self.rows.iter().position(|row| row.kind == kind);
        self.current_row = known.unwrap_or(self.rows.len());
        if known.is_none() {
            self.rows.push(Row { kind: kind.to_string(), ..Row::default() });
        }
    }

    fn row(&mut self) -> &mut Row {
        &mut self.rows[self.current_row]
    }

    /// How many sheets were judged; the same sheet with other areas or pauses is another case.
    pub fn cases(&self) -> u64 {
        self.rows.iter().map(|row| row.accepted + row.refused).sum()
    }

    /// How many calls of the entries and runs of the programs were judged.
    pub fn calls_and_runs(&self) -> u64 {
        self.rows.iter().map(Row::calls_and_runs).sum()
    }

    /// Sheets with bit 3, lists, corners, figures and pairs of every kind that is counted, and answers that the order alters, have to be
    /// among the cases.
    pub fn saw_all(&self) -> Judged {
        let Trunked { sheets, accepted, cut_off, raised } = self.trunked;
        let Lists { several, of_several_trees, many, short, short_and_refused, .. } = self.lists;
        let counts = [
            (self.before.same_tree, "a side of the same tree that is first by fewer nodes"),
            (self.before.other_tree, "a side of another tree that is first by fewer nodes"),
            (accepted, "a trunk number in an accepted sheet"),
            (cut_off, "a trunk number that is cut off"),
            (sheets - raised, "a trunk number that units already sold refuse with 8"),
            (raised, "a trunk number behind a weight that units already sold refuse with 11"),
            (several, "a list of several sides"),
            (of_several_trees, "a list with sides that several trees show"),
            (many, "a list of very many sides"),
            (short, "an area that is too short for a list"),
            (short_and_refused, "a refused sheet with an area that is too short for any list"),
        ];
        let needed = counts.into_iter().chain(self.completeness.needed()).chain(self.corners.needed());
        let needed = needed.chain(self.thickness.counts()).chain(self.pairs.counts());
        match needed.into_iter().find(|(count, _)| *count == 0) {
            None => Ok(()),
            Some((_, lacking)) => Err(Stop::Lacks(lacking)),
        }
    }

    /// Through all once in so many times, else through the entries only.
    pub fn all_once_in(&mut self, times: usize) -> Through {
        if self.random.once_in(times) {
            Through::All
        } else {
            Through::Entries
        }
    }

    /// The sheet's answer is the reference's.
    pub fn sheet(&mut self, sheet: &[u8], through: Through) -> Judged {
        let readings = Readings::of(sheet);
        let answers = readings.current.as_ref().map(|contents| Answers::of(&contents.network));
        self.judged(sheet, &answers.map_err(|refusal| *refusal), &readings, through)
    }

    /// The sheet's answer is the expected one, and a refusal is the reference's too.
    pub fn expect(&mut self, sheet: &[u8], expected: &Expected, through: Through) -> Judged {
        self.judged(sheet, expected, &Readings::of(sheet), through)
    }

    fn judged(&mut self, sheet: &[u8], expected: &Expected, readings: &Readings, through: Through) -> Judged {
        let outcome = expected.as_ref().map(|answers| answers.current.clone()).map_err(|refusal| *refusal);
        self.count(&outcome);
        self.reads_as_before(sheet, &outcome, readings)?;
        if let (Ok(answers), Ok(contents)) = (expected, &readings.current) {
            self.runs.count(&contents.network);
            self.keeps_of_sold(sheet, &contents.network, answers)?;
        }
        let side_length = self.random.between(SIDE_BYTES, LONGEST_AREA);
        let report_length = self.random.between(REPORT_BYTES, LONGEST_AREA);
        self.through_report(sheet, &outcome, side_length, report_length)?;
        self.through_list(sheet, list::listed(expected))?;
        self.through_corners(sheet, expected, &readings.current)?;
        match (expected, &readings.current) {
            (Ok(answers), Ok(contents)) => self.any_questions(&Read { sheet, contents, answers })?,
            (Err(refusal), _) | (_, Err(refusal)) => self.any_refused_questions(sheet, *refusal)?,
        }
        match through {
            Through::Entries => Ok(()),
            Through::All => self.through_programs(sheet, &outcome, &readings.current, &[]),
        }
    }

    /// What an accepted sheet is told of any of its links and trees is what is expected.
    fn any_questions(&mut self, read: &Read) -> Judged {
        self.any_thickness(read)?;
        self.any_pairs(read)
    }

    fn any_refused_questions(&mut self, sheet: &[u8], refusal: Refusal) -> Judged {
        self.any_refused_thickness(sheet, refusal)?;
        self.any_refused_pairs(sheet, refusal)
    }

    /// An expected refusal is the reference's, whose readings keep what they have to.
    fn reads_as_before(&mut self, sheet: &[u8], expected: &Outcome, readings: &Readings) -> Judged {
        let (expected, read) = (expected.as_ref().err(), readings.current.as_ref().err());
        if expected != read {
            return self.differs(sheet, format!("refusal {expected:?}\n"), format!("{read:?}, by the reference\n"));
        }
        match readings.check(sheet) {
            Ok(seen) => {
                self.as_sold += u64::from(seen.as_sold);
                self.trunked.count(&seen, readings.current.is_ok());
                Ok(())
            }
            Err(claim) => self.differs(sheet, format!("{claim}\n"), format!("{readings:?}\n")),
        }
    }

    /// The expected answer keeps what it has to of those by the rules of units already sold.
    fn keeps_of_sold(&mut self, sheet: &[u8], network: &Network, answers: &Answers) -> Judged {
        self.before.count(answers);
        let Answers { current, listed, base, .. } = answers;
        match answers.check(network) {
            Ok(()) => Ok(()),
            Err(claim) => self.differs(sheet, format!("{claim}: {base:?}, {listed:?}\n"), format!("{current:?}\n")),
        }
    }

    /// The sheet is sent to both programs with a pause at each of the offsets.
    pub fn with_pauses(&mut self, sheet: &[u8], pauses: &[usize]) -> Judged {
        let reading = sheet::read_contents(sheet);
        let expected = report::outcome_of(&reading);
        self.count(&expected);
        self.through_programs(sheet, &expected, &reading, pauses)
    }

    /// The entries are called with areas, of bytes or of numbers, and side maps of all lengths from 0 on.
    pub fn all_area_lengths(&mut self, sheet: &[u8]) -> Judged {
        let reading = sheet::read_contents(sheet);
        let expected = reading.as_ref().map(|contents| Answers::of(&contents.network)).map_err(|refusal| *refusal);
        let outcome = report::outcome_of(&reading);
        for side_length in 0..=LONGEST_AREA {
            for report_length in 0..=LONGEST_AREA {
                match area_refusal(side_length, report_length) {
                    Some(number) => self.count_refusal(number),
                    None => self.count(&outcome),
                }
                self.through_report(sheet, &outcome, side_length, report_length)?;
            }
        }
        self.list_of_every_length(sheet, list::listed(&expected))?;
        self.pairs_of_every_length(sheet, &expected, &reading)?;
        self.corners_of_every_length(sheet, &reading)
    }

    /// Counts a case by its expected outcome.
    fn count(&mut self, outcome: &Outcome) {
        match outcome {
            Err(refusal) => self.count_refusal(refusal.number),
            Ok(answer) => {
                self.row().accepted += 1;
                self.accepted.whole += u64::from(answer.verdict == cuts::WHOLE);
                self.accepted.floor_zero += u64::from(answer.floor == 0);
                self.accepted.pair += u64::from(answer.candidate.second.is_some());
                self.accepted.later_tree += u64::from(answer.candidate.tree > 0);
                let wide = |number: u64| u64::from(number > u64::from(u32::MAX));
                self.accepted.wide_weight += wide(answer.candidate.weight);
                self.accepted.wide_floor += wide(answer.floor);
            }
        }
    }

    fn count_refusal(&mut self, number: u32) {
        self.row().refused += 1;
        self.refusals[number as usize] += 1;
    }

    fn through_report(&mut self, sheet: &[u8], outcome: &Outcome, side_length: usize, report_length: usize) -> Judged {
        let mut side = Lent::area(side_length, &mut self.random);
        let mut report = Lent::area(report_length, &mut self.random);
        let (mut expected_side, mut expected_report) = (side.clone(), report.clone());
        let expected_number = match (area_refusal(side_length, report_length), outcome) {
            (Some(number), _) => number,
            (None, Err(refusal)) => refusal.number,
            (None, Ok(answer)) => {
                expected_side = side.with_start(&report::side_area(answer));
                expected_report = report.with_start(&report::report_area(answer));
                0
            }
        };
        let mut lent_sheet = Lent::holding(sheet, &mut self.random);
        let kept_sheet = lent_sheet.clone();
        let number = entry::report(&mut lent_sheet, &mut side, &mut report);
        self.row().wcut_report += 1;
        let areas_agree = side == expected_side && report == expected_report;
        if number == expected_number && areas_agree && lent_sheet == kept_sheet {
            return Ok(());
        }
        let expected = show_call(expected_number, &expected_side, &expected_report);
        let got = show_call(number, &side, &report);
        self.differs(sheet, expected, got + &show_changed(&lent_sheet, &kept_sheet))
    }

    /// Both programs run at the same time.
    fn through_programs(&mut self, sheet: &[u8], outcome: &Outcome, reading: &Reading, pauses: &[usize]) -> Judged {
        self.row().report += 1;
        self.row().trunks += 1;
        let Programs { report, trunks } = &self.programs;
        thread::scope(|scope| {
            let trunks = scope.spawn(|| self.through_program(trunks, sheet, pauses, report::trunk_lines(reading)));
            let judged = self.through_program(report, sheet, pauses, report::lines(outcome));
            judged.and(trunks.join().expect("judging a run does not panic"))
        })
    }

    fn through_program(&self, program: &Path, sheet: &[u8], pauses: &[usize], lines: String) -> Judged {
        let run =
            program::run(program, sheet, pauses).map_err(|error| Stop::CannotRun(program.to_path_buf(), error))?;
        let expected = Run::of_lines(lines);
        match run == expected {
            true => Ok(()),
            false => self.differs(sheet, expected.show(), format!("{}by {}\n", run.show(), program.display())),
        }
    }

    /// Ends the comparison: the sheet has another answer than the expected one.
    pub fn differs(&self, sheet: &[u8], expected: String, got: String) -> Judged {
        Err(self.difference(sheet, expected, got))
    }

    fn difference(&self, sheet: &[u8], expected: String, got: String) -> Stop {
        let kind = self.rows[self.current_row].kind.clone();
        Stop::Differs(Difference { kind, sheet: sheet.to_vec(), expected, got })
    }
}

/// Refusals 1 and 2, which stand before all others.
fn area_refusal(side_length: usize, report_length: usize) -> Option<u32> {
    if side_length < SIDE_BYTES {
        Some(1)
    } else if report_length < REPORT_BYTES {
        Some(2)
    } else {
        None
    }
}

fn show_call(number: u32, side: &Lent, report: &Lent) -> String {
    let (side, report) = (side.show(), report.show());
    format!("number {number}\nside area {side}\nreport area {report}\n")
}

/// What a lent sheet was changed to, if it was.
fn show_changed(lent_sheet: &Lent, kept_sheet: &Lent) -> String {
    match lent_sheet == kept_sheet {
        true => String::new(),
        false => format!("sheet changed to {}\n", lent_sheet.show()),
    }
}
