//! Inputs of both programs: longer than they read, and sent in pieces.

use reference::documented::CASE_A;
use reference::faults::{self, Base};
use reference::random::Random;
use reference::report;
use reference::sheet::{HEADER_BYTES, LONGEST_SHEET};

use crate::judge::{Judge, Judged, Through};
use crate::program::MOST_INPUT;
use crate::sheets;

/// Inputs one byte longer than a sheet, about as long as the programs read, and much longer.
const LENGTHS: [usize; 5] = [LONGEST_SHEET + 1, MOST_INPUT - 1, MOST_INPUT, MOST_INPUT + 1, 100_000];

/// Inputs that are longer than any sheet. The bytes that the programs do not read must not matter.
pub fn long_inputs(judge: &mut Judge, random: &mut Random) -> Judged {
    judge.kind("long inputs");
    let longest = sheets::longest_sheet(random, 3);
    judge.sheet(&longest.sheet, Through::All)?;
    for start in starts(random, &longest) {
        for length in LENGTHS {
            let mut input = start.clone();
            input.extend(random.bytes(length - start.len()));
            long_input(judge, &input)?;
            input[start.len()..].fill(0);
            long_input(judge, &input)?;
        }
    }
    for more in 1..=4 {
        let behind = random.bytes(more);
        judge.sheet(&[&longest.sheet[..], &behind].concat(), Through::All)?;
    }
    Ok(())
}

/// What the long inputs start with: nothing, accepted sheets, sheets with a fault that no later byte alters, and sheets with
/// one byte changed.
fn starts(random: &mut Random, longest: &Base) -> Vec<Vec<u8>> {
    let mut starts = vec![Vec::new(), CASE_A.to_vec(), longest.sheet.clone()];
    let small = faults::bases().remove(4);
    let faults = faults::singles(&small);
    for number in [4, 5, 6, 8, 10, 13, 14, 15] {
        let found = faults.iter().find(|fault| fault.refusal.number == number);
        starts.extend(found.map(|fault| faults::damaged(&small, &[fault])));
    }
    starts.extend(faults::bases().pop().map(|with_trunks| with_trunks.sheet));
    for _ in 0..10 {
        starts.push(sheets::changed(random, &longest.sheet));
    }
    let mut wrong_last_tree = longest.sheet.clone();
    wrong_last_tree[LONGEST_SHEET - 1] ^= 1;
    starts.push(wrong_last_tree);
    starts
}

fn long_input(judge: &mut Judge, input: &[u8]) -> Judged {
    let whole = report::outcome(input);
    let read = report::outcome(&input[..input.len().min(MOST_INPUT)]);
    if whole != read {
        return judge.differs(input, report::lines(&whole), report::lines(&read));
    }
    judge.sheet(input, Through::All)
}

/// Inputs sent in pieces with pauses, so that the programs' reads come short.
pub fn short_reads(judge: &mut Judge, random: &mut Random) -> Judged {
    judge.kind("inputs in pieces");
    for pause in 0..=CASE_A.len() {
        judge.with_pauses(&CASE_A, &[pause])?;
    }
    judge.with_pauses(&CASE_A, &(0..CASE_A.len()).collect::<Vec<_>>())?;
    for base in faults::bases() {
        judge.with_pauses(&base.sheet, &base.record_starts())?;
    }
    let longest = sheets::longest_sheet(random, 3).sheet;
    let mut longer = longest.clone();
    longer.extend(random.bytes(2 * MOST_INPUT));
    for input in [&longest, &longer] {
        for piece in [512, 4096, 8192, 8193, 16_384] {
            judge.with_pauses(input, &(piece..input.len()).step_by(piece).collect::<Vec<_>>())?;
        }
        judge.with_pauses(input, &[HEADER_BYTES, LONGEST_SHEET - 1, LONGEST_SHEET])?;
        for boundary in [LONGEST_SHEET, MOST_INPUT - 1, MOST_INPUT, MOST_INPUT + 1, 2 * MOST_INPUT] {
            judge.with_pauses(input, &[boundary])?;
        }
        for _ in 0..10 {
            let mut pauses: Vec<usize> = (0..6).map(|_| random.below(input.len())).collect();
            pauses.sort_unstable();
            judge.with_pauses(input, &pauses)?;
        }
    }
    Ok(())
}
