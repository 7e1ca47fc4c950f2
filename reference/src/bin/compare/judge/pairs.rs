//! Holds what the entry of the pairs answers against what is expected, and counts.

mod counts;

pub use counts::Pairs;

use reference::generate::pairs as questions;
use reference::pairs::{self, Question, Told};
use reference::sheet::{self, Reading, Refusal};

use super::call::Call;
use super::corners::node_count;
use super::{Expected, Judge, Judged, Read, LONGEST_AREA};
use crate::entry;

/// How many questions there are for each accepted sheet, beside one for its last tree.
const QUESTIONS: usize = 2;
/// In networks of so many nodes the weights are reckoned by paths too.
const MOST_BY_PATHS: usize = 40;

impl Judge {
    /// What an accepted sheet is told for any trees and areas is what is expected, and for its last tree.
    pub fn any_pairs(&mut self, read: &Read) -> Judged {
        let network = &read.contents.network;
        for _ in 0..QUESTIONS {
            let question = questions::any(&mut self.pair_random, network);
            self.pairs_of(read, question)?;
        }
        self.pairs_of(read, questions::last(network))
    }

    /// A refused sheet is told its refusal for any tree and area.
    pub fn any_refused_pairs(&mut self, sheet: &[u8], refusal: Refusal) -> Judged {
        let (nodes, trees) = (node_count(sheet), sheet::tree_count(sheet));
        let question = questions::of_refused(&mut self.pair_random, nodes, trees);
        self.refused_pairs(sheet, refusal, question)
    }

    /// The same with areas of all lengths from 0 on, for the trees of a sheet and the first one outside.
    pub fn pairs_of_every_length(&mut self, sheet: &[u8], expected: &Expected, reading: &Reading) -> Judged {
        let trees = sheet::tree_count(sheet) as u32;
        for question in (0..=trees).flat_map(|tree| (0..=LONGEST_AREA).map(move |room| Question { tree, room })) {
            match (expected, reading) {
                (Ok(answers), Ok(contents)) => self.pairs_of(&Read { sheet, contents, answers }, question)?,
                (Err(refusal), _) | (_, Err(refusal)) => self.refused_pairs(sheet, *refusal, question)?,
            }
        }
        Ok(())
    }

    /// A refused sheet is told its refusal, whatever is asked.
    pub fn refused_pairs(&mut self, sheet: &[u8], refusal: Refusal, question: Question) -> Judged {
        self.pairs.count_refused(sheet, refusal, question);
        self.call_pairs(sheet, question, Err(refusal.number))
    }

    /// What an accepted sheet is told is what is expected.
    pub fn pairs_of(&mut self, read: &Read, question: Question) -> Judged {
        let told = read.answers.pairs.told(question);
        self.pairs.count(read, question, told);
        if read.contents.network.nodes <= MOST_BY_PATHS {
            self.pairs_by_paths(read, question)?;
        }
        self.call_pairs(read.sheet, question, told)
    }

    /// What is expected keeps what it has to, with the weights reckoned by paths.
    pub fn pairs_by_paths(&mut self, read: &Read, question: Question) -> Judged {
        let network = &read.contents.network;
        let told = read.answers.pairs.told(question);
        self.pairs.count_by_paths(network, told);
        match pairs::check(network, question, told) {
            Ok(()) => Ok(()),
            Err(claim) => self.differs(read.sheet, format!("{claim}\n"), format!("{question:?}\n{told:?}\n")),
        }
    }

    fn call_pairs(&mut self, sheet: &[u8], question: Question, told: Told) -> Judged {
        let (number, written) = match told {
            Ok(weights) => (0, weights),
            Err(number) => (number, &[][..]),
        };
        let call = Call::new(&mut self.pair_random, sheet, question.room, number, written);
        self.row().wcut_pairs += 1;
        let given = || format!("pairs, {question:?}\n");
        self.called(sheet, call, |sheet, weights| entry::pairs(sheet, question.tree, weights), given)
    }
}
