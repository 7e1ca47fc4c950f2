//! Holds what the entry of the list answers against what is expected, with areas of many lengths, and counts.

use reference::list::List;
use reference::report::SIDE_BYTES;

use super::{show_changed, Expected, Judge, Judged};
use crate::entry;
use crate::lent::Lent;

/// The refusal of an area that cannot hold every side of the list.
const SHORT_LIST: u32 = 19;
/// How many bytes less and more than a list needs are tried: a side and a byte.
const AROUND: usize = SIDE_BYTES + 1;
const MUCH_LONGER: usize = 5000;
/// Once in so many sheets all lengths around the need are tried, if the list has at most so many sides. A longer list is tried with a
/// byte less and a byte more.
const EVERY_LENGTH_ONCE_IN: usize = 25;
const MOST_OF_EVERY_LENGTH: usize = 100;
/// A list of so many sides has very many.
const MANY: usize = 200_000;

/// What is expected of a sheet's list: the list, or the number of the sheet's refusal.
pub type Listed<'a> = Result<&'a List, u32>;

pub fn listed(expected: &Expected) -> Listed<'_> {
    expected.as_ref().map(|answers| &answers.list).map_err(|refusal| refusal.number)
}

/// How many calls of the entry of the list wrote which list, or were refused.
#[derive(Default)]
pub struct Lists {
    pub written: u64,
    /// With more sides than one, with sides that several trees show, and with very many.
    pub several: u64,
    pub of_several_trees: u64,
    pub many: u64,
    /// All sides written, and those of the longest list.
    pub sides: u64,
    pub longest: usize,
    /// The area was too short: of a sound sheet, and of a refused one too short for any list.
    pub short: u64,
    pub short_and_refused: u64,
}

impl Lists {
    fn count(&mut self, listed: Listed, area_length: usize) {
        match listed {
            Err(_) => self.short_and_refused += u64::from(area_length < SIDE_BYTES),
            Ok(list) if is_short(list, area_length) => self.short += 1,
            Ok(List { sides, candidates }) => {
                self.written += 1;
                self.several += u64::from(sides.len() > 1);
                self.of_several_trees += u64::from(*candidates > sides.len());
                self.many += u64::from(sides.len() >= MANY);
                self.sides += sides.len() as u64;
                self.longest = self.longest.max(sides.len());
            }
        }
    }
}

/// Whether an area of that length cannot hold every side of the list.
fn is_short(list: &List, area_length: usize) -> bool {
    area_length / SIDE_BYTES < list.sides.len()
}

impl Judge {
    /// The list is the expected one, with an area of exactly its length, and for some sheets with areas of other lengths. A refused
    /// sheet gets an area of any length.
    pub fn through_list(&mut self, sheet: &[u8], listed: Listed) -> Judged {
        let Ok(list) = listed else {
            let length = self.random.below(2 * AROUND);
            return self.list_of_length(sheet, listed, length);
        };
        let need = SIDE_BYTES * list.sides.len();
        self.list_of_length(sheet, listed, need)?;
        if list.sides.len() > MOST_OF_EVERY_LENGTH {
            self.list_of_length(sheet, listed, need - 1)?;
            self.list_of_length(sheet, listed, need + 1)
        } else if self.random.once_in(EVERY_LENGTH_ONCE_IN) {
            self.list_of_every_length(sheet, listed)
        } else {
            Ok(())
        }
    }

    /// The same with areas of all lengths around that of the list, of no byte, and much longer.
    pub fn list_of_every_length(&mut self, sheet: &[u8], listed: Listed) -> Judged {
        let need = listed.map_or(SIDE_BYTES, |list| SIDE_BYTES * list.sides.len());
        let around = need.saturating_sub(AROUND)..=need + AROUND;
        let much_longer = need + MUCH_LONGER + self.random.below(SIDE_BYTES);
        for length in around.chain([0, much_longer]) {
            self.list_of_length(sheet, listed, length)?;
        }
        Ok(())
    }

    fn list_of_length(&mut self, sheet: &[u8], listed: Listed, length: usize) -> Judged {
        self.lists.count(listed, length);
        let mut sides = Lent::area(length, &mut self.random);
        let mut count = Lent::area(1, &mut self.random);
        let (expected_number, expected_count, expected_sides) = match listed {
            Err(number) => (number, 0, sides.clone()),
            Ok(list) if is_short(list, length) => (SHORT_LIST, 0, sides.clone()),
            Ok(List { sides: list, .. }) => (0, list.len() as u32, sides.with_start(&list.concat())),
        };
        let expected_count = count.with_start(&[expected_count]);
        let mut lent_sheet = Lent::holding(sheet, &mut self.random);
        let kept_sheet = lent_sheet.clone();
        let number = entry::list(&mut lent_sheet, &mut sides, &mut count);
        self.row().wcut_list += 1;
        let parts_from = sides.parts_from(&expected_sides);
        if number == expected_number && count == expected_count && parts_from.is_none() && lent_sheet == kept_sheet {
            return Ok(());
        }
        let expected = show_call(length, expected_number, &expected_count, &expected_sides, parts_from);
        let got = show_call(length, number, &count, &sides, parts_from);
        self.differs(sheet, expected, got + &show_changed(&lent_sheet, &kept_sheet))
    }
}

/// Number and count, and the area's bytes from where they are not the expected ones.
fn show_call(length: usize, number: u32, count: &Lent<u32>, sides: &Lent, parts_from: Option<isize>) -> String {
    let call = format!("list in an area of {length} bytes: number {number}, count {}\n", count.show());
    match parts_from {
        None => call,
        Some(place) => format!("{call}area from byte {place} on {}\n", sides.show_from(place)),
    }
}
