//! Calls of an entry with a sheet and one area.

use reference::random::Random;

use super::{show_changed, Judge, Judged};
use crate::lent::{Item, Lent};

/// A sheet and an area that are lent to a call, and what it has to return and to leave.
pub struct Call<T> {
    sheet: Lent,
    area: Lent<T>,
    number: u32,
    expected: Lent<T>,
}

impl<T: Item> Call<T> {
    /// A call with an area of that length. It has to return the number and to leave the items at the area's front, and the rest as it was.
    pub fn new(random: &mut Random, sheet: &[u8], length: usize, number: u32, written: &[T]) -> Call<T> {
        let area = Lent::area(length, random);
        Call { sheet: Lent::holding(sheet, random), expected: area.with_start(written), area, number }
    }
}

impl Judge {
    /// The call returns and leaves what it has to, and does not change the sheet. Otherwise it is shown with what else it was given.
    pub fn called<T: Item>(
        &self,
        sheet: &[u8],
        call: Call<T>,
        entry: impl FnOnce(&mut Lent, &mut Lent<T>) -> u32,
        given: impl FnOnce() -> String,
    ) -> Judged {
        let Call { sheet: mut lent_sheet, mut area, number: expected_number, expected } = call;
        let kept_sheet = lent_sheet.clone();
        let number = entry(&mut lent_sheet, &mut area);
        let parts_from = area.parts_from(&expected);
        if number == expected_number && parts_from.is_none() && lent_sheet == kept_sheet {
            return Ok(());
        }
        let given = given();
        let expected = given.clone() + &show_call(expected_number, &expected, parts_from);
        let got = given + &show_call(number, &area, parts_from);
        self.differs(sheet, expected, got + &show_changed(&lent_sheet, &kept_sheet))
    }
}

/// The number, and the area from where it is not the expected one.
fn show_call<T: Item>(number: u32, area: &Lent<T>, parts_from: Option<isize>) -> String {
    match parts_from {
        None => format!("number {number}\n"),
        Some(place) => format!("number {number}\narea from place {place} on {}\n", area.show_from(place)),
    }
}
