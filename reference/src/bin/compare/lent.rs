//! Bytes and numbers that are lent to the C entries, between canaries.

use reference::random::Random;

const CANARIES_BEFORE: usize = 16;
const CANARIES_BEHIND: usize = 32;
/// How many bytes or numbers of a long area are shown.
const SHOWN: usize = 64;

/// A byte or a number, many of which are lent together.
pub trait Item: Copy + PartialEq {
    fn any(random: &mut Random) -> Self;
    fn show(self) -> String;
}

impl Item for u8 {
    fn any(random: &mut Random) -> u8 {
        random.byte()
    }

    fn show(self) -> String {
        format!("{self:02x}")
    }
}

impl Item for u32 {
    fn any(random: &mut Random) -> u32 {
        random.number() as u32
    }

    fn show(self) -> String {
        self.to_string()
    }
}

impl Item for u64 {
    fn any(random: &mut Random) -> u64 {
        random.number()
    }

    fn show(self) -> String {
        self.to_string()
    }
}

/// Lent bytes or numbers, with canaries before and behind them.
#[derive(Clone, PartialEq, Eq)]
pub struct Lent<T = u8> {
    items: Vec<T>,
    length: usize,
}

impl<T: Item> Lent<T> {
    /// An area filled with a pattern that is another one each time.
    pub fn area(length: usize, random: &mut Random) -> Lent<T> {
        Lent { items: any_items(CANARIES_BEFORE + length + CANARIES_BEHIND, random), length }
    }

    /// A sheet or a side map.
    pub fn holding(items: &[T], random: &mut Random) -> Lent<T> {
        let before = any_items(CANARIES_BEFORE, random);
        let behind = any_items(CANARIES_BEHIND, random);
        Lent { items: [&before, items, &behind].concat(), length: items.len() }
    }

    /// The same with its first items replaced.
    pub fn with_start(&self, start: &[T]) -> Lent<T> {
        let mut lent = self.clone();
        lent.lent()[..start.len()].copy_from_slice(start);
        lent
    }

    pub fn lent(&mut self) -> &mut [T] {
        &mut self.items[CANARIES_BEFORE..CANARIES_BEFORE + self.length]
    }

    /// Where two areas of one length part: from the area's start, or in the canaries before it.
    pub fn parts_from(&self, other: &Lent<T>) -> Option<isize> {
        let place = self.items.iter().zip(&other.items).position(|(one, other)| one != other)?;
        Some(place as isize - CANARIES_BEFORE as isize)
    }

    /// Some items from that place on.
    pub fn show_from(&self, place: isize) -> String {
        let from = (place + CANARIES_BEFORE as isize) as usize;
        show(&self.items[from..self.items.len().min(from + SHOWN)])
    }

    /// The items between their canaries.
    pub fn show(&self) -> String {
        let (before, rest) = self.items.split_at(CANARIES_BEFORE);
        let (area, behind) = rest.split_at(self.length);
        format!("[{}] {} [{}]", show(before), show(area), show(behind))
    }
}

fn any_items<T: Item>(count: usize, random: &mut Random) -> Vec<T> {
    (0..count).map(|_| T::any(random)).collect()
}

/// Bytes in hexadecimal, or numbers in decimal.
pub fn show<T: Item>(items: &[T]) -> String {
    let items: Vec<String> = items.iter().map(|item| item.show()).collect();
    items.join(" ")
}
