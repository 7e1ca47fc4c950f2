//! How the format in force stands to those before it: what request F-9 says of sheets with trunk numbers and of those without.

use crate::claims::{self, Claim};
use crate::network::Network;
use crate::sheet::{self, Place, Reading, Refusal, BASE, HEADER_BYTES, LINK_FIELDS, TRUNK_BIT, TRUNK_BYTES, WIDE};

/// What a map byte is refused by, a trunk number that is cut off, and a weight above document 01's greatest.
const WRONG_MAP: u32 = 8;
const CUT_OFF: u32 = 9;
const RAISED: u32 = 11;

/// A link record as it stands in a sheet, sound or not. The sheet may end inside it.
struct Record<'a> {
    map: u8,
    /// The fields that make the link, and behind them the trunk number.
    link: &'a [u8],
    trunk: &'a [u8],
}

impl<'a> Record<'a> {
    /// The record at the front of the bytes, and the bytes behind it.
    fn first(bytes: &'a [u8]) -> Option<(Record<'a>, &'a [u8])> {
        let (&map, fields) = bytes.split_first()?;
        let (link, rest) = split(fields, sheet::field_bytes(map & LINK_FIELDS));
        let (trunk, behind) = split(rest, sheet::field_bytes(map & TRUNK_BIT));
        Some((Record { map, link, trunk }, behind))
    }

    fn has_trunk(&self) -> bool {
        self.map & TRUNK_BIT != 0
    }

    /// Whether the sheet ends before the trunk number's last byte, and not before.
    fn is_cut_off(&self) -> bool {
        let whole_link = self.link.len() == sheet::field_bytes(self.map & LINK_FIELDS);
        self.has_trunk() && whole_link && self.trunk.len() < TRUNK_BYTES
    }
}

/// So many bytes, or as many as there are, and the rest.
fn split(bytes: &[u8], length: usize) -> (&[u8], &[u8]) {
    bytes.split_at(length.min(bytes.len()))
}

/// The bytes of a sheet, sound or not: the link records are as many as the header says, or as there are.
struct Parts<'a> {
    header: &'a [u8],
    links: Vec<Record<'a>>,
    behind: &'a [u8],
}

fn parts(sheet: &[u8]) -> Parts<'_> {
    let (header, mut behind) = split(sheet, HEADER_BYTES);
    let count = sheet::link_count(header);
    let mut links = Vec::new();
    while links.len() < count {
        let Some((record, rest)) = Record::first(behind) else { break };
        links.push(record);
        behind = rest;
    }
    Parts { header, links, behind }
}

/// The sheet with bit 3 taken out of the map bytes of its link records, and their trunk numbers. All other bytes stay, of any sheet.
pub fn plain(sheet: &[u8]) -> Vec<u8> {
    let Parts { header, links, behind } = parts(sheet);
    let mut plain = header.to_vec();
    for record in links {
        plain.push(record.map & !TRUNK_BIT);
        plain.extend(record.link);
    }
    plain.extend(behind);
    plain
}

/// What a sheet reads as in the format in force and in those before.
#[derive(Debug)]
pub struct Readings {
    pub current: Reading,
    wide: Reading,
    base: Reading,
    /// Of the sheet without trunk numbers, if that is another.
    plain: Option<Plain>,
}

/// What a sheet without trunk numbers reads as in the format in force and in the one before.
#[derive(Debug)]
struct Plain {
    current: Reading,
    wide: Reading,
}

/// What was seen of a sheet.
#[derive(Clone, Copy, Debug, PartialEq, Eq)]
pub struct Seen {
    /// A reader comes to a link record with bit 3, and to a trunk number that is cut off.
    pub trunk: bool,
    pub cut_off: bool,
    /// Document 01's format reads it as it is read now, or refuses a weight with 11 first.
    pub as_sold: bool,
    pub raised: bool,
}

impl Readings {
    pub fn of(sheet: &[u8]) -> Readings {
        let plain = Some(plain(sheet)).filter(|plain| plain != sheet);
        Readings {
            current: sheet::read_contents(sheet),
            wide: sheet::read_in(&WIDE, sheet),
            base: sheet::read_in(&BASE, sheet),
            plain: plain
                .map(|plain| Plain { current: sheet::read_contents(&plain), wide: sheet::read_in(&WIDE, &plain) }),
        }
    }

    /// What the requests keep of a sheet's readings; the error names a claim that does not hold.
    pub fn check(&self, sheet: &[u8]) -> Result<Seen, String> {
        let links = parts(sheet).links;
        let trunk = self.comes_to(links.iter().position(Record::has_trunk), WRONG_MAP);
        let cut_off = self.comes_to(links.iter().position(Record::is_cut_off), CUT_OFF);
        let of_plain = self.plain.iter().flat_map(|plain| self.without_trunks(plain, cut_off));
        claims::check(self.formats_before(trunk).into_iter().chain(of_plain))?;
        Ok(Seen {
            trunk: trunk.is_some(),
            cut_off: cut_off.is_some(),
            as_sold: self.base == self.current,
            raised: self.raised(),
        })
    }

    /// The refusal by that number at a link, if no check before it refuses the sheet.
    fn comes_to(&self, link: Option<usize>, number: u32) -> Option<Refusal> {
        let refusal = Refusal { place: Place::Link(link?), number };
        let refused_before = self.current.as_ref().is_err_and(|found| *found < refusal);
        (!refused_before).then_some(refusal)
    }

    /// Whether document 01's format refuses a weight before the next format refuses anything.
    fn raised(&self) -> bool {
        let first = |raised: &Refusal| self.wide.as_ref().err().is_none_or(|refusal| raised < refusal);
        self.base.as_ref().is_err_and(|refusal| refusal.number == RAISED && first(refusal))
    }

    /// How the formats before read the sheet: with the refusal of bit 3, if they come to one.
    fn formats_before(&self, trunk: Option<Refusal>) -> [Claim; 4] {
        let numbered = self.current.as_ref().is_ok_and(|contents| contents.trunks.iter().any(|&trunk| trunk != 0));
        let as_next = self.base == self.wide || self.raised();
        [
            (trunk.is_some() || self.wide == self.current, "a sheet without bit 3 reads as in the format before"),
            (trunk.is_some() || !numbered, "a sheet without bit 3 has trunk number 0 for each link"),
            (trunk.is_none_or(|refusal| self.wide == Err(refusal)), "the format before refuses bit 3 with 8"),
            (as_next, "document 01's format reads as the next, or refuses a weight with 11 first"),
        ]
    }

    /// How the sheet without trunk numbers reads; the refusal is that of one that is cut off.
    fn without_trunks(&self, plain: &Plain, cut_off: Option<Refusal>) -> [Claim; 4] {
        let other_number = plain.current.as_ref().is_err_and(|refusal| refusal.number != CUT_OFF);
        let same = network(&plain.current) == network(&self.current);
        [
            (cut_off.is_none_or(|refusal| self.current == Err(refusal)), "a trunk number cut off is refused with 9"),
            (cut_off.is_none() || other_number, "without a trunk number cut off another number refuses the sheet"),
            (cut_off.is_some() || same, "a sheet has the network or the refusal that it has without trunk numbers"),
            (plain.wide == plain.current, "a sheet without its trunk numbers reads as in the format before"),
        ]
    }
}

fn network(reading: &Reading) -> Result<&Network, &Refusal> {
    reading.as_ref().map(|contents| &contents.network)
}

#[cfg(test)]
mod tests {
    use super::*;
    use crate::documented::{self, CASE_A};
    use crate::faults;
    use crate::random::Random;
    use std::collections::BTreeSet;

    const HEADER: &[u8] = &[2, 0, 3, 0, 1];
    /// A link record with trunk number 263 and without it.
    const WITH: &[u8] = &[15, 0, 0, 1, 0, 4, 0, 0, 0, 7, 1];
    const WITHOUT: &[u8] = &[7, 0, 0, 1, 0, 4, 0, 0, 0];
    /// The record of a tree of link 0.
    const TREE: &[u8] = &[1, 0, 0, 0, 1];

    /// The sheet of these records has those without bit 3 and trunk numbers.
    #[track_caller]
    fn assert_plain(records: &[&[u8]], expected: &[&[u8]]) {
        let sheet = |records: &[&[u8]]| [HEADER, &records.concat()].concat();
        assert_eq!(plain(&sheet(records)), sheet(expected));
    }

    #[test]
    fn bit_and_trunk_number_are_taken_out_of_every_link_record() {
        assert_plain(&[WITH, &[0], &[8, 15, 8], TREE], &[WITHOUT, &[0], &[0], TREE]);
        let (first_end, second_end) = ([9, 1, 0, 2, 0], [14, 3, 0, 4, 0, 0, 0, 5, 0]);
        assert_plain(&[WITHOUT, &first_end, &second_end], &[WITHOUT, &[1, 1, 0], &[6, 3, 0, 4, 0, 0, 0]]);
        assert_plain(&[WITHOUT, &[24, 1, 0], &[255], &WITH[1..], TREE], &[WITHOUT, &[16], &[247], &WITHOUT[1..], TREE]);
        assert_eq!(plain(&CASE_A), CASE_A);
    }

    #[test]
    fn what_stands_behind_the_link_records_stays() {
        let behind: &[u8] = &[15, 8, 8, 7, 1];
        assert_plain(&[WITH, &[0], &[0], behind], &[WITHOUT, &[0], &[0], behind]);
    }

    #[test]
    fn sheets_that_end_in_a_record_keep_the_rest_of_it() {
        assert_plain(&[WITH, &[8, 7]], &[WITHOUT, &[0]]);
        assert_plain(&[WITH, &[8]], &[WITHOUT, &[0]]);
        assert_plain(&[&WITH[..7]], &[&WITHOUT[..7]]);
        assert_plain(&[], &[]);
        assert_eq!(plain(&[2, 0, 9, 0]), [2, 0, 9, 0]);
        assert_eq!(plain(&[]), []);
    }

    #[test]
    fn any_bytes_have_a_sheet_without_trunk_numbers() {
        let mut random = Random::new(9);
        for _ in 0..2000 {
            let mut bytes = vec![2, 0, random.below(12) as u8, 0, 1];
            bytes.extend(random.bytes(40).into_iter().map(|byte| byte & 31));
            bytes.truncate(random.below(46));
            let without = plain(&bytes);
            assert!(parts(&without).links.iter().all(|record| !record.has_trunk()));
            assert_eq!(plain(&without), without);
        }
    }

    fn seen(sheet: &[u8]) -> Seen {
        Readings::of(sheet).check(sheet).unwrap_or_else(|claim| panic!("{claim}: {sheet:?}"))
    }

    #[test]
    fn documented_sheets_keep_what_the_requests_say() {
        for case in documented::all() {
            seen(&case.sheet);
        }
        for case in documented::of_document_01() {
            assert!(!seen(&case.sheet).trunk, "{}", case.name);
        }
    }

    /// The numbers by which a sheet is refused in the format in force, in the one before and in document 01's.
    fn numbers(sheet: &[u8]) -> [Option<u32>; 3] {
        let Readings { current, wide, base, .. } = Readings::of(sheet);
        [current, wide, base].map(|reading| reading.err().map(|refusal| refusal.number))
    }

    #[test]
    fn units_already_sold_refuse_trunk_numbers_with_8() {
        for case in documented::with_trunks() {
            assert_eq!(numbers(&case.sheet)[1..], [Some(8), Some(8)], "{}", case.name);
        }
        let heavy: &[u8] = &[7, 0, 0, 1, 0, 0x41, 0x42, 0x0F, 0];
        let then_trunk = [HEADER, heavy, &[8, 5, 0], &[0], TREE].concat();
        assert_eq!(numbers(&then_trunk), [None, Some(8), Some(11)]);
        let in_trunk = [HEADER, WITHOUT, &[12, 0x41, 0x42, 0x0F, 0, 5, 0], &[0], TREE].concat();
        assert_eq!(numbers(&in_trunk), [None, Some(8), Some(8)]);
        let equal_ends_first = [HEADER, WITHOUT, &[2, 0, 0], &[8, 5, 0], TREE].concat();
        assert_eq!(numbers(&equal_ends_first), [Some(10); 3]);
    }

    #[test]
    fn faults_keep_what_the_requests_say() {
        let mut cut_off = BTreeSet::new();
        for base in faults::bases() {
            let sheets = faults::singles(&base).into_iter().map(|fault| faults::damaged(&base, &[&fault]));
            for sheet in sheets.chain(faults::harmless(&base)) {
                if seen(&sheet).cut_off {
                    let links = parts(&sheet).links;
                    cut_off.insert((links.len() == base.contents.trunks.len(), links[links.len() - 1].trunk.len()));
                }
            }
        }
        assert_eq!(cut_off, [(false, 0), (false, 1), (true, 0), (true, 1)].into());
    }

    #[track_caller]
    fn assert_broken(claim: &str, sheet: &[u8], break_one: fn(&mut Readings)) {
        let mut readings = Readings::of(sheet);
        assert!(readings.check(sheet).is_ok());
        break_one(&mut readings);
        assert_eq!(readings.check(sheet), Err(claim.to_string()));
    }

    fn set_trunks(reading: &mut Reading) {
        if let Ok(contents) = reading {
            contents.trunks.fill(5);
        }
    }

    const OTHER: Reading = Err(Refusal { place: Place::End, number: 16 });

    #[test]
    fn another_reading_than_in_the_formats_before_is_noticed() {
        let with = [HEADER, WITH, &[0], &[0], TREE].concat();
        let as_before = "a sheet without bit 3 reads as in the format before";
        assert_broken(as_before, &CASE_A, |of| of.wide = OTHER);
        assert_broken(as_before, &CASE_A, |of| set_trunks(&mut of.current));
        assert_broken("a sheet without bit 3 has trunk number 0 for each link", &CASE_A, |of| {
            set_trunks(&mut of.current);
            of.wide = of.current.clone();
        });
        let with_8 = "the format before refuses bit 3 with 8";
        assert_broken(with_8, &with, |of| of.wide = of.current.clone());
        assert_broken(with_8, &with, |of| of.wide = OTHER);
        let as_next = "document 01's format reads as the next, or refuses a weight with 11 first";
        assert_broken(as_next, &CASE_A, |of| of.base = OTHER);
        assert_broken(as_next, &with, |of| of.base = of.current.clone());
        assert_broken(as_next, &with, |of| of.base = Err(Refusal { place: Place::Link(1), number: RAISED }));
    }

    fn set_plain(readings: &mut Readings, current: Reading, wide: Reading) {
        readings.plain = Some(Plain { current, wide });
    }

    #[test]
    fn another_reading_than_without_trunk_numbers_is_noticed() {
        let with = [HEADER, WITH, &[0], &[0], TREE].concat();
        let cut_off = [HEADER, WITH, &[8, 5]].concat();
        assert_broken("a trunk number cut off is refused with 9", &cut_off, |of| of.current = OTHER);
        let another = "without a trunk number cut off another number refuses the sheet";
        assert_broken(another, &cut_off, |of| set_plain(of, of.current.clone(), of.current.clone()));
        let same = "a sheet has the network or the refusal that it has without trunk numbers";
        assert_broken(same, &with, |of| set_plain(of, OTHER, OTHER));
        let without = "a sheet without its trunk numbers reads as in the format before";
        assert_broken(without, &with, |of| set_plain(of, of.current.clone(), OTHER));
        assert_broken(without, &with, |of| of.plain.iter_mut().for_each(|plain| set_trunks(&mut plain.current)));
    }
}
