//! Holds what the entry of the thickness answers against what is expected and against the entry of the report, and counts.

use reference::every_side;
use reference::generate::questions::{self, Limits, UNREACHED};
use reference::network::Network;
use reference::sheet::{self, Contents, Refusal, LEAST_NODES, MOST_NODES, MOST_WEIGHT};
use reference::thickness::{self, Question, ShownSides, Told, OUT_OF_REACH};

use super::call::Call;
use super::kinds::{count, named, Kind};
use super::{Judge, Judged, Read};
use crate::entry;

/// How many questions there are for each accepted sheet.
const QUESTIONS: usize = 2;

/// A question about a link of an accepted sheet, and what is told.
struct OfLink {
    nodes: usize,
    weight: u64,
    /// Of the link behind it, if it is not the last.
    next_weight: Option<u64>,
    limits: Limits,
    question: Question,
    told: Told,
}

impl OfLink {
    fn new(network: &Network, shown: &ShownSides, question: Question, told: Told) -> Option<OfLink> {
        let place = question.link as usize;
        let link = network.links.get(place)?;
        let next_weight = network.links.get(place + 1).map(|next| next.weight);
        let limits = Limits::of(shown, link);
        Some(OfLink { nodes: network.nodes, weight: link.weight, next_weight, limits, question, told })
    }

    /// Whether so much is wanted.
    fn wants(&self, wanted: u64) -> bool {
        self.question.wanted == wanted
    }

    /// Whether there is a figure of at least so much.
    fn needs(&self, least: u64) -> bool {
        self.told.is_ok_and(|figure| u64::from(figure) >= least)
    }

    /// Whether eight bytes are wanted, and with their lower four alone the figure would be 0.
    fn lower_four_need_nothing(&self) -> bool {
        let wanted = self.question.wanted;
        wanted > MOST_WEIGHT && wanted % (1 << 32) <= self.limits.free()
    }

    /// Whether a side that does not separate the link's ends is the limit, and not the greatest weight.
    fn ends_beside(&self) -> bool {
        self.limits.beside == Some(self.limits.reach())
    }

    fn reported(&self) -> u64 {
        self.limits.reported(self.weight)
    }
}

const OF_LINKS: [Kind<OfLink>; 29] = [
    ("a figure below the link's weight", |of| of.told.is_ok_and(|figure| u64::from(figure) < of.weight)),
    ("a figure equal to the link's weight", |of| of.told.is_ok_and(|figure| u64::from(figure) == of.weight)),
    ("a figure above the link's weight", |of| of.needs(of.weight + 1)),
    ("a figure of more than 16 bits", |of| of.needs(1 << 16)),
    ("a figure of more than 31 bits", |of| of.needs(1 << 31)),
    ("figure 4,294,967,295", |of| of.needs(MOST_WEIGHT)),
    ("figure 0 for a wanted weight above 0", |of| of.told == Ok(0) && !of.wants(0)),
    ("the greatest wanted weight with figure 0", |of| of.wants(of.limits.free())),
    ("one more than the greatest with figure 0: figure 1", |of| of.wants(of.limits.free() + 1) && of.told == Ok(1)),
    ("one more than the greatest with figure 0: no figure", |of| of.wants(of.limits.free() + 1) && of.told.is_err()),
    ("the greatest in reach, a side beside the link the limit", |of| of.wants(of.limits.reach()) && of.ends_beside()),
    ("one more than is in reach, a side beside the link the limit", |of| {
        of.wants(of.limits.reach() + 1) && of.ends_beside()
    }),
    ("the greatest in reach, 4,294,967,295 the limit", |of| of.wants(of.limits.reach()) && !of.ends_beside()),
    ("one more than is in reach, 4,294,967,295 the limit", |of| of.wants(of.limits.reach() + 1) && !of.ends_beside()),
    ("4,294,967,295 the limit, in a network with a side beside the link", |of| {
        !of.ends_beside() && of.limits.beside.is_some() && of.told.is_err()
    }),
    ("wanted weight 0", |of| of.wants(0)),
    ("the link's weight wanted", |of| of.wants(of.weight)),
    ("the reported weight wanted", |of| of.wants(of.reported())),
    ("2^64 - 1 wanted", |of| of.wants(u64::MAX)),
    ("a figure for eight bytes whose lower four need nothing", |of| of.lower_four_need_nothing() && of.needs(1)),
    ("no figure for eight bytes whose lower four need nothing", |of| of.lower_four_need_nothing() && of.told.is_err()),
    ("a figure for a link of weight 0", |of| of.weight == 0 && of.needs(1)),
    ("a figure for a link of 4,294,967,293 or more", |of| of.weight >= MOST_WEIGHT - 2 && of.needs(1)),
    ("a figure for a link whose weight the next one has too", |of| of.next_weight == Some(of.weight) && of.needs(1)),
    ("a figure for the last link", |of| of.next_weight.is_none() && of.needs(1)),
    ("a figure where the reported weight has more than four bytes", |of| of.reported() > MOST_WEIGHT && of.needs(1)),
    ("a figure in a network of 2 nodes", |of| of.nodes == LEAST_NODES && of.needs(1)),
    ("a figure in a network of 256 nodes", |of| of.nodes == MOST_NODES && of.needs(1)),
    ("no figure in a network of 256 nodes", |of| of.nodes == MOST_NODES && of.told.is_err()),
];

/// A question for a sheet with so many links.
struct OfSheet {
    links: usize,
    question: Question,
}

impl OfSheet {
    fn is_outside(&self) -> bool {
        self.question.link as usize >= self.links
    }

    fn is_unreached(&self) -> bool {
        self.question.wanted >= UNREACHED
    }
}

const OUTSIDE: [Kind<OfSheet>; 6] = [
    ("the link count as a link number", |of| of.question.link as usize == of.links),
    ("a link number above the link count", |of| of.question.link as usize > of.links),
    ("a link number outside whose lower two bytes are inside", |of| {
        of.question.link > 65_535 && ((of.question.link % 65_536) as usize) < of.links
    }),
    ("2^32 - 1 as a link number", |of| of.question.link == u32::MAX),
    ("a link outside with wanted weight 0", |of| of.question.wanted == 0),
    ("a link outside with a weight out of reach", OfSheet::is_unreached),
];

const REFUSED: [Kind<OfSheet>; 4] = [
    ("a refused sheet and one of its links", |of| !of.is_outside() && of.question.wanted == 0),
    ("a refused sheet and a weight out of reach", |of| !of.is_outside() && of.is_unreached()),
    ("a refused sheet and a link outside", |of| of.is_outside() && of.question.wanted == 0),
    ("a refused sheet, a link outside and a weight out of reach", |of| of.is_outside() && of.is_unreached()),
];

/// How many calls of the entry of the thickness are of each kind.
#[derive(Default)]
pub struct Thickness {
    of_links: [u64; OF_LINKS.len()],
    outside: [u64; OUTSIDE.len()],
    refused: [u64; REFUSED.len()],
    /// Answers that are held against the entry of the report: with the figure as weight, with one less, and with the greatest weight where
    /// there is no figure.
    with_figure: u64,
    with_one_less: u64,
    with_greatest: u64,
    /// Answers by every side too.
    by_every_side: u64,
    /// Of a sheet with trunk numbers, and of the same without.
    pub with_and_without_trunks: u64,
    /// With another answer than by tree 0 alone.
    pub by_later_trees: u64,
}

impl Thickness {
    /// Every kind of calls, each of which has to be among them, and how many there are.
    pub fn counts(&self) -> Vec<(u64, &'static str)> {
        let others = vec![
            (self.with_and_without_trunks, "a sheet with trunk numbers, asked about without them too"),
            (self.by_later_trees, "another answer than by tree 0 alone"),
            (self.by_every_side, "an answer that was found by every side too"),
            (self.with_figure, "a figure with which wcut_report gives what is wanted"),
            (self.with_one_less, "a figure with one less than which wcut_report gives less"),
            (self.with_greatest, "no figure, where with 4,294,967,295 wcut_report gives less"),
        ];
        [named(&OF_LINKS, &self.of_links), named(&OUTSIDE, &self.outside), named(&REFUSED, &self.refused), others]
            .concat()
    }
}

impl Judge {
    /// What an accepted sheet is told for any links and wanted weights is what is expected.
    pub fn any_thickness(&mut self, read: &Read) -> Judged {
        for _ in 0..QUESTIONS {
            let question = questions::any(&mut self.question_random, &read.contents.network, &read.answers.shown);
            self.thickness_of(read, question)?;
        }
        Ok(())
    }

    /// A refused sheet is told its refusal for any link and wanted weight.
    pub fn any_refused_thickness(&mut self, sheet: &[u8], refusal: Refusal) -> Judged {
        let question = questions::of_refused(&mut self.question_random, sheet::link_count(sheet));
        self.refused_thickness(sheet, refusal, question)
    }

    /// A refused sheet is told its refusal, whatever is asked.
    pub fn refused_thickness(&mut self, sheet: &[u8], refusal: Refusal, question: Question) -> Judged {
        count(&REFUSED, &mut self.thickness.refused, &OfSheet { links: sheet::link_count(sheet), question });
        self.call_thickness(sheet, question, thickness::outcome_of(&Err(refusal), question))
    }

    /// What an accepted sheet is told is what is expected, and the entry of the report bears it out.
    pub fn thickness_of(&mut self, read: &Read, question: Question) -> Judged {
        let (network, shown) = (&read.contents.network, &read.answers.shown);
        let told = thickness::by_candidates(network, shown, question);
        match OfLink::new(network, shown, question, told) {
            Some(of_link) => count(&OF_LINKS, &mut self.thickness.of_links, &of_link),
            None => count(&OUTSIDE, &mut self.thickness.outside, &OfSheet { links: network.links.len(), question }),
        }
        if network.nodes <= every_side::MOST_NODES {
            self.told_by_every_side(read, question, told)?;
        }
        self.call_thickness(read.sheet, question, told)?;
        self.reports_with_figure(read, question, told)
    }

    /// The same is told by every side, and it keeps what it has to.
    fn told_by_every_side(&mut self, read: &Read, question: Question, told: Told) -> Judged {
        self.thickness.by_every_side += 1;
        let network = &read.contents.network;
        let expected = thickness::by_every_side(network, question);
        if expected != told {
            let got = format!("{told:?} by the reference's candidates\n");
            return self.differs(read.sheet, format!("{question:?}\n{expected:?} by every side\n"), got);
        }
        match thickness::check(network, question, told) {
            Ok(()) => Ok(()),
            Err(claim) => self.differs(read.sheet, format!("{claim}\n"), format!("{question:?}\n{told:?}\n")),
        }
    }

    fn call_thickness(&mut self, sheet: &[u8], question: Question, told: Told) -> Judged {
        let (number, figure) = match told {
            Ok(figure) => (0, figure),
            Err(number) => (number, 0),
        };
        let call = Call::new(&mut self.question_random, sheet, 1, number, &[figure]);
        self.row().wcut_thickness += 1;
        let given = || format!("thickness, {question:?}\n");
        self.called(sheet, call, |sheet, figure| entry::thickness(sheet, question, figure), given)
    }

    /// By the entry of the report, the figure is enough and one less is not. Where there is no figure, the greatest weight is not enough.
    fn reports_with_figure(&mut self, read: &Read, question: Question, told: Told) -> Judged {
        match told {
            Ok(figure) => {
                self.thickness.with_figure += 1;
                self.report_with(read, question, u64::from(figure), true)?;
                if figure > 0 {
                    self.thickness.with_one_less += 1;
                    self.report_with(read, question, u64::from(figure) - 1, false)?;
                }
                Ok(())
            }
            Err(OUT_OF_REACH) => {
                self.thickness.with_greatest += 1;
                self.report_with(read, question, MOST_WEIGHT, false)
            }
            Err(_) => Ok(()),
        }
    }

    /// With that weight of the link, others kept, the reported weight is no less than wanted, or it is less.
    fn report_with(&mut self, read: &Read, question: Question, weight: u64, enough: bool) -> Judged {
        let Contents { network, trunks } = read.contents;
        let network = thickness::with_weight(network, question.link as usize, weight);
        let sheet = sheet::write_contents(&Contents { network, trunks: trunks.clone() });
        let reported = entry::reported_weight(&sheet);
        if reported.is_ok_and(|reported| (reported >= question.wanted) == enough) {
            return Ok(());
        }
        let expected = format!("{question:?}\nenough with weight {weight} in the report: {enough}\n");
        self.differs(&sheet, expected, format!("{reported:?}\n"))
    }
}
