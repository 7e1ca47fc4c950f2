//! How the answer in force stands to those by the rules of units already sold, and to the list.

use crate::claims::{self, Claim};
use crate::cuts::{self, Answer, Firsts, BASE, CURRENT, LISTED, WHOLE};
use crate::list::{self, Lightest, List};
use crate::network::Network;
use crate::pairs::{PairWeights, Pairs};
use crate::thickness::ShownSides;

/// The answers of a sound network by the rules in force and by those before, the list by those in force, the sides that its trees show, and
/// the weights of its trees' pairs.
pub struct Answers {
    pub current: Answer,
    pub list: List,
    pub shown: ShownSides,
    pub pairs: PairWeights,
    /// By document 01's order.
    pub listed: Answer,
    /// By document 01's order and its rule for the trees that count.
    pub base: Answer,
}

impl Answers {
    /// One search finds them all.
    pub fn of(network: &Network) -> Answers {
        let (mut firsts, mut lightest) = (Firsts::default(), Lightest::default());
        let (mut shown, mut pairs) = (ShownSides::default(), Pairs::default());
        cuts::each_candidate(network, |candidate, inside| {
            firsts.meet(candidate, inside);
            lightest.meet(candidate, inside);
            shown.meet(candidate, inside);
            pairs.meet(candidate);
        });
        let (by, list, pairs) = (|rules| firsts.answer(rules, network), lightest.list(), pairs.by_slot());
        Answers { current: by(CURRENT), list, shown, pairs, listed: by(LISTED), base: by(BASE) }
    }

    /// What the requests keep of a network's answers and its list; the error names a claim that does not hold.
    pub fn check(&self, network: &Network) -> Result<(), String> {
        claims::check(self.of_counting(network).into_iter().chain(self.of_order()))?;
        list::check(&self.list, &self.current.side)
    }

    /// Request F-3: what another rule for the trees that count keeps, by one order.
    fn of_counting(&self, network: &Network) -> [Claim; 4] {
        let Answers { listed, base, .. } = self;
        let same_cut = listed.candidate == base.candidate && listed.side == base.side;
        [
            (same_cut, "candidate and side are the same"),
            (cuts::overloaded(network) || listed == base, "the answer is the same where no link is overloaded"),
            (listed.floor >= base.floor, "the floor is no less"),
            (listed.verdict == WHOLE || base.verdict != WHOLE, "a verdict of 2 stays"),
        ]
    }

    /// Request F-6: what another order keeps, by one rule for the trees that count.
    fn of_order(&self) -> [Claim; 6] {
        let Answers { current, listed, .. } = self;
        let names = |of: &Answer| (of.candidate.tree, of.candidate.first, of.candidate.second);
        let same = names(current) == names(listed);
        let fewer = current.candidate.nodes < listed.candidate.nodes;
        [
            (current.candidate.weight == listed.candidate.weight, "by either order the weight is the same"),
            (current.floor == listed.floor, "by either order the floor is the same"),
            (current.verdict == listed.verdict, "by either order the verdict is the same"),
            (current.candidate.nodes <= listed.candidate.nodes, "the first by fewer nodes has no more nodes"),
            (same || fewer, "another candidate is first only if it has fewer nodes"),
            (!same || current.side == listed.side, "the same candidate has the same side"),
        ]
    }
}

#[cfg(test)]
mod tests {
    use super::*;
    use crate::cuts::{Candidate, TREES_ONLY};
    use crate::documented;
    use crate::{report, sheet};

    /// A link of weight 4 held by two trees, and its answers.
    fn of_one_link(shares: [u64; 2]) -> (Network, Answers) {
        let network = documented::network(2, &[(0, 1, 4)], &shares.map(|share| (share, &[0][..])));
        let answers = Answers::of(&network);
        (network, answers)
    }

    #[test]
    fn request_f_3s_floor_and_verdict_rise() {
        let (network, answers) = of_one_link([2, 3]);
        assert_eq!((answers.base.verdict, answers.base.floor), (TREES_ONLY, 0));
        assert_eq!((answers.current.verdict, answers.current.floor), (WHOLE, 4));
        assert_eq!(answers.check(&network), Ok(()));
    }

    #[test]
    fn units_already_sold_answer_as_document_01_says() {
        for case in documented::of_document_01() {
            if let Ok(network) = sheet::read(&case.sheet) {
                let Answers { listed, base, .. } = Answers::of(&network);
                assert_eq!(listed, base, "{}", case.name);
                assert_eq!(report::lines(&Ok(base)), case.listed_lines, "{}", case.name);
            }
        }
    }

    #[test]
    fn documented_networks_keep_what_the_requests_say() {
        for case in documented::all() {
            if let Ok(network) = sheet::read(&case.sheet) {
                let answers = Answers::of(&network);
                assert_eq!(answers.check(&network), Ok(()), "{}", case.name);
                assert_eq!(report::lines(&Ok(answers.listed)), case.listed_lines, "{}", case.name);
            }
        }
    }

    #[track_caller]
    fn assert_broken(claim: &str, (network, mut answers): (Network, Answers), break_one: fn(&mut Answers)) {
        assert_eq!(answers.check(&network), Ok(()));
        break_one(&mut answers);
        assert_eq!(answers.check(&network), Err(claim.to_string()));
    }

    #[test]
    fn a_rule_for_the_trees_that_count_that_keeps_too_little_is_noticed() {
        let same_cut = "candidate and side are the same";
        assert_broken(same_cut, of_one_link([2, 3]), |of| of.listed.candidate.second = Some(1));
        assert_broken(same_cut, of_one_link([2, 3]), |of| of.listed.side = vec![]);
        let same_answer = "the answer is the same where no link is overloaded";
        assert_broken(same_answer, of_one_link([1, 0]), |of| (of.listed.verdict, of.listed.floor) = (WHOLE, 4));
        assert_broken("the floor is no less", of_one_link([2, 3]), |of| (of.base.floor, of.listed.floor) = (4, 3));
        assert_broken("a verdict of 2 stays", of_one_link([2, 3]), |of| {
            (of.base.verdict, of.listed.verdict) = (WHOLE, TREES_ONLY);
        });
    }

    /// Document 01's ring of four nodes. By its order link 0 and all three nodes come first, by fewer nodes links 0 and 1 and node 1.
    fn of_a_ring() -> (Network, Answers) {
        let ring = [(0, 1, 1), (1, 2, 1), (2, 3, 1), (3, 0, 1)];
        let network = documented::network(4, &ring, &[(1, &[0, 1, 2])]);
        let answers = Answers::of(&network);
        (network, answers)
    }

    #[test]
    fn request_f_6s_side_is_smaller() {
        let (_, Answers { current, listed, .. }) = of_a_ring();
        let all = Candidate { weight: 2, nodes: 3, tree: 0, first: 0, second: None };
        let one = Candidate { nodes: 1, second: Some(1), ..all };
        assert_eq!(listed, Answer { verdict: WHOLE, floor: 2, candidate: all, side: vec![1, 2, 3] });
        assert_eq!(current, Answer { verdict: WHOLE, floor: 2, candidate: one, side: vec![1] });
    }

    #[test]
    fn an_order_that_keeps_too_little_is_noticed() {
        assert_broken("by either order the weight is the same", of_a_ring(), |of| of.current.candidate.weight = 1);
        assert_broken("by either order the floor is the same", of_a_ring(), |of| of.current.floor = 1);
        assert_broken("by either order the verdict is the same", of_a_ring(), |of| of.current.verdict = TREES_ONLY);
        let no_more = "the first by fewer nodes has no more nodes";
        assert_broken(no_more, of_a_ring(), |of| of.current.candidate.nodes = 4);
        let fewer = "another candidate is first only if it has fewer nodes";
        assert_broken(fewer, of_a_ring(), |of| of.current.candidate.nodes = 3);
        assert_broken(fewer, of_one_link([2, 3]), |of| of.current.candidate.tree = 1);
        assert_broken(fewer, of_one_link([2, 3]), |of| of.current.candidate.first = 1);
        assert_broken(fewer, of_one_link([2, 3]), |of| of.current.candidate.second = Some(1));
        assert_broken("the same candidate has the same side", of_one_link([2, 3]), |of| of.current.side = vec![]);
        assert_broken("the list begins with the reported side", of_a_ring(), |of| of.list.sides.swap(0, 1));
    }
}
