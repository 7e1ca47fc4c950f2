//! The weights between the four corners of two sides (request F-8): each corner is a set of nodes, and an entry of the table is the weight
//! of the links that join two of these sets.

use std::collections::BTreeSet;

use crate::claims;
use crate::cuts;
use crate::list;
use crate::network::{Link, Network};
use crate::report::Side;
use crate::sheet::Reading;

/// The refusal of a map of fewer than 32 bytes.
pub const SHORT_MAP: u32 = 1;
/// The refusal of a map that is empty or has node 0 or a bit from the node count up.
pub const NO_SIDE: u32 = 21;

/// The corners in the order of rows and columns.
pub const BOTH: usize = 0;
pub const FIRST_ONLY: usize = 1;
pub const SECOND_ONLY: usize = 2;
pub const NEITHER: usize = 3;
pub const CORNERS: usize = 4;

/// The weights between the corners, row by row.
pub type Table = [[u64; CORNERS]; CORNERS];

/// The table of a sheet that was read and two side maps, or the number of the first refusal.
pub fn outcome_of(reading: &Reading, first: &[u8], second: &[u8]) -> Result<Table, u32> {
    let (Some(first), Some(second)) = (first.first_chunk(), second.first_chunk()) else {
        return Err(SHORT_MAP);
    };
    let network = match reading {
        Ok(contents) => &contents.network,
        Err(refusal) => return Err(refusal.number),
    };
    if !is_side(network.nodes, first) || !is_side(network.nodes, second) {
        return Err(NO_SIDE);
    }
    Ok(table(network, first, second))
}

type Nodes = BTreeSet<usize>;

fn nodes(side: &Side) -> Nodes {
    list::nodes(side).into_iter().collect()
}

/// Whether a map is of a side without node 0, in a network of so many nodes.
fn is_side(node_count: usize, map: &Side) -> bool {
    let inside = nodes(map);
    !inside.is_empty() && inside.iter().all(|node| (1..node_count).contains(node))
}

/// The nodes in each corner.
fn corners(node_count: usize, first: &Side, second: &Side) -> [Nodes; CORNERS] {
    let (first, second) = (nodes(first), nodes(second));
    let all: Nodes = (0..node_count).collect();
    [&first & &second, &first - &second, &second - &first, &all - &(&first | &second)]
}

/// The table of two sides of a network.
pub fn table(network: &Network, first: &Side, second: &Side) -> Table {
    let corners = corners(network.nodes, first, second);
    let mut table = Table::default();
    for (row, one) in corners.iter().enumerate() {
        for (column, other) in corners.iter().enumerate().filter(|(column, _)| *column != row) {
            table[row][column] = between(&network.links, one, other);
        }
    }
    table
}

/// The weight of the links that join two sets of nodes.
fn between(links: &[Link], one: &Nodes, other: &Nodes) -> u64 {
    let from_to = |link: &Link, from: &Nodes, to: &Nodes| from.contains(&link.first) && to.contains(&link.second);
    let joins = |link: &&Link| from_to(link, one, other) || from_to(link, other, one);
    links.iter().filter(joins).map(|link| link.weight).sum()
}

/// The weight of a set of nodes as a side.
fn weigh(network: &Network, side: &Nodes) -> u64 {
    let inside: Vec<bool> = (0..network.nodes).map(|node| side.contains(&node)).collect();
    cuts::weigh(&network.links, &inside)
}

/// What request F-8 says of the table of any two sides; the error names a claim that does not hold.
pub fn check(network: &Network, first: &Side, second: &Side, table: &Table) -> Result<(), String> {
    let add_up = |rows: [usize; 2], columns: [usize; 2]| {
        let entries = rows.into_iter().flat_map(|row| columns.map(|column| table[row][column]));
        entries.sum::<u64>()
    };
    let pairs = || (0..CORNERS).flat_map(|row| (0..row).map(move |column| (row, column)));
    let of_first = add_up([BOTH, FIRST_ONLY], [SECOND_ONLY, NEITHER]);
    let of_second = add_up([BOTH, SECOND_ONLY], [FIRST_ONLY, NEITHER]);
    claims::check([
        ((0..CORNERS).all(|corner| table[corner][corner] == 0), "the diagonal is zero"),
        (pairs().all(|(row, column)| table[row][column] == table[column][row]), "an entry and its mirror are equal"),
        (of_first == weigh(network, &nodes(first)), "the first side's entries add up to its weight"),
        (of_second == weigh(network, &nodes(second)), "the second side's entries add up to its weight"),
    ])
}

/// What request F-8 says of the table of two lightest sides with no corner empty, by document 000's Lemma 2.2, where `least` is the least
/// that any side of the network weighs. Tells whether the two are such; the error names a claim that does not hold.
pub fn check_lightest(
    network: &Network,
    least: u64,
    first: &Side,
    second: &Side,
    table: &Table,
) -> Result<bool, String> {
    let corners = corners(network.nodes, first, second);
    let lightest = [first, second].iter().all(|side| weigh(network, &nodes(side)) == least);
    if !lightest || corners.iter().any(Nodes::is_empty) {
        return Ok(false);
    }
    claims::check([
        (corners.iter().all(|corner| weigh(network, corner) == least), "each corner weighs the least"),
        (table.iter().all(|row| row.iter().sum::<u64>() == least), "each row adds up to the least"),
        (table[BOTH][NEITHER] == 0, "both and neither are not joined"),
        (table[FIRST_ONLY][SECOND_ONLY] == 0, "first only and second only are not joined"),
    ])?;
    Ok(true)
}

/// How two sides are related.
#[derive(Clone, Copy, Debug, PartialEq, Eq)]
pub enum Relation {
    Equal,
    /// The first is inside the second, or the second inside the first, and smaller.
    FirstInside,
    SecondInside,
    /// No node is in both.
    Apart,
    /// No corner is empty.
    Crossing,
}

pub const RELATIONS: [Relation; 5] =
    [Relation::Equal, Relation::FirstInside, Relation::SecondInside, Relation::Apart, Relation::Crossing];

impl Relation {
    pub fn of(first: &Side, second: &Side) -> Relation {
        let (first, second) = (nodes(first), nodes(second));
        if first == second {
            Relation::Equal
        } else if first.is_subset(&second) {
            Relation::FirstInside
        } else if first.is_superset(&second) {
            Relation::SecondInside
        } else if first.is_disjoint(&second) {
            Relation::Apart
        } else {
            Relation::Crossing
        }
    }

    /// The corners that have nodes, beside that of node 0.
    pub fn corners(self) -> &'static [usize] {
        match self {
            Relation::Equal => &[BOTH],
            Relation::FirstInside => &[BOTH, SECOND_ONLY],
            Relation::SecondInside => &[BOTH, FIRST_ONLY],
            Relation::Apart => &[FIRST_ONLY, SECOND_ONLY],
            Relation::Crossing => &[BOTH, FIRST_ONLY, SECOND_ONLY],
        }
    }
}

#[cfg(test)]
mod tests {
    use super::*;
    use crate::documented::{self, CASE_A};
    use crate::every_side;
    use crate::faults;
    use crate::generate::{self, sides, Feature, FEATURES};
    use crate::random::Random;
    use crate::report::{side_bytes, SIDE_BYTES};
    use crate::sheet::{self, MOST_LINKS, MOST_WEIGHT};

    type Links<'a> = &'a [(usize, usize, u64)];

    const RING: Links = &[(0, 1, 1), (1, 2, 1), (2, 3, 1), (3, 0, 1)];
    /// Four nodes with six weights, all of whose sums differ.
    const SIX: Links = &[(0, 1, 1), (0, 2, 2), (0, 3, 4), (1, 2, 8), (1, 3, 16), (2, 3, 32)];

    fn side(nodes: &[usize]) -> Side {
        side_bytes(nodes.iter().copied())
    }

    fn outcome(sheet: &[u8], first: &[u8], second: &[u8]) -> Result<Table, u32> {
        outcome_of(&sheet::read_contents(sheet), first, second)
    }

    /// The sides named by their nodes have the table, and with first and second swapped the table with these corners swapped.
    #[track_caller]
    fn assert_table(nodes: usize, links: Links, sides: [&[usize]; 2], expected: Table) {
        let network = documented::network(nodes, links, &[]);
        let [first, second] = sides.map(side);
        assert_eq!(table(&network, &first, &second), expected);
        assert_eq!(check(&network, &first, &second, &expected), Ok(()));
        let mut swapped = expected;
        swapped.swap(FIRST_ONLY, SECOND_ONLY);
        swapped.iter_mut().for_each(|row| row.swap(FIRST_ONLY, SECOND_ONLY));
        assert_eq!(table(&network, &second, &first), swapped);
        assert_eq!(check(&network, &second, &first, &swapped), Ok(()));
    }

    #[test]
    fn lightest_sides_of_a_ring_that_cross() {
        let expected = [[0, 1, 1, 0], [1, 0, 0, 1], [1, 0, 0, 1], [0, 1, 1, 0]];
        assert_table(4, RING, [&[1, 2], &[2, 3]], expected);
        let network = documented::network(4, RING, &[]);
        let cross = check_lightest(&network, 2, &side(&[1, 2]), &side(&[2, 3]), &expected);
        assert_eq!(cross, Ok(true));
    }

    #[test]
    fn each_two_corners_have_an_entry() {
        assert_table(4, SIX, [&[1, 2], &[2, 3]], [[0, 8, 32, 2], [8, 0, 16, 1], [32, 16, 0, 4], [2, 1, 4, 0]]);
        assert_table(4, SIX, [&[1, 3], &[1, 2]], [[0, 16, 8, 1], [16, 0, 32, 4], [8, 32, 0, 2], [1, 4, 2, 0]]);
    }

    #[test]
    fn empty_corners_have_no_weight() {
        // node 1 inside nodes 1, 2 and 3: 8 and 16 to nodes 2 and 3, 1 to node 0, and 2 and 4 from there to nodes 2 and 3
        assert_table(4, SIX, [&[1], &[1, 2, 3]], [[0, 0, 24, 1], [0; 4], [24, 0, 0, 6], [1, 0, 6, 0]]);
        // node 1 apart from node 3: 16 between them, 1 and 8 to the others, 4 and 32 to the others
        assert_table(4, SIX, [&[1], &[3]], [[0; 4], [0, 0, 16, 9], [0, 16, 0, 36], [0, 9, 36, 0]]);
        // nodes 1 and 3 twice: 1, 4, 8 and 32 to the others
        assert_table(4, SIX, [&[1, 3], &[1, 3]], [[0, 0, 0, 45], [0; 4], [0; 4], [45, 0, 0, 0]]);
    }

    #[test]
    fn links_of_weight_0_parallel_links_and_links_inside_a_corner() {
        let links: Links = &[(0, 1, 0), (1, 2, 0), (2, 1, 5), (1, 2, 7), (2, 3, 0), (3, 4, 9), (0, 4, 3), (4, 0, 2)];
        assert_table(5, links, [&[1, 3], &[1, 4]], [[0, 0, 0, 12], [0, 0, 9, 0], [0, 9, 0, 5], [12, 0, 5, 0]]);
        assert_table(5, links, [&[1, 2], &[1, 2, 3, 4]], [[0; 4], [0; 4], [0, 0, 0, 5], [0, 0, 5, 0]]);
    }

    #[test]
    fn sums_pass_32_bits() {
        const MOST: u64 = 4_294_967_295;
        let links: Links = &[(0, 1, MOST), (2, 1, MOST), (1, 2, MOST), (1, 2, 1), (3, 2, MOST), (3, 2, 1), (0, 3, 1)];
        // 4,294,967,295 twice and 1, and once and 1
        let (more, less) = (8_589_934_591, 4_294_967_296);
        let expected = [[0, more, less, 0], [more, 0, 0, MOST], [less, 0, 0, 1], [0, MOST, 1, 0]];
        assert_table(4, links, [&[1, 2], &[2, 3]], expected);
        let all = MOST_LINKS as u64 * MOST_WEIGHT;
        assert_table(2, &[(0, 1, MOST); MOST_LINKS], [&[1], &[1]], [[0, 0, 0, all], [0; 4], [0; 4], [all, 0, 0, 0]]);
    }

    /// A path of 256 nodes whose link from node k on weighs k + 1.
    #[test]
    fn every_bit_of_a_map_is_a_node() {
        let links: Vec<_> = (0..255).map(|node| (node, node + 1, node as u64 + 1)).collect();
        assert_table(256, &links, [&[7, 8], &[8, 255]], [[0, 8, 0, 9], [8, 0, 0, 7], [0, 0, 0, 255], [9, 7, 255, 0]]);
        let network = documented::network(256, &links, &[]);
        for node in 1..256 {
            let table = table(&network, &side(&[node]), &side(&[node]));
            let expected = if node < 255 { 2 * node + 1 } else { 255 };
            assert_eq!(table[BOTH][NEITHER], expected as u64);
        }
    }

    #[test]
    fn a_refusal_has_its_number() {
        let [one, two] = [side(&[1]), side(&[1, 2])];
        let told = Ok([[0, 0, 2, 3], [0; 4], [2, 0, 0, 4], [3, 0, 4, 0]]);
        assert_eq!(outcome(&CASE_A, &one, &two), told);
        assert_eq!(outcome(&CASE_A, &[&one[..], &[255; 9]].concat(), &[&two[..], &[1]].concat()), told);
        let no_sides =
            [[0; SIDE_BYTES], side(&[0]), side(&[0, 1]), side(&[3]), side(&[1, 3]), side(&[255]), [255; SIDE_BYTES]];
        for no_side in no_sides {
            assert_eq!(outcome(&CASE_A, &one, &no_side), Err(21));
            assert_eq!(outcome(&CASE_A, &no_side, &two), Err(21));
            assert_eq!(outcome(&CASE_A, &no_side, &no_side), Err(21));
        }
        for length in 0..SIDE_BYTES {
            assert_eq!(outcome(&CASE_A, &one[..length], &two), Err(1));
            assert_eq!(outcome(&CASE_A, &one, &two[..length]), Err(1));
            assert_eq!(outcome(&CASE_A, &one[..length], &two[..length]), Err(1));
        }
    }

    #[test]
    fn short_maps_come_before_the_sheet_and_maps_of_no_side_behind_it() {
        let (good, empty) = (side(&[1]), side(&[]));
        let short = &good[..SIDE_BYTES - 1];
        for base in faults::bases() {
            for fault in faults::singles(&base) {
                let sheet = faults::damaged(&base, &[&fault]);
                for map in [good, empty] {
                    assert_eq!(outcome(&sheet, &map, &good), Err(fault.refusal.number));
                    assert_eq!(outcome(&sheet, &good, &map), Err(fault.refusal.number));
                    assert_eq!(outcome(&sheet, &map, short), Err(1));
                    assert_eq!(outcome(&sheet, short, &map), Err(1));
                }
            }
        }
        assert_eq!(outcome(&CASE_A, &empty, short), Err(1));
        assert_eq!(outcome(&CASE_A, short, &empty), Err(1));
    }

    /// The weight between two corners is half of what they weigh each less what they weigh together.
    #[track_caller]
    fn assert_by_weights(network: &Network, first: &Side, second: &Side) {
        let corners = corners(network.nodes, first, second);
        let table = table(network, first, second);
        for (row, one) in corners.iter().enumerate() {
            for (column, other) in corners.iter().enumerate().filter(|(column, _)| *column != row) {
                let together = weigh(network, &(one | other));
                let less = weigh(network, one) + weigh(network, other) - together;
                assert_eq!(2 * table[row][column], less);
            }
        }
        assert_eq!(check(network, first, second, &table), Ok(()));
    }

    #[test]
    fn tables_of_random_networks_follow_from_the_weights_of_sides() {
        let mut random = Random::new(12);
        for feature in FEATURES {
            for most_nodes in [4, every_side::MOST_NODES, 40] {
                let size = generate::random_size(&mut random, 4, most_nodes.max(feature.least_nodes()), feature);
                let network = generate::network(&mut random, size, feature);
                for relation in RELATIONS {
                    let related = sides::related(&mut random, network.nodes, relation);
                    let [first, second] = related.expect("four nodes are enough");
                    assert_eq!(Relation::of(&first, &second), relation);
                    assert_by_weights(&network, &first, &second);
                }
            }
        }
    }

    /// Every pair of lightest sides of small networks, those without weight among them.
    #[test]
    fn lightest_sides_keep_lemma_2_2() {
        let mut random = Random::new(13);
        let mut crossing = 0;
        for feature in [Feature::EqualWeights, Feature::Ring, Feature::Complete, Feature::Ties, Feature::WeightZero] {
            for _ in 0..20 {
                let size = generate::random_size(&mut random, 2, 6, feature);
                let network = generate::network(&mut random, size, feature);
                let (least, lightest) = every_side::lightest(&network);
                for first in &lightest {
                    for second in &lightest {
                        let table = table(&network, first, second);
                        let cross = Relation::of(first, second) == Relation::Crossing;
                        assert_eq!(check_lightest(&network, least, first, second, &table), Ok(cross));
                        crossing += usize::from(cross);
                    }
                }
            }
        }
        assert!(crossing > 1000, "{crossing}");
    }

    #[test]
    fn lemma_2_2_needs_both_conditions() {
        let network = documented::network(4, SIX, &[]);
        let (first, second) = (side(&[1, 2]), side(&[2, 3]));
        let table_of = |second: &Side| table(&network, &first, second);
        assert_eq!(every_side::lightest(&network), (7, vec![side(&[1, 2, 3])]));
        assert_eq!(check_lightest(&network, 7, &first, &second, &table_of(&second)), Ok(false));
        assert_eq!(check_lightest(&network, 51, &first, &second, &table_of(&second)), Ok(false));
        assert_eq!(check_lightest(&network, 51, &first, &first, &table_of(&first)), Ok(false));
    }

    #[track_caller]
    fn assert_broken(expected: &str, checked: Result<bool, String>) {
        assert_eq!(checked, Err(expected.to_string()));
    }

    #[test]
    fn wrong_tables_are_noticed() {
        let network = documented::network(4, RING, &[]);
        let (first, second) = (side(&[1, 2]), side(&[2, 3]));
        let right = table(&network, &first, &second);
        let broken = |claim, changes: &[(usize, usize, u64)]| {
            let mut wrong = right;
            changes.iter().for_each(|&(row, column, weight)| wrong[row][column] = weight);
            assert_broken(claim, check(&network, &first, &second, &wrong).map(|()| true));
        };
        (0..CORNERS).for_each(|corner| broken("the diagonal is zero", &[(corner, corner, 1)]));
        broken("an entry and its mirror are equal", &[(BOTH, FIRST_ONLY, 0)]);
        broken("an entry and its mirror are equal", &[(NEITHER, BOTH, 1)]);
        let of_first = "the first side's entries add up to its weight";
        broken(of_first, &[(BOTH, SECOND_ONLY, 2), (SECOND_ONLY, BOTH, 2)]);
        broken(of_first, &[(FIRST_ONLY, NEITHER, 0), (NEITHER, FIRST_ONLY, 0)]);
        let of_second = "the second side's entries add up to its weight";
        broken(of_second, &[(BOTH, FIRST_ONLY, 2), (FIRST_ONLY, BOTH, 2)]);
        broken(of_second, &[(SECOND_ONLY, NEITHER, 0), (NEITHER, SECOND_ONLY, 0)]);
    }

    #[test]
    fn tables_and_networks_that_break_lemma_2_2_are_noticed() {
        let network = documented::network(4, RING, &[]);
        let (first, second) = (side(&[1, 2]), side(&[2, 3]));
        let checked = |network: &Network, table: &Table| check_lightest(network, 2, &first, &second, table);
        let right = table(&network, &first, &second);
        assert_eq!(checked(&network, &right), Ok(true));
        let mut heavier = right;
        heavier[FIRST_ONLY][NEITHER] = 2;
        assert_broken("each row adds up to the least", checked(&network, &heavier));
        let joined = [[0, 1, 0, 1], [1, 0, 1, 0], [0, 1, 0, 1], [1, 0, 1, 0]];
        assert_broken("both and neither are not joined", checked(&network, &joined));
        let joined = [[0, 1, 1, 0], [0, 0, 1, 1], [1, 0, 0, 1], [0, 1, 1, 0]];
        assert_broken("first only and second only are not joined", checked(&network, &joined));
        // both sides weigh 2, which is not the least: node 1 weighs 1 and node 3 too
        let diagonal = documented::network(4, &[(0, 2, 1), (1, 3, 1)], &[]);
        let of_diagonal = table(&diagonal, &first, &second);
        assert_broken("each corner weighs the least", checked(&diagonal, &of_diagonal));
    }
}
