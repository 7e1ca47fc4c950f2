//! Document 01's networks, starred or not, the limits of documents 01 and 02, networks for requests F-3 and F-6, sheets for request F-9,
//! figures for request F-7 and weights of pairs for request F-12. The lines of each stand in the documents or were reckoned by hand from
//! their words.

mod pairs;
mod thickness;

pub use pairs::{pair_sheets, PairSheet};
pub use thickness::figures;

use crate::network::{Link, Network, Tree};
use crate::sheet::{self, Contents};

pub struct Documented {
    pub name: String,
    pub sheet: Vec<u8>,
    /// What the report program prints, and the cable crew's.
    pub lines: String,
    pub trunk_lines: String,
    /// What the report program prints by document 01's order among candidates, that of units already sold.
    pub listed_lines: String,
}

impl Documented {
    /// The same with other lines by document 01's order.
    fn listed(self, lines: &str) -> Documented {
        Documented { listed_lines: lines.to_string(), ..self }
    }
}

/// The bytes of case A, as document 01 gives them.
pub const CASE_A: [u8; 35] = [
    0x03, 0x00, 0x03, 0x00, 0x01, //
    0x07, 0x00, 0x00, 0x01, 0x00, 0x03, 0x00, 0x00, 0x00, //
    0x07, 0x01, 0x00, 0x02, 0x00, 0x02, 0x00, 0x00, 0x00, //
    0x05, 0x00, 0x00, 0x04, 0x00, 0x00, 0x00, //
    0x02, 0x00, 0x00, 0x00, 0x05,
];
/// Where the link map of case A's tree stands.
const CASE_A_LINK_MAP: usize = 34;

/// A network from its links (ends and weight) and its trees (share and members).
pub fn network(nodes: usize, links: &[(usize, usize, u64)], trees: &[(u64, &[usize])]) -> Network {
    let link = |&(first, second, weight): &(usize, usize, u64)| Link { first, second, weight };
    let tree = |&(share, members): &(u64, &[usize])| Tree { share, members: members.to_vec() };
    Network { nodes, links: links.iter().map(link).collect(), trees: trees.iter().map(tree).collect() }
}

/// A sheet without trunk numbers: the crew's program prints 0 for each link, or the same refusal.
fn documented(name: &str, sheet: Vec<u8>, lines: &str) -> Documented {
    let links = sheet[2..4].iter().rev().fold(0, |links, &byte| 256 * links + usize::from(byte));
    let trunk_lines = match lines.starts_with("refused") {
        true => lines.to_string(),
        false => (0..links).map(|link| format!("{link} 0\n")).collect(),
    };
    let (name, lines) = (name.to_string(), lines.to_string());
    Documented { name, sheet, trunk_lines, listed_lines: lines.clone(), lines }
}

/// All of them, case A first.
pub fn all() -> Vec<Documented> {
    [of_document_01(), shares_of_two_trees(), runs_of_trees(), wide_runs(), sizes_of_sides(), steps_of_the_order()]
        .into_iter()
        .flatten()
        .chain(with_trunks())
        .collect()
}

/// Document 01's networks and limits, with those of request F-2. By either rule for the trees that count, they have the same lines.
pub fn of_document_01() -> Vec<Documented> {
    [starred(), shares_of_one_link(), other_cases(), node_limits(), link_limits(), tree_limits()]
        .into_iter()
        .flatten()
        .collect()
}

const RING: [(usize, usize, u64); 4] = [(0, 1, 1), (1, 2, 1), (2, 3, 1), (3, 0, 1)];

type Links<'a> = &'a [(usize, usize, u64)];

/// A network of one tree.
fn one_tree(name: &str, nodes: usize, links: Links, tree: (u64, &[usize]), lines: &str) -> Documented {
    documented(name, sheet::write(&network(nodes, links, &[tree])), lines)
}

fn starred() -> Vec<Documented> {
    let triangle = [(0, 1, 3), (1, 2, 2), (0, 2, 4)];
    let thick = [(0, 1, 1), (1, 2, 1), (0, 2, 10)];
    let hidden = [(0, 1, 1), (1, 2, 1), (2, 3, 1), (0, 2, 10), (1, 3, 10)];
    let a = "answer 2 5 5 0 0 - 1\nside 1\n";
    let b = "answer 1 5 3 0 0 - 1\nside 1\n";
    let c = "answer 2 2 2 0 0 1 1\nside 1\n";
    let d = "answer 1 2 0 0 0 1 1\nside 1\n";
    let e = "answer 2 2 2 0 0 1 1\nside 1\n";
    let f = "answer 1 11 3 0 2 - 1\nside 3\n";
    let g = "answer 2 0 0 0 0 - 1\nside 1\n";
    vec![
        documented("A", CASE_A.to_vec(), a),
        one_tree("B", 3, &triangle, (1, &[0, 2]), b),
        one_tree("C", 4, &RING, (1, &[0, 1, 2]), c).listed("answer 2 2 2 0 0 - 3\nside 1 2 3\n"),
        one_tree("D", 4, &RING, (0, &[0, 1, 2]), d).listed("answer 1 2 0 0 0 - 3\nside 1 2 3\n"),
        one_tree("E", 3, &thick, (1, &[0, 1]), e),
        one_tree("F", 4, &hidden, (1, &[0, 1, 2]), f).listed("answer 1 11 3 0 0 - 3\nside 1 2 3\n"),
        one_tree("G", 2, &[(0, 1, 0)], (7, &[0]), g),
    ]
}

/// Network H with its four shares.
fn shares_of_one_link() -> Vec<Documented> {
    let lines = [
        (1, "answer 1 4 3 0 0 - 1\nside 1\n"),
        (2, "answer 2 4 4 0 0 - 1\nside 1\n"),
        (4, "answer 2 4 4 0 0 - 1\nside 1\n"),
        (5, "answer 1 4 0 0 0 - 1\nside 1\n"),
    ];
    let case = |(share, lines)| {
        let name = format!("H, share {share}");
        one_tree(&name, 2, &[(0, 1, 4)], (share, &[0]), lines)
    };
    lines.into_iter().map(case).collect()
}

fn other_cases() -> Vec<Documented> {
    let two_trees = network(4, &RING, &[(0, &[0, 1, 2]), (0, &[1, 2, 3])]);
    let too_many_members = network(4, &RING, &[(1, &[0, 1, 2, 3])]);
    let parallel = network(4, &[(0, 1, 1), (1, 0, 1), (1, 2, 1), (2, 3, 1)], &[(1, &[0, 1, 2])]);
    let too_few_links = network(3, &[(0, 1, 1)], &[(1, &[0])]);
    let mut stray_bit = CASE_A.to_vec();
    stray_bit[CASE_A_LINK_MAP] = 0x0D;
    let mut one_byte_more = CASE_A.to_vec();
    one_byte_more.push(0);
    let i = documented("I", sheet::write(&two_trees), "answer 1 2 0 0 0 1 1\nside 1\n");
    vec![
        i.listed("answer 1 2 0 0 0 - 3\nside 1 2 3\n"),
        documented("three nodes with 1 link", sheet::write(&too_few_links), "refused 5\n"),
        documented("A with link map 0x0D", stray_bit, "refused 13\n"),
        documented("C with all four links in the tree", sheet::write(&too_many_members), "refused 14\n"),
        documented("two of three members parallel", sheet::write(&parallel), "refused 15\n"),
        documented("A with one byte more", one_byte_more, "refused 16\n"),
    ]
}

/// A path of so many nodes from node 0, all weights and the only tree's share 1.
fn path_sheet(nodes: usize) -> Vec<u8> {
    let links: Vec<_> = (1..nodes).map(|node| (node - 1, node, 1)).collect();
    let members: Vec<usize> = (0..links.len()).collect();
    sheet::write(&network(nodes, &links, &[(1, &members)]))
}

/// So many parallel links of two nodes, and so many trees of link 0 alone with share 1.
fn parallel_sheet(links: usize, weight: u64, trees: usize) -> Vec<u8> {
    let tree: (u64, &[usize]) = (1, &[0]);
    sheet::write(&network(2, &vec![(0, 1, weight); links], &vec![tree; trees]))
}

/// So many parallel links of two nodes with that weight, and 32 trees of one link each with shares of the same size.
fn greatest_floor_sheet(links: usize, weight: u64) -> Vec<u8> {
    let members: Vec<usize> = (0..sheet::MOST_TREES).collect();
    let tree = |member| (weight, std::slice::from_ref(member));
    let trees: Vec<(u64, &[usize])> = members.iter().map(tree).collect();
    sheet::write(&network(2, &vec![(0, 1, weight); links], &trees))
}

fn node_limits() -> Vec<Documented> {
    let all_but_the_root: String = (1..256).map(|node| format!(" {node}")).collect();
    let most_listed = format!("answer 2 1 1 0 0 - 255\nside{all_but_the_root}\n");
    // every link of the path weighs 1 alone, and the last one has only the last node below it
    let most_nodes = "answer 2 1 1 0 254 - 1\nside 255\n";
    let two_nodes = "answer 2 1 1 0 0 - 1\nside 1\n";
    vec![
        documented("1 node", path_sheet(1), "refused 4\n"),
        documented("2 nodes", path_sheet(2), two_nodes),
        documented("256 nodes", path_sheet(256), most_nodes).listed(&most_listed),
        documented("257 nodes", path_sheet(257), "refused 4\n"),
    ]
}

fn link_limits() -> Vec<Documented> {
    let most_links = "answer 1 2048 3 0 0 - 1\nside 1\n";
    let most_weight = "answer 1 1000000 3 0 0 - 1\nside 1\n";
    let both = "answer 1 2048000000 3 0 0 - 1\nside 1\n";
    let past_a_million = "answer 1 1000001 3 0 0 - 1\nside 1\n";
    let of_four_bytes = "answer 1 4294967295 3 0 0 - 1\nside 1\n";
    let past_four_bytes = "answer 1 8589934590 3 0 0 - 1\nside 1\n";
    let greatest = "answer 1 8796093020160 3 0 0 - 1\nside 1\n";
    vec![
        documented("2,048 links", parallel_sheet(2048, 1, 1), most_links),
        documented("2,049 links", parallel_sheet(2049, 1, 1), "refused 5\n"),
        documented("weight 1,000,000", parallel_sheet(1, 1_000_000, 1), most_weight),
        documented("2,048 links of weight 1,000,000", parallel_sheet(2048, 1_000_000, 1), both),
        documented("weight 1,000,001", parallel_sheet(1, 1_000_001, 1), past_a_million),
        documented("weight 4,294,967,295", parallel_sheet(1, 4_294_967_295, 1), of_four_bytes),
        documented("two links of weight 4,294,967,295", parallel_sheet(2, 4_294_967_295, 1), past_four_bytes),
        documented("2,048 links of weight 4,294,967,295", parallel_sheet(2048, 4_294_967_295, 1), greatest),
    ]
}

fn tree_limits() -> Vec<Documented> {
    let one_tree = "answer 1 32 3 0 0 - 1\nside 1\n";
    let most_trees = "answer 2 32 32 0 0 - 1\nside 1\n";
    let million = "answer 1 2048000000 96000000 0 0 - 1\nside 1\n";
    let million_whole = "answer 2 96000000 96000000 0 0 - 1\nside 1\n";
    let floor = "answer 1 8796093020160 412316860320 0 0 - 1\nside 1\n";
    let whole = "answer 2 412316860320 412316860320 0 0 - 1\nside 1\n";
    vec![
        documented("no tree", parallel_sheet(1, 32, 0), "refused 6\n"),
        documented("1 tree", parallel_sheet(1, 32, 1), one_tree),
        documented("32 trees", parallel_sheet(1, 32, 32), most_trees),
        documented("33 trees", parallel_sheet(1, 33, 33), "refused 6\n"),
        documented("a floor of weights of a million", greatest_floor_sheet(2048, 1_000_000), million),
        documented("a floor of weights of a million, whole", greatest_floor_sheet(96, 1_000_000), million_whole),
        documented("the greatest floor", greatest_floor_sheet(2048, 4_294_967_295), floor),
        documented("the greatest floor, whole", greatest_floor_sheet(96, 4_294_967_295), whole),
    ]
}

/// Request F-3's network: network H with two trees.
fn shares_of_two_trees() -> Vec<Documented> {
    let case = |name: &str, shares: [u64; 2], lines: &str| {
        let trees: Vec<(u64, &[usize])> = shares.iter().map(|&share| (share, &[0][..])).collect();
        documented(name, sheet::write(&network(2, &[(0, 1, 4)], &trees)), lines)
    };
    vec![
        case("H, shares 2 and 3", [2, 3], "answer 2 4 4 0 0 - 1\nside 1\n"),
        case("H, shares 5 and 1", [5, 1], "answer 1 4 0 0 0 - 1\nside 1\n"),
    ]
}

/// Networks in which a tree that would overload a link ends the run of those that count.
fn runs_of_trees() -> Vec<Documented> {
    let parallel = |name: &str, weights: [u64; 2], trees: &[(u64, &[usize])], lines: &str| {
        let links = weights.map(|weight| (0, 1, weight));
        documented(name, sheet::write(&network(2, &links, trees)), lines)
    };
    let hidden = [(0, 1, 1), (1, 2, 1), (2, 3, 1), (0, 2, 10), (1, 3, 10)];
    let shows = network(4, &hidden, &[(1, &[0, 1, 2]), (5, &[0, 3, 4])]);
    let at_weight: [(u64, &[usize]); 3] = [(2, &[0]), (3, &[0]), (1, &[0])];
    let none: [(u64, &[usize]); 2] = [(5, &[0]), (1, &[1])];
    let behind: [(u64, &[usize]); 4] = [(2, &[0]), (3, &[0]), (0, &[1]), (5, &[1])];
    let last: Vec<(u64, &[usize])> = vec![(1, &[0]); sheet::MOST_TREES];
    vec![
        // loads 2, 5 and 6 on the link of weight 5: trees 0 and 1 count, 3 x (2 + 3) is below 5 + 20
        parallel("a load at the weight, then one more", [5, 20], &at_weight, "answer 1 25 15 0 0 - 1\nside 1\n"),
        // load 5 on weight 4: no tree counts, though tree 1 alone loads the other link with 1 of 20
        parallel("tree 0 overloads a link", [4, 20], &none, "answer 1 24 0 0 0 - 1\nside 1\n"),
        // loads 2 and 5 on weight 4: tree 0 counts, 3 x 2, and not tree 3, which alone loads the other link with 5 of 20
        parallel("trees behind the run that would fit", [4, 20], &behind, "answer 1 24 6 0 0 - 1\nside 1\n"),
        // 32 on weight 31: the first 31 trees count, 3 x 31 is below 31 + 100
        parallel("the last of 32 trees overloads a link", [31, 100], &last, "answer 1 131 93 0 0 - 1\nside 1\n"),
        // network F, and tree 1, which crosses the side of 1 and 3 once, would load link 0 with 6 of 1: 3 x 1 is the side's weight
        documented("F with a tree that does not count", sheet::write(&shows), "answer 2 3 3 1 0 - 2\nside 1 3\n"),
    ]
}

/// Two trees of one link of parallel ones, its weight and both shares the greatest there are: tree 0 loads it to its weight.
fn wide_runs() -> Vec<Documented> {
    let greatest = sheet::MOST_WEIGHT;
    let trees: [(u64, &[usize]); 2] = [(greatest, &[0]); 2];
    let sheet = |links: usize| sheet::write(&network(2, &vec![(0, 1, greatest); links], &trees));
    // 3 x 4,294,967,295 is above the weight of one link and below that of eight
    let one_link = "answer 2 4294967295 4294967295 0 0 - 1\nside 1\n";
    let eight_links = "answer 1 34359738360 12884901885 0 0 - 1\nside 1\n";
    vec![
        documented("shares of 4,294,967,295, one link", sheet(1), one_link),
        documented("shares of 4,294,967,295, eight links", sheet(8), eight_links),
    ]
}

/// Networks for request F-6 whose lightest sides have unlike numbers of nodes, and one whose smallest side is not a lightest.
fn sizes_of_sides() -> Vec<Documented> {
    // a ring in which links 0, 2 and 5 weigh 1 and the others 9: the lightest sides cross two of those three. Link 0 has five nodes below
    // it and link 2 three of these, so both together have the 5 - 3 between them, fewer than link 2 alone
    let nested = [(0, 1, 1), (1, 2, 9), (2, 3, 1), (3, 4, 9), (4, 5, 9), (5, 0, 1)];
    // nodes 1 and 2 and nodes 3 and 4 are joined by a link of 9 and hang by 1 each: links 0 and 2 together have 2 + 2 nodes below them
    // and weigh 2, as link 4 does with three nodes
    let disjoint = [(0, 1, 1), (1, 2, 9), (0, 3, 1), (3, 4, 9), (0, 5, 2), (5, 6, 9), (6, 7, 9), (2, 4, 9)];
    // links 0 and 2 have 2 + 1 nodes below them, links 3 and 5 the 3 - 1 between them; all other sides that the tree shows cross a link
    // of 9
    let both = [(0, 1, 1), (1, 2, 9), (0, 3, 1), (0, 4, 1), (4, 5, 9), (5, 6, 1), (2, 3, 9), (6, 0, 9)];
    // node 2 alone weighs one more than nodes 1 and 2, and node 1 alone as much as both links
    let lighter = [(0, 1, 4_294_967_294), (1, 2, 4_294_967_295)];
    let between = "answer 2 2 2 0 0 2 2\nside 1 2\n";
    let link_4 = "answer 2 2 2 0 4 - 3\nside 5 6 7\n";
    let links_3_and_5 = "answer 2 2 2 0 3 5 2\nside 4 5\n";
    let two_nodes = "answer 1 4294967294 3 0 0 - 2\nside 1 2\n";
    vec![
        one_tree("nested links", 6, &nested, (1, &[0, 1, 2, 3, 4]), between)
            .listed("answer 2 2 2 0 0 - 5\nside 1 2 3 4 5\n"),
        one_tree("links beside each other", 8, &disjoint, (1, &[0, 1, 2, 3, 4, 5, 6]), link_4)
            .listed("answer 2 2 2 0 0 2 4\nside 1 2 3 4\n"),
        one_tree("links beside each other, and nested ones", 7, &both, (1, &[0, 1, 2, 3, 4, 5]), links_3_and_5)
            .listed("answer 2 2 2 0 0 2 3\nside 1 2 3\n"),
        one_tree("a lighter side of more nodes", 3, &lighter, (1, &[0, 1]), two_nodes),
    ]
}

/// Networks in which each further step of request F-6's order decides: fewer nodes before the tree, then the tree, a single link before a
/// pair, and the second link.
fn steps_of_the_order() -> Vec<Documented> {
    // the star around node 1 does not show that node alone, for it crosses three members; the other tree does
    let trees: [(u64, &[usize]); 2] = [(0, &[0, 1, 2]), (1, &[0, 3, 4])];
    let two_trees = |links: Links| sheet::write(&network(4, links, &trees));
    // node 1 weighs 3, and so do nodes 1, 2 and 3 together; nodes 2 and 3 together 4, and what cuts the link of 9 more
    let smaller_later = [(0, 1, 1), (1, 2, 1), (1, 3, 1), (2, 3, 9), (0, 2, 1), (0, 3, 1)];
    // node 1 weighs 3, and so does node 3, which the star shows by link 2; nodes 1 and 3 together 4, and what cuts the link of 9 more
    let as_small_later = [(0, 1, 1), (1, 2, 1), (1, 3, 1), (2, 3, 1), (0, 2, 9), (0, 3, 1)];
    // all sides weigh 2: link 0 alone has node 2 below it, with link 1 above it the two have node 1
    let triangle = [(1, 2, 1), (0, 1, 1), (0, 2, 1)];
    // link 0 is the second of the path: with link 1 above it the two have node 1, with link 2 below it node 2, alone nodes 2 and 3
    let ring = [(1, 2, 1), (0, 1, 1), (2, 3, 1), (3, 0, 1)];
    vec![
        documented("a smaller side of a later tree", two_trees(&smaller_later), "answer 2 3 3 1 0 - 1\nside 1\n")
            .listed("answer 2 3 3 0 0 - 3\nside 1 2 3\n"),
        documented("as small a side of a later tree", two_trees(&as_small_later), "answer 2 3 3 0 2 - 1\nside 3\n"),
        one_tree("a link alone and with another", 3, &triangle, (1, &[0, 1]), "answer 2 2 2 0 0 - 1\nside 2\n"),
        one_tree("a link with either of two", 4, &ring, (1, &[0, 1, 2]), "answer 2 2 2 0 0 1 1\nside 1\n")
            .listed("answer 2 2 2 0 0 - 2\nside 2 3\n"),
    ]
}

/// Sheets for request F-9, in each of which bit 3 of a map byte is set or a map byte is 16.
pub fn with_trunks() -> Vec<Documented> {
    [trunk_numbers(), trunks_cut_off(), other_refusals(), longest()].into_iter().flatten().collect()
}

/// The sheet of these records, with what both programs print.
fn trunked(name: &str, records: &[&[u8]], lines: &str, trunk_lines: &str) -> Documented {
    Documented { trunk_lines: trunk_lines.to_string(), ..documented(name, records.concat(), lines) }
}

/// The sheet of these records, which both programs refuse.
fn refused(name: &str, records: &[&[u8]], number: u32) -> Documented {
    let line = format!("refused {number}\n");
    trunked(name, records, &line, &line)
}

const TRIANGLE_HEADER: &[u8] = &[0x03, 0x00, 0x03, 0x00, 0x01];
/// Network A's link 0 with trunk number 263, and its link 1 without one.
const A_0: &[u8] = &[0x0F, 0x00, 0x00, 0x01, 0x00, 0x03, 0x00, 0x00, 0x00, 0x07, 0x01];
const A_1: &[u8] = &[0x07, 0x01, 0x00, 0x02, 0x00, 0x02, 0x00, 0x00, 0x00];
const A_2: &[u8] = &[0x05, 0x00, 0x00, 0x04, 0x00, 0x00, 0x00];
const A_TREE: &[u8] = &[0x02, 0x00, 0x00, 0x00, 0x05];
/// Network E's link 0, its link 1 with trunk number 5, and its link 2 with and without that number.
const E_0: &[u8] = &[0x07, 0x00, 0x00, 0x01, 0x00, 0x01, 0x00, 0x00, 0x00];
const E_1: &[u8] = &[0x0B, 0x01, 0x00, 0x02, 0x00, 0x05, 0x00];
const E_2: &[u8] = &[0x05, 0x00, 0x00, 0x0A, 0x00, 0x00, 0x00];
const E_2_AGAIN: &[u8] = &[0x0D, 0x00, 0x00, 0x0A, 0x00, 0x00, 0x00, 0x05, 0x00];
const E_TREE: &[u8] = &[0x01, 0x00, 0x00, 0x00, 0x03];

fn trunk_numbers() -> Vec<Documented> {
    let a = "answer 2 5 5 0 0 - 1\nside 1\n";
    let e = "answer 2 2 2 0 0 1 1\nside 1\n";
    // parallel links of weight 4, and a tree of link 0 with share 4: 3 x 4 is the weight of three links
    let three: &[&[u8]] = &[
        &[0x02, 0x00, 0x03, 0x00, 0x01],
        &[0x0F, 0x00, 0x00, 0x01, 0x00, 0x04, 0x00, 0x00, 0x00, 0x01, 0x00],
        &[0x08, 0xFF, 0xFF],
        &[0x00],
        &[0x04, 0x00, 0x00, 0x00, 0x01],
    ];
    let four: &[&[u8]] = &[
        &[0x02, 0x00, 0x04, 0x00, 0x01],
        &[0x0F, 0x00, 0x00, 0x01, 0x00, 0x04, 0x00, 0x00, 0x00, 0x00, 0x00],
        &[0x08, 0x00, 0x01],
        &[0x08, 0x00, 0x01],
        &[0x08, 0x00, 0x00],
        &[0x04, 0x00, 0x00, 0x00, 0x01],
    ];
    let three_lines = "answer 2 12 12 0 0 - 1\nside 1\n";
    let four_lines = "answer 1 16 12 0 0 - 1\nside 1\n";
    vec![
        trunked("A, trunk 263", &[TRIANGLE_HEADER, A_0, A_1, A_2, A_TREE], a, "0 263\n1 263\n2 263\n"),
        trunked("E, trunk 5 from link 1 on", &[TRIANGLE_HEADER, E_0, E_1, E_2, E_TREE], e, "0 0\n1 5\n2 5\n"),
        trunked("E, trunk 5 twice", &[TRIANGLE_HEADER, E_0, E_1, E_2_AGAIN, E_TREE], e, "0 0\n1 5\n2 5\n"),
        trunked("trunks 1 and 65,535", three, three_lines, "0 1\n1 65535\n2 65535\n"),
        trunked("trunks 0, 256, 256 and 0", four, four_lines, "0 0\n1 256\n2 256\n3 0\n"),
    ]
}

/// Sheets that end inside a trunk number or before it. A link with equal ends is refused with 10 only if its trunk number is whole.
fn trunks_cut_off() -> Vec<Documented> {
    let equal_ends: &[u8] = &[0x0F, 0x01, 0x00, 0x01, 0x00, 0x03, 0x00, 0x00, 0x00, 0x07, 0x01];
    let cut = |record: &'static [u8], bytes: usize| &record[..record.len() - bytes];
    vec![
        refused("trunk of link 0 without a byte", &[TRIANGLE_HEADER, cut(A_0, 2)], 9),
        refused("trunk of link 0 with one byte", &[TRIANGLE_HEADER, cut(A_0, 1)], 9),
        refused("trunk of link 1 without a byte", &[TRIANGLE_HEADER, E_0, cut(E_1, 2)], 9),
        refused("trunk of link 1 with one byte", &[TRIANGLE_HEADER, E_0, cut(E_1, 1)], 9),
        refused("trunk of the last link without a byte", &[TRIANGLE_HEADER, E_0, E_1, cut(E_2_AGAIN, 2)], 9),
        refused("trunk of the last link with one byte", &[TRIANGLE_HEADER, E_0, E_1, cut(E_2_AGAIN, 1)], 9),
        refused("equal ends and a trunk number of one byte", &[TRIANGLE_HEADER, &equal_ends[..10]], 9),
        refused("equal ends and a whole trunk number", &[TRIANGLE_HEADER, equal_ends], 10),
    ]
}

/// Link 0 with the map bytes 8 to 14, link 1 with map byte 16, no link behind a whole trunk number, and a byte behind the last tree.
fn other_refusals() -> Vec<Documented> {
    let link_0 = |map: u8| {
        let name = format!("link 0 with map byte {map}");
        refused(&name, &[TRIANGLE_HEADER, &[map], &A_0[1..], A_1, A_2, A_TREE], 8)
    };
    let others = [
        refused("link 1 with map byte 16", &[TRIANGLE_HEADER, E_0, &[0x10], E_2, E_TREE], 8),
        refused("no link behind a whole trunk number", &[TRIANGLE_HEADER, A_0], 7),
        refused("A, trunk 263, and one byte more", &[TRIANGLE_HEADER, A_0, A_1, A_2, A_TREE, &[0x00]], 16),
    ];
    (8..15).map(link_0).chain(others).collect()
}

/// A longest sheet, and one byte more: 2,048 parallel links of weight 32 whose trunk numbers fall from 65,535, and 32 trees of link 0
/// with share 1 each.
fn longest() -> Vec<Documented> {
    let tree: (u64, &[usize]) = (1, &[0]);
    let network = network(2, &[(0, 1, 32); sheet::MOST_LINKS], &[tree; sheet::MOST_TREES]);
    let trunks = (0..sheet::MOST_LINKS).map(|link| 65_535 - link as u16).collect();
    let sheet = sheet::write_with_maps(&Contents { network, trunks }, &[sheet::ALL_FIELDS; sheet::MOST_LINKS]);
    // 2,048 x 32, and 3 x 32
    let lines = "answer 1 65536 96 0 0 - 1\nside 1\n";
    let trunk_lines: String = (0..sheet::MOST_LINKS).map(|link| format!("{link} {}\n", 65_535 - link)).collect();
    vec![
        trunked("a longest sheet", &[&sheet], lines, &trunk_lines),
        refused("a longest sheet and one byte more", &[&sheet, &[0x00]], 16),
    ]
}

#[cfg(test)]
mod tests {
    use super::*;
    use crate::{every_side, report};

    #[test]
    fn the_reference_answers_as_documented() {
        for case in all() {
            assert_eq!(report::lines(&report::outcome(&case.sheet)), case.lines, "{}", case.name);
            let reading = sheet::read_contents(&case.sheet);
            assert_eq!(report::trunk_lines(&reading), case.trunk_lines, "{}", case.name);
        }
    }

    #[test]
    fn every_side_answers_as_documented() {
        for case in all() {
            match sheet::read(&case.sheet) {
                Ok(network) if network.nodes <= every_side::MOST_NODES => {
                    let answer = every_side::answer(&network);
                    assert_eq!(every_side::check_demand(&network, &answer), Ok(()), "{}", case.name);
                    assert_eq!(report::lines(&Ok(answer)), case.lines, "{}", case.name);
                }
                _ => {}
            }
        }
    }

    #[test]
    fn the_writer_gives_case_a() {
        let links = [(0, 1, 3), (1, 2, 2), (0, 2, 4)];
        assert_eq!(sheet::write(&network(3, &links, &[(2, &[0, 2])])), CASE_A);
    }

    #[test]
    fn the_writer_gives_the_shortest_sheets_of_trunk_numbers() {
        let written = |links: &[(usize, usize, u64)], tree, trunks: &[u16]| {
            sheet::write_contents(&Contents { network: network(3, links, &[tree]), trunks: trunks.to_vec() })
        };
        let a = written(&[(0, 1, 3), (1, 2, 2), (0, 2, 4)], (2, &[0, 2]), &[263; 3]);
        assert_eq!(a, [TRIANGLE_HEADER, A_0, A_1, A_2, A_TREE].concat());
        let e = written(&[(0, 1, 1), (1, 2, 1), (0, 2, 10)], (1, &[0, 1]), &[0, 5, 5]);
        assert_eq!(e, [TRIANGLE_HEADER, E_0, E_1, E_2, E_TREE].concat());
    }

    #[test]
    fn a_longest_sheet_has_30_853_bytes() {
        assert_eq!(longest()[0].sheet.len(), 30_853);
        assert_eq!(sheet::LONGEST_SHEET, 30_853);
    }
}
