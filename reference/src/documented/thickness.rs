//! Figures for request F-7, reckoned by hand from the sides of document 01's networks and of others.

use super::{network, Links, RING};
use crate::network::Network;
use crate::thickness::{Question, Told, OUT_OF_REACH};

/// A link of a network with figures for some wanted weights, rising, and the least wanted weight that is out of reach.
#[derive(Clone)]
pub struct Figures {
    pub name: String,
    pub network: Network,
    link: u32,
    figures: Vec<(u64, u32)>,
    out_of_reach: u64,
}

impl Figures {
    /// The questions with what they are told.
    pub fn told(&self) -> Vec<(Question, Told)> {
        let question = |wanted| Question { link: self.link, wanted };
        let figures = self.figures.iter().map(|&(wanted, figure)| (question(wanted), Ok(figure)));
        let refused = [self.out_of_reach, u64::MAX].map(|wanted| (question(wanted), Err(OUT_OF_REACH)));
        figures.chain(refused).collect()
    }
}

/// The figures of one link of a network.
type OfLink<'a> = (u32, &'a [(u64, u32)], u64);

fn of_links(name: &str, network: &Network, links: &[OfLink]) -> Vec<Figures> {
    let of_link = |&(link, figures, out_of_reach): &OfLink| {
        let (name, network, figures) = (format!("{name}, link {link}"), network.clone(), figures.to_vec());
        Figures { name, network, link, figures, out_of_reach }
    };
    links.iter().map(of_link).collect()
}

/// All of them.
pub fn figures() -> Vec<Figures> {
    [triangles(), rings(), hidden_side(), two_nodes(), wide(), longest_path()].into_iter().flatten().collect()
}

/// Networks A and E: all sides are shown.
fn triangles() -> Vec<Figures> {
    let a: Links = &[(0, 1, 3), (1, 2, 2), (0, 2, 4)];
    let e: Links = &[(0, 1, 1), (1, 2, 1), (0, 2, 10)];
    // node 1 weighs 3 + 2, node 2 weighs 2 + 4, both 3 + 4
    let of_a: [OfLink; 3] = [
        (0, &[(0, 0), (2, 0), (3, 1), (5, 3), (6, 4)], 7),
        (1, &[(0, 0), (3, 0), (4, 1), (5, 2), (7, 4)], 8),
        (2, &[(0, 0), (2, 0), (3, 1), (5, 3)], 6),
    ];
    // nodes 1 and 2 weigh 1 + 10, node 2 weighs 1 + 10, node 1, by a pair, 1 + 1
    let of_e: [OfLink; 3] =
        [(0, &[(1, 0), (2, 1), (11, 10)], 12), (1, &[(1, 0), (2, 1), (11, 10)], 12), (2, &[(1, 0), (2, 1)], 3)];
    let a = of_links("A", &network(3, a, &[(2, &[0, 2])]), &of_a);
    let e = of_links("E", &network(3, e, &[(1, &[0, 1])]), &of_e);
    [a, e].concat()
}

/// Networks C and I: each side without a gap weighs 2 and is shown, and for every link there are such with it and without it.
fn rings() -> Vec<Figures> {
    let of_ring: [OfLink; 3] =
        [(0, &[(0, 0), (1, 0), (2, 1)], 3), (1, &[(0, 0), (1, 0), (2, 1)], 3), (3, &[(0, 0), (1, 0), (2, 1)], 3)];
    let c = of_links("C", &network(4, &RING, &[(1, &[0, 1, 2])]), &of_ring);
    let i = of_links("I", &network(4, &RING, &[(0, &[0, 1, 2]), (0, &[1, 2, 3])]), &of_ring);
    [c, i].concat()
}

/// Network F, and F with a second tree, which shows the side of nodes 1 and 3.
fn hidden_side() -> Vec<Figures> {
    let links: Links = &[(0, 1, 1), (1, 2, 1), (2, 3, 1), (0, 2, 10), (1, 3, 10)];
    let first: (u64, &[usize]) = (1, &[0, 1, 2]);
    // nodes 1, 2 and 3 weigh 1 + 10, node 3 as much, nodes 2 and 3 weigh 1 + 10 + 10, node 1 and node 2 weigh 1 + 1 + 10, both together
    // 1 + 1 + 10 + 10
    let of_f: [OfLink; 5] = [
        (0, &[(10, 0), (11, 1)], 12),
        (1, &[(10, 0), (11, 0)], 12),
        (2, &[(10, 0), (11, 1)], 12),
        (3, &[(1, 0), (2, 1), (11, 10)], 12),
        (4, &[(1, 0), (2, 1), (11, 10)], 12),
    ];
    // nodes 1 and 3 weigh 1 + 1 + 1, by links 0, 1 and 2
    let of_both: [OfLink; 5] = [
        (0, &[(2, 0), (3, 1), (11, 9)], 12),
        (1, &[(2, 0), (3, 1), (11, 9)], 12),
        (2, &[(2, 0), (3, 1), (11, 9)], 12),
        (3, &[(1, 0), (2, 1), (3, 2)], 4),
        (4, &[(1, 0), (2, 1), (3, 2)], 4),
    ];
    let f = of_links("F", &network(4, links, &[first]), &of_f);
    let both = of_links("F with a second tree", &network(4, links, &[first, (5, &[0, 3, 4])]), &of_both);
    [f, both].concat()
}

/// Networks G and H, and parallel links: the one side weighs what all links weigh.
fn two_nodes() -> Vec<Figures> {
    const MOST: u32 = u32::MAX;
    let of_one: [OfLink; 1] = [(0, &[(0, 0), (3, 3), (4, 4), (5, 5), (4_294_967_295, MOST)], 4_294_967_296)];
    let of_two: [OfLink; 2] = [
        (0, &[(0, 0), (9, 0), (10, 1), (18, 9), (4_294_967_304, MOST)], 4_294_967_305),
        (1, &[(0, 0), (9, 0), (10, 1), (18, 9), (4_294_967_304, MOST)], 4_294_967_305),
    ];
    // 2,047 x 4,294,967,295, one more, and 2,048 x 4,294,967,295
    let of_many: [OfLink; 1] =
        [(2047, &[(8_791_798_052_865, 0), (8_791_798_052_866, 1), (8_796_093_020_160, MOST)], 8_796_093_020_161)];
    let parallel = |name, links, told| of_links(name, &network(2, links, &[(7, &[0])]), told);
    [
        parallel("G", &[(0, 1, 0)], &of_one),
        parallel("H", &[(0, 1, 4)], &of_one),
        parallel("two parallel links", &[(0, 1, 9), (1, 0, 9)], &of_two),
        parallel("2,048 parallel links", &[(0, 1, u64::from(MOST)); 2048], &of_many),
    ]
    .concat()
}

/// A path of three nodes with parallel links: nodes 1 and 2 weigh three times 4,294,967,295, node 2 weighs 5 more than that once.
fn wide() -> Vec<Figures> {
    const MOST: u64 = u32::MAX as u64;
    let links: Links = &[(0, 1, MOST), (1, 0, MOST), (0, 1, MOST), (1, 2, MOST), (1, 2, 5)];
    let of_wide: [OfLink; 3] = [
        (0, &[(MOST, 0), (MOST + 5, 0)], MOST + 6),
        (3, &[(5, 0), (6, 1), (65_541, 65_536), (MOST + 5, u32::MAX)], MOST + 6),
        (4, &[(MOST, 0), (MOST + 1, 1), (MOST + 6, 6), (8_589_934_590, u32::MAX)], 8_589_934_591),
    ];
    of_links("a wide path", &network(3, links, &[(1, &[0, 3])]), &of_wide)
}

/// A path of 256 nodes whose links weigh 9, but the last one 2 and the one before it 3.
fn longest_path() -> Vec<Figures> {
    let mut links: Vec<_> = (0..255).map(|node| (node, node + 1, 9)).collect();
    (links[253].2, links[254].2) = (3, 2);
    let members: Vec<usize> = (0..255).collect();
    let of_path: [OfLink; 3] =
        [(0, &[(1, 1), (2, 2)], 3), (253, &[(0, 0), (1, 1), (2, 2)], 3), (254, &[(0, 0), (2, 2), (3, 3)], 4)];
    of_links("a path of 256 nodes", &network(256, &links, &[(1, &members)]), &of_path)
}

#[cfg(test)]
mod tests {
    use super::*;
    use crate::every_side;
    use crate::sheet::Contents;
    use crate::thickness;

    #[test]
    fn the_reference_tells_what_was_reckoned() {
        for figures in figures() {
            let reading = Ok(Contents::without_trunks(figures.network.clone()));
            for (question, told) in figures.told() {
                assert_eq!(thickness::outcome_of(&reading, question), told, "{}: {question:?}", figures.name);
                assert_eq!(thickness::check(&figures.network, question, told), Ok(()), "{}", figures.name);
                if figures.network.nodes <= every_side::MOST_NODES {
                    assert_eq!(thickness::by_every_side(&figures.network, question), told, "{}", figures.name);
                }
            }
        }
    }

    #[test]
    fn the_last_figure_stands_right_before_what_is_out_of_reach() {
        for figures in figures() {
            assert!(figures.figures.is_sorted());
            assert_eq!(
                figures.figures.last().map(|(wanted, _)| wanted + 1),
                Some(figures.out_of_reach),
                "{}",
                figures.name
            );
        }
    }
}
