//! Two sides of a network, and maps that are given for them.

use crate::corners::{Relation, BOTH, FIRST_ONLY, NEITHER, RELATIONS, SECOND_ONLY};
use crate::random::Random;
use crate::report::{side_bytes, Side, SIDE_BYTES};
use crate::sheet::MOST_NODES;

/// The first side and the second.
pub type Sides = [Side; 2];
/// The bytes that are given for them.
pub type Maps = [Vec<u8>; 2];

/// Two sides of a network of so many nodes that are related so; none if the nodes are too few.
pub fn related(random: &mut Random, nodes: usize, relation: Relation) -> Option<Sides> {
    let filled = relation.corners();
    if nodes - 1 < filled.len() {
        return None;
    }
    let mut order: Vec<usize> = (1..nodes).collect();
    random.shuffle(&mut order);
    let others = match random.once_in(4) {
        true => vec![NEITHER],
        false => [filled, &[NEITHER]].concat(),
    };
    let (mut first, mut second) = (Vec::new(), Vec::new());
    for (place, node) in order.into_iter().enumerate() {
        let corner = filled.get(place).copied().unwrap_or_else(|| random.pick(&others));
        first.extend([BOTH, FIRST_ONLY].contains(&corner).then_some(node));
        second.extend([BOTH, SECOND_ONLY].contains(&corner).then_some(node));
    }
    Some([side_bytes(first), side_bytes(second)])
}

/// Two sides of a network of so many nodes, related in any way.
pub fn any(random: &mut Random, nodes: usize) -> Sides {
    loop {
        let relation = random.pick(&RELATIONS);
        if let Some(sides) = related(random, nodes, relation) {
            return sides;
        }
    }
}

/// What makes a map that of no side.
#[derive(Clone, Copy, Debug, PartialEq, Eq)]
pub enum Flaw {
    Empty,
    /// Node 0 is inside.
    Root,
    /// A bit from the node count up.
    Stray(usize),
}

impl Flaw {
    /// Every flaw that a map can have in a network of so many nodes.
    pub fn all(nodes: usize) -> Vec<Flaw> {
        [Flaw::Empty, Flaw::Root].into_iter().chain((nodes..MOST_NODES).map(Flaw::Stray)).collect()
    }

    fn put(self, side: &mut Side) {
        match self {
            Flaw::Empty => *side = [0; SIDE_BYTES],
            Flaw::Root => side[0] |= 1,
            Flaw::Stray(bit) => side[bit / 8] |= 1 << (bit % 8),
        }
    }
}

/// Which of two maps.
#[derive(Clone, Copy, Debug, PartialEq, Eq)]
pub enum Which {
    First,
    Second,
    Both,
}

impl Which {
    pub const ALL: [Which; 3] = [Which::First, Which::Second, Which::Both];

    fn of<T>(self, [first, second]: &mut [T; 2]) -> Vec<&mut T> {
        match self {
            Which::First => vec![first],
            Which::Second => vec![second],
            Which::Both => vec![first, second],
        }
    }

    /// The sides with a flaw in these.
    pub fn with_flaw(self, mut sides: Sides, flaw: Flaw) -> Sides {
        self.of(&mut sides).into_iter().for_each(|side| flaw.put(side));
        sides
    }

    /// The maps with these cut to fewer than 32 bytes.
    pub fn cut_short(self, random: &mut Random, mut maps: Maps) -> Maps {
        self.of(&mut maps).into_iter().for_each(|map| map.truncate(random.below(SIDE_BYTES)));
        maps
    }
}

/// The first bytes of a side, so many, and any bytes from byte 32 on.
pub fn map(random: &mut Random, side: &Side, length: usize) -> Vec<u8> {
    let behind = random.bytes(length.saturating_sub(SIDE_BYTES));
    [&side[..length.min(SIDE_BYTES)], &behind].concat()
}

/// Maps of two sides, of 32 bytes or longer.
pub fn maps(random: &mut Random, sides: &Sides) -> Maps {
    sides.each_ref().map(|side| {
        let longer = if random.once_in(2) { random.below(9) } else { 0 };
        map(random, side, SIDE_BYTES + longer)
    })
}

/// Maps for a network of so many nodes: most are of two sides, some of no side, and few are too short.
pub fn any_maps(random: &mut Random, nodes: usize) -> Maps {
    let mut sides = any(random, nodes);
    if random.once_in(8) {
        let flaw = random.pick(&Flaw::all(nodes));
        sides = random.pick(&Which::ALL).with_flaw(sides, flaw);
    }
    let maps = maps(random, &sides);
    match random.once_in(16) {
        true => random.pick(&Which::ALL).cut_short(random, maps),
        false => maps,
    }
}

#[cfg(test)]
mod tests {
    use super::*;
    use crate::corners;
    use crate::documented;
    use crate::sheet::{Contents, Reading};

    /// The reading of a path of so many nodes.
    fn path(nodes: usize) -> Reading {
        let links: Vec<_> = (1..nodes).map(|node| (node - 1, node, 1)).collect();
        let members: Vec<usize> = (0..links.len()).collect();
        Ok(Contents::without_trunks(documented::network(nodes, &links, &[(1, &members)])))
    }

    #[test]
    fn sides_are_related_as_asked_for() {
        let mut random = Random::new(1);
        for nodes in [2, 3, 4, 5, 9, 256] {
            let reading = path(nodes);
            for relation in RELATIONS {
                let enough = nodes > relation.corners().len();
                for _ in 0..20 {
                    let sides = related(&mut random, nodes, relation);
                    assert_eq!(sides.is_some(), enough);
                    if let Some([first, second]) = sides {
                        assert_eq!(Relation::of(&first, &second), relation);
                        assert!(corners::outcome_of(&reading, &first, &second).is_ok());
                    }
                }
            }
        }
    }

    #[test]
    fn each_flaw_in_each_map_is_refused() {
        let mut random = Random::new(2);
        for (nodes, flaws) in [(2, 256), (8, 250), (255, 3), (256, 2)] {
            assert_eq!(Flaw::all(nodes).len(), flaws);
            let reading = path(nodes);
            for flaw in Flaw::all(nodes) {
                for which in Which::ALL {
                    let [first, second] = which.with_flaw(any(&mut random, nodes), flaw);
                    assert_eq!(corners::outcome_of(&reading, &first, &second), Err(corners::NO_SIDE), "{flaw:?}");
                }
            }
        }
    }

    #[test]
    fn maps_are_of_every_kind() {
        let mut random = Random::new(3);
        let reading = path(9);
        let (mut told, mut longer, mut short, mut no_side) = (0, 0, 0, 0);
        for _ in 0..1000 {
            let [first, second] = any_maps(&mut random, 9);
            match corners::outcome_of(&reading, &first, &second) {
                Ok(_) => {
                    told += 1;
                    longer += usize::from(first.len().max(second.len()) > SIDE_BYTES);
                }
                Err(number) if number == corners::SHORT_MAP => short += 1,
                Err(_) => no_side += 1,
            }
        }
        assert!(told > 700 && longer > 300 && short > 20 && no_side > 50, "{told} {longer} {short} {no_side}");
    }
}
