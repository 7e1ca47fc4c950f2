//! Trunk numbers for the links of a network.

use crate::network::Network;
use crate::random::Random;
use crate::sheet::Contents;

/// Numbers at the ends of one byte and of two.
const LIMITS: [u16; 6] = [0, 1, 255, 256, 65_534, 65_535];

/// The network with trunk numbers. In half of the cases these are all 0.
pub fn contents(random: &mut Random, network: Network) -> Contents {
    match random.once_in(2) {
        true => Contents::without_trunks(network),
        false => with_trunks(random, network),
    }
}

/// The network with trunk numbers: one for all links, or another at few of them, at every second or at each. Link 0's is 0 or any.
pub fn with_trunks(random: &mut Random, network: Network) -> Contents {
    let at_limits = random.once_in(2);
    let any = |random: &mut Random| if at_limits { random.pick(&LIMITS) } else { random.number() as u16 };
    let links_a_number = random.pick(&[1, 2, 10, usize::MAX]);
    let mut trunk = if random.once_in(3) { 0 } else { any(random) };
    let mut trunks = Vec::new();
    for _ in &network.links {
        trunks.push(trunk);
        if random.once_in(links_a_number) {
            trunk = any(random);
        }
    }
    Contents { network, trunks }
}

#[cfg(test)]
mod tests {
    use super::*;
    use crate::documented::network;
    use crate::generate;
    use crate::sheet::{self, ALL_FIELDS, LINK_FIELDS, TRUNK_BIT};

    const SHEETS: usize = 400;
    const MANY: usize = SHEETS / 40;

    /// How many of some hundred sheets, with the shortest map bytes or with longer ones, are such.
    fn count(longer: bool, such: fn(&[u16], &[u8]) -> bool) -> usize {
        let mut random = Random::new(8);
        let parallel = network(2, &[(0, 1, 4); 12], &[(1, &[0])]);
        let mut is_such = || {
            let contents = contents(&mut random, parallel.clone());
            let maps = match longer {
                true => generate::longer_maps(&mut random, &contents),
                false => sheet::shortest_maps(&contents),
            };
            assert_eq!(sheet::read_contents(&sheet::write_with_maps(&contents, &maps)).as_ref(), Ok(&contents));
            such(&contents.trunks, &maps)
        };
        (0..SHEETS).filter(|_| is_such()).count()
    }

    /// How many link records have a trunk number.
    fn written(maps: &[u8]) -> usize {
        maps.iter().filter(|&&map| map & TRUNK_BIT != 0).count()
    }

    #[test]
    fn trunk_numbers_are_of_every_kind() {
        type Named = (&'static str, fn(&[u16], &[u8]) -> bool);
        let shortest: [Named; 6] = [
            ("none", |trunks, maps| trunks == [0; 12] && written(maps) == 0),
            ("one for all", |trunks, maps| trunks == [trunks[0]; 12] && written(maps) == 1 && maps[0] == ALL_FIELDS),
            ("another at few", |_, maps| (1..4).contains(&written(&maps[1..]))),
            ("another at almost each", |_, maps| written(maps) > 9),
            ("from a later link on", |trunks, maps| trunks[0] == 0 && maps[0] == LINK_FIELDS && written(maps) > 0),
            ("the greatest", |trunks, _| trunks.contains(&65_535)),
        ];
        for (name, kind) in shortest {
            let count = count(false, kind);
            assert!(count > MANY, "{name}: {count}");
        }
        let longer: [Named; 3] = [
            ("none", |_, maps| written(maps) == 0),
            ("0 for all, written", |trunks, maps| trunks == [0; 12] && written(maps) > 0 && maps[0] == ALL_FIELDS),
            ("the same, all written", |trunks, maps| trunks == [trunks[0]; 12] && trunks[0] > 0 && written(maps) == 12),
        ];
        for (name, kind) in longer {
            let count = count(true, kind);
            assert!(count > MANY / 4, "longer, {name}: {count}");
        }
    }
}
