//! Sheets: from bytes to the network that they hold, or to a refusal. Trunk numbers are stepped over.

#[derive(Clone, Copy)]
pub struct Link {
    pub first: u8,
    pub second: u8,
    pub weight: u32,
}

struct Counts {
    nodes: usize,
    links: usize,
    trees: usize,
}

/// A tree record: the share, the link map and the members that it lists, rising.
pub struct Record<'a> {
    pub share: u32,
    pub map: &'a [u8],
    pub members: Vec<u16>,
}

pub struct Sheet<'a> {
    pub nodes: usize,
    pub links: Vec<Link>,
    pub trees: Vec<Record<'a>>,
}

/// A tree's members, its nodes in the order in which they are reached, and each node's parent and parent link.
pub struct Tree {
    pub members: Vec<u16>,
    pub order: Vec<u8>,
    pub parents: Vec<u8>,
    pub uplinks: Vec<u16>,
}

pub fn read_sheet(sheet: &[u8]) -> Result<Sheet<'_>, u32> {
    let counts = read_counts(sheet)?;
    let mut rest = &sheet[5..];
    let links = read_links(&mut rest, &counts)?;
    let trees = read_trees(&mut rest, counts.nodes, counts.trees, &links)?;
    if !rest.is_empty() {
        return Err(16);
    }
    Ok(Sheet { nodes: counts.nodes, links, trees })
}

fn read_counts(sheet: &[u8]) -> Result<Counts, u32> {
    if sheet.len() < 5 {
        return Err(3);
    }
    let nodes = two(&sheet[0..2]);
    let links = two(&sheet[2..4]);
    let trees = sheet[4] as usize;
    if !(2..=256).contains(&nodes) {
        return Err(4);
    }
    if links < nodes - 1 || links > 2048 {
        return Err(5);
    }
    if trees == 0 || trees > 32 {
        return Err(6);
    }
    Ok(Counts { nodes, links, trees })
}

fn read_links(rest: &mut &[u8], counts: &Counts) -> Result<Vec<Link>, u32> {
    let mut links = Vec::with_capacity(counts.links);
    for _ in 0..counts.links {
        links.push(read_link(rest, counts.nodes, links.last())?);
    }
    Ok(links)
}

fn read_link(rest: &mut &[u8], nodes: usize, before: Option<&Link>) -> Result<Link, u32> {
    let map = take(rest, 1).ok_or(7u32)?[0];
    if map > 15 || (before.is_none() && map % 8 != 7) {
        return Err(8);
    }
    let first = match map & 1 {
        0 => before.map(|l| l.first as usize),
        _ => take(rest, 2).map(two),
    };
    let second = match map & 2 {
        0 => before.map(|l| l.second as usize),
        _ => take(rest, 2).map(two),
    };
    let weight = match map & 4 {
        0 => before.map(|l| l.weight),
        _ => take(rest, 4).map(four),
    };
    let (first, second, weight) = (first.ok_or(9u32)?, second.ok_or(9u32)?, weight.ok_or(9u32)?);
    if map & 8 != 0 {
        take(rest, 2).ok_or(9u32)?;
    }
    if first >= nodes || second >= nodes || first == second {
        return Err(10);
    }
    Ok(Link { first: first as u8, second: second as u8, weight })
}

fn read_trees<'a>(rest: &mut &'a [u8], nodes: usize, trees: usize, links: &[Link]) -> Result<Vec<Record<'a>>, u32> {
    (0..trees).map(|_| read_tree(rest, nodes, links)).collect()
}

fn read_tree<'a>(rest: &mut &'a [u8], nodes: usize, links: &[Link]) -> Result<Record<'a>, u32> {
    let record = take(rest, 4 + links.len().div_ceil(8)).ok_or(12u32)?;
    let (share, map) = record.split_at(4);
    if (links.len()..8 * map.len()).any(|k| bit_set(map, k)) {
        return Err(13);
    }
    let ones: u32 = map.iter().map(|byte| byte.count_ones()).sum();
    if ones as usize != nodes - 1 {
        return Err(14);
    }
    let members = grow_tree(map, nodes, links).ok_or(15u32)?.members;
    Ok(Record { share: four(share), map, members })
}

fn take<'a>(rest: &mut &'a [u8], count: usize) -> Option<&'a [u8]> {
    let (taken, left) = rest.split_at_checked(count)?;
    *rest = left;
    Some(taken)
}

fn two(bytes: &[u8]) -> usize {
    u16::from_le_bytes([bytes[0], bytes[1]]) as usize
}

fn four(bytes: &[u8]) -> u32 {
    u32::from_le_bytes([bytes[0], bytes[1], bytes[2], bytes[3]])
}

pub fn bit_set(map: &[u8], k: usize) -> bool {
    map[k / 8] >> (k % 8) & 1 == 1
}

/// The tree grown from node 0, or nothing if its members do not join all nodes.
pub fn grow_tree(map: &[u8], nodes: usize, links: &[Link]) -> Option<Tree> {
    let members = (0..links.len()).filter(|&k| bit_set(map, k)).map(|k| k as u16);
    let mut tree =
        Tree { members: members.collect(), order: vec![0], parents: vec![0; nodes], uplinks: vec![0; nodes] };
    let mut reached = vec![false; nodes];
    reached[0] = true;
    while tree.order.len() < nodes {
        let (node, parent, link) = next_node(&reached, &tree.members, links)?;
        reached[node as usize] = true;
        tree.order.push(node);
        tree.parents[node as usize] = parent;
        tree.uplinks[node as usize] = link;
    }
    Some(tree)
}

/// The node that the first member with exactly one end reached leads to, its parent and the member.
fn next_node(reached: &[bool], members: &[u16], links: &[Link]) -> Option<(u8, u8, u16)> {
    for &k in members {
        let Link { first, second, .. } = links[k as usize];
        match (reached[first as usize], reached[second as usize]) {
            (true, false) => return Some((second, first, k)),
            (false, true) => return Some((first, second, k)),
            _ => {}
        }
    }
    None
}
