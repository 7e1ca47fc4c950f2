//! Forests of a network's links, which become spanning trees one after another. Links move between forests to make room for one more.
//! Where no such moves are found, there are none.

use reference::network::{Link, Tree};

/// Room for a link in one tree more: as many trees as the number says can hold it, each with this share.
#[derive(Clone, Copy, Debug, PartialEq, Eq)]
pub struct Slot {
    pub share: u64,
    pub number: usize,
    pub link: usize,
}

/// Spanning trees, and while one more grows, the newest forest, which is not yet one.
pub struct Forests<'a> {
    nodes: usize,
    links: &'a [Link],
    /// For each forest and node the link to the node above; a node without one is the top of its part of the forest.
    above: Vec<Vec<Option<usize>>>,
    /// How many forests hold each link.
    held: Vec<usize>,
    /// For each node, which part of the newest forest it is in.
    parts: Vec<usize>,
    /// For each node, which clump it is in. All forests together have no room for one link more between nodes of one clump.
    clumps: Vec<usize>,
}

/// A link that would move, the forest into which it would, and the place of the move that needs its room.
struct Move {
    link: usize,
    into: usize,
    needed_by: usize,
}

/// A search for moves that make room for a link; the first is that of the link itself.
struct Search {
    moves: Vec<Move>,
    /// An end of the link, which is made a top in every forest.
    start: usize,
    /// For each forest, the nodes that links which would move, or which are in a clump, join to the start.
    reached: Vec<Vec<bool>>,
}

impl<'a> Forests<'a> {
    pub fn new(nodes: usize, links: &'a [Link]) -> Forests<'a> {
        let held = vec![0; links.len()];
        Forests { nodes, links, above: Vec::new(), held, parts: Vec::new(), clumps: Vec::new() }
    }

    pub fn count(&self) -> usize {
        self.above.len()
    }

    /// The spanning trees, each with this share.
    pub fn trees(&self, share: u64) -> Vec<Tree> {
        let tree = |above: &Vec<Option<usize>>| {
            let mut members: Vec<usize> = above.iter().copied().flatten().collect();
            members.sort_unstable();
            Tree { share, members }
        };
        self.above.iter().map(tree).collect()
    }

    /// Adds a spanning tree, by slots of falling shares, those of a link with rising numbers. Gives the share of the last slot taken, which
    /// is the largest that so many trees can have alike; none if the slots do not make one tree more.
    pub fn grow(&mut self, slots: &[Slot]) -> Option<u64> {
        self.above.push(vec![None; self.nodes]);
        self.parts = (0..self.nodes).collect();
        self.clumps = (0..self.nodes).collect();
        let mut lacking = self.nodes - 1;
        for slot in slots {
            let free = self.held[slot.link] < slot.number && slot.number <= self.count();
            if free && self.between_clumps(slot.link) && self.insert(slot.link) {
                lacking -= 1;
                if lacking == 0 {
                    return Some(slot.share);
                }
            }
        }
        let unfinished = self.above.pop().unwrap_or_default();
        unfinished.into_iter().flatten().for_each(|link| self.held[link] -= 1);
        None
    }

    fn between_clumps(&self, link: usize) -> bool {
        self.clumps[self.links[link].first] != self.clumps[self.links[link].second]
    }

    /// Puts a link into one forest more, if there is room.
    fn insert(&mut self, link: usize) -> bool {
        let reached = vec![vec![false; self.nodes]; self.count()];
        let mut search = Search { moves: Vec::new(), start: self.links[link].first, reached };
        let mut found = self.meet(&mut search, link, self.count().saturating_sub(2), 0);
        let mut place = 0;
        while !found && place < search.moves.len() {
            let Link { first, second, .. } = self.links[search.moves[place].link];
            found = self.reach(&mut search, first, place) || self.reach(&mut search, second, place);
            place += 1;
        }
        if found {
            self.carry_out(&search.moves);
            self.held[link] += 1;
        } else {
            self.join_clumps(&search);
        }
        found
    }

    /// Notes a move. True if it is the last, into the newest forest, of which the link joins two parts.
    fn meet(&self, search: &mut Search, link: usize, into: usize, needed_by: usize) -> bool {
        let last = self.parts[self.links[link].first] != self.parts[self.links[link].second];
        let into = if last { self.count() - 1 } else { into };
        search.moves.push(Move { link, into, needed_by });
        last
    }

    /// Reaches an end of a link in the forest into which that would move, and notes the moves of the links on the way. True if one is the
    /// last. A link in a clump is left out: in every forest its way is in the clump too, so that no moves lead out of it.
    fn reach(&mut self, search: &mut Search, end: usize, place: usize) -> bool {
        let into = search.moves[place].into;
        if !search.reached[into][search.start] {
            self.lift(into, search.start);
            search.reached[into][search.start] = true;
        }
        let mut way = Vec::new();
        let mut node = end;
        while !search.reached[into][node] {
            search.reached[into][node] = true;
            let link = self.above[into][node].expect("one part has both ends");
            way.push(link);
            node = self.other_end(link, node);
        }
        let next = (into + self.count() - 1) % self.count();
        // the link nearest to the start goes first, so that one end of each is reached before it moves on
        way.into_iter().rev().any(|link| self.between_clumps(link) && self.meet(search, link, next, place))
    }

    /// Carries out the last move, and each that needs its room.
    fn carry_out(&mut self, moves: &[Move]) {
        let mut place = moves.len() - 1;
        let Link { first, second, .. } = self.links[moves[place].link];
        relabel(&mut self.parts, second, first);
        while place > 0 {
            let Move { link, into, needed_by } = moves[place];
            self.part(moves[needed_by].into, link);
            self.join(into, link);
            place = needed_by;
        }
        self.join(moves[0].into, moves[0].link);
    }

    /// Makes one clump of those that a search without success has reached.
    fn join_clumps(&mut self, search: &Search) {
        for node in (0..self.nodes).filter(|&node| search.reached[0][node]) {
            relabel(&mut self.clumps, node, search.start);
        }
    }

    fn other_end(&self, link: usize, node: usize) -> usize {
        self.links[link].first + self.links[link].second - node
    }

    /// Makes a node the top of its part.
    fn lift(&mut self, forest: usize, mut node: usize) {
        let mut above = self.above[forest][node].take();
        while let Some(link) = above {
            node = self.other_end(link, node);
            above = self.above[forest][node].replace(link);
        }
    }

    /// Adds a link, which joins two parts.
    fn join(&mut self, forest: usize, link: usize) {
        let first = self.links[link].first;
        self.lift(forest, first);
        self.above[forest][first] = Some(link);
    }

    /// Takes out a link, which leaves two parts.
    fn part(&mut self, forest: usize, link: usize) {
        let Link { first, second, .. } = self.links[link];
        let lower = if self.above[forest][first] == Some(link) { first } else { second };
        self.above[forest][lower] = None;
    }
}

/// Gives all nodes that have one node's label the other's.
fn relabel(labels: &mut [usize], node: usize, other: usize) {
    let (from, to) = (labels[node], labels[other]);
    if from != to {
        labels.iter_mut().filter(|label| **label == from).for_each(|label| *label = to);
    }
}
