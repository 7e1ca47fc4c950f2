//! The weights of a tree's links and pairs, in rows by place. The row of a place has its link alone and with each link behind it; the
//! rows are made from the last place down.

use crate::places::{AtNodes, Placed};

pub struct Rows<'a> {
    /// The links at each node, with their weights.
    links: &'a AtNodes<u32>,
    pub placed: &'a Placed,
    /// For each place, the weight of the links between it and the places below the row's link.
    between: Vec<u64>,
    /// From the row's place on, the sums of what crosses the row's link at each place.
    crossing: Vec<u64>,
    /// From the row's place on, what each link weighs alone.
    singles: Vec<u64>,
}

impl<'a> Rows<'a> {
    pub fn new(links: &'a AtNodes<u32>, placed: &'a Placed) -> Rows<'a> {
        let places = placed.nodes.len();
        Rows { links, placed, between: vec![0; places], crossing: vec![0; places + 1], singles: vec![0; places] }
    }

    /// Makes the row of place `u` from that of `u + 1`, its first child's where it has one.
    pub fn make(&mut self, u: usize) {
        let stop = self.placed.stops[u];
        let mut kept = u + 1;
        if kept < stop {
            kept = self.placed.stops[u + 1];
        } else {
            self.between.fill(0);
        }
        for place in kept..stop {
            self.add_links(place);
        }
        self.add_links(u);
        self.sum_up(u, stop);
        self.singles[u] = self.crossing[stop];
    }

    fn add_links(&mut self, place: usize) {
        for &(other, weight) in self.links.of(self.placed.nodes[place]) {
            self.between[self.placed.places[other as usize]] += weight as u64;
        }
    }

    /// What crosses is inside, up to `stop`, all links of a place but those between, and behind it those between.
    fn sum_up(&mut self, u: usize, stop: usize) {
        let mut sum = 0;
        let inside = self.crossing[u..stop].iter_mut().zip(&self.placed.degrees[u..stop]).zip(&self.between[u..stop]);
        for ((crossing, degree), between) in inside {
            *crossing = sum;
            sum += degree - between;
        }
        for (crossing, between) in self.crossing[stop..].iter_mut().zip(&self.between[stop..]) {
            *crossing = sum;
            sum += between;
        }
        self.crossing[self.between.len()] = sum;
    }

    pub fn single(&self, u: usize) -> u64 {
        self.singles[u]
    }

    /// What the link at the row's place `u` weighs as a pair with the link of each place behind it.
    pub fn pairs(&self, u: usize) -> impl Iterator<Item = u64> + '_ {
        let single = self.singles[u];
        let behind = self.crossing[u + 1..].iter().zip(&self.placed.stops[u + 1..]).zip(&self.singles[u + 1..]);
        behind.map(move |((crossing, &stop), other)| {
            let shared = self.crossing[stop] - crossing;
            single + other - 2 * shared
        })
    }
}
