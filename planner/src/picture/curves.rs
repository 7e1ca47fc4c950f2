//! The ways of links between their nodes, and where the labels of marked links stand.

use super::layout::{Frame, Layout, Point};
use super::{letters, Drawing, Link, Mark};
use std::collections::{BTreeMap, BTreeSet, HashMap};
use std::f64::consts::FRAC_PI_4;

/// The side of the cells of the ground, in pixels.
const CELL: f64 = 3.0;

/// So many bends are tried for a link.
const BENDS: usize = 8;

/// So many spots are tried for all labels together.
const SPOTS: usize = 40_000;

/// Links between the same two nodes keep within that many pixels.
const SPREAD: f64 = 400.0;

/// How bad it is that a link goes over a cell of a name, or of a node.
const NAME: f64 = 0.15;
const NODE: f64 = 1.5;

/// How bad it is that a label covers a cell of a link, or of a name, a node or another label.
const LINK: f64 = 0.05;
const TEXT: f64 = 20.0;

/// A curve with one bend, or a straight line.
pub struct Curve {
    pub from: Point,
    /// Where a curve points to at both ends; the middle of a straight line.
    pub bend: Point,
    pub to: Point,
}

impl Curve {
    /// A curve whose middle is so far beside the straight line.
    fn new(from: Point, to: Point, aside: f64) -> Curve {
        let part = 2.0 * aside / apart(from, to);
        let (x, y) = ((from.x + to.x) / 2.0, (from.y + to.y) / 2.0);
        Curve { from, bend: Point { x: x + part * (to.y - from.y), y: y - part * (to.x - from.x) }, to }
    }

    /// The point behind that part of the way.
    fn point(&self, part: f64) -> Point {
        let rest = 1.0 - part;
        let between = |from: f64, bend: f64, to: f64| rest * rest * from + 2.0 * rest * part * bend + part * part * to;
        Point { x: between(self.from.x, self.bend.x, self.to.x), y: between(self.from.y, self.bend.y, self.to.y) }
    }

    /// How much of the curve a frame hides, beyond a part that may be hidden.
    fn hidden(&self, frame: &Frame) -> f64 {
        (self.points(20).filter(|&point| frame.holds(point)).count() as f64 / 20.0 - 0.4).max(0.0)
    }

    fn points(&self, count: usize) -> impl Iterator<Item = Point> + '_ {
        (0..=count).map(move |place| self.point(place as f64 / count as f64))
    }

    /// About a point for each cell on the way.
    fn dense_points(&self) -> impl Iterator<Item = Point> + '_ {
        self.points((apart(self.from, self.to) / CELL).ceil() as usize)
    }
}

fn apart(one: Point, other: Point) -> f64 {
    (one.x - other.x).hypot(one.y - other.y)
}

/// What of the picture is taken: how bad it is to cover a cell.
struct Ground(HashMap<(i32, i32), f64>);

impl Ground {
    /// The ground below a layout, with what a cell of a name and of a node costs.
    fn new(layout: &Layout, name_cost: f64, node_cost: f64) -> Ground {
        let mut ground = Ground(HashMap::new());
        for node in 0..layout.places.len() {
            let frames = layout.frames(node);
            frames[1..].iter().for_each(|&name| ground.take(name, name_cost));
            ground.take(frames[0], node_cost);
        }
        ground
    }

    /// The cells that a frame touches.
    fn cells(frame: Frame) -> impl Iterator<Item = (i32, i32)> {
        let range = |from: f64, to: f64| (from / CELL).floor() as i32..=(to / CELL).floor() as i32;
        let columns = range(frame.left, frame.right);
        range(frame.top, frame.bottom).flat_map(move |row| columns.clone().map(move |column| (row, column)))
    }

    fn take(&mut self, frame: Frame, cost: f64) {
        Ground::cells(frame).for_each(|cell| _ = self.0.insert(cell, cost));
    }

    fn cost(&self, frame: Frame) -> f64 {
        Ground::cells(frame).filter_map(|cell| self.0.get(&cell)).sum()
    }

    /// The cost of a curve, but for the nodes at its ends.
    fn cost_of_curve(&self, curve: &Curve, size: f64) -> f64 {
        let clear = |point: &Point| apart(*point, curve.from).min(apart(*point, curve.to)) > 0.8 * size;
        let points = curve.dense_points().filter(clear);
        points.map(|point| self.cost(Frame::around(point, 0.0, 0.0))).sum()
    }
}

/// The curve of each link: members are straight, others are bent around what stands in their way, parallel ones apart.
pub fn curves(drawing: &Drawing, layout: &Layout) -> Vec<Curve> {
    let ground = Ground::new(layout, NAME, NODE);
    let ends = |link: &Link| (link.first.min(link.second), link.first.max(link.second));
    let mut used: BTreeMap<(usize, usize), BTreeSet<i32>> = BTreeMap::new();
    let curve = |link: &Link| {
        let (from, to) = (layout.places[ends(link).0], layout.places[ends(link).1]);
        if link.member {
            return Curve::new(from, to, 0.0);
        }
        let used = used.entry(ends(link)).or_default();
        let least = (0.6 * (apart(from, to) * layout.size).sqrt()).max(1.4 * layout.size);
        let parallel = drawing.links.iter().filter(|other| ends(other) == ends(link)).count();
        let step = least.min(SPREAD / parallel as f64);
        let bent = |bend: i32| Curve::new(from, to, f64::from(bend) * step);
        let cost = |bend: i32| ground.cost_of_curve(&bent(bend), layout.size) + 0.4 * f64::from(bend * bend);
        let free = (1..).flat_map(|bend| [bend, -bend]).filter(|bend| !used.contains(bend)).take(BENDS);
        let best = least_by(free, |&bend| cost(bend));
        used.insert(best);
        bent(best)
    };
    drawing.links.iter().map(curve).collect()
}

/// The boxes for the labels of marked links, by link number; on their links where there is room, crossing links first.
pub fn labels(drawing: &Drawing, layout: &Layout, curves: &[Curve]) -> Vec<(usize, Frame)> {
    let mut ground = Ground::new(layout, TEXT, TEXT);
    for point in curves.iter().flat_map(Curve::dense_points) {
        Ground::cells(Frame::around(point, 0.0, 0.0)).for_each(|cell| _ = ground.0.entry(cell).or_insert(LINK));
    }
    let with = |mark: Mark| (0..curves.len()).filter(move |&number| drawing.links[number].mark == mark);
    let marked: Vec<usize> = with(Mark::Crossing).chain(with(Mark::Tie)).collect();
    let tried = SPOTS / marked.len().max(1);
    let label = |number: usize| {
        let (curve, size) = (&curves[number], layout.size);
        let width = (letters::width(&drawing.links[number].label()) + 0.7) * size;
        let frames = spots(curve, size).take(tried).map(|spot| Frame::around(spot, width, 1.4 * size));
        let cost = |frame: &Frame| ground.cost(*frame) + curve.hidden(frame);
        let (_, best) = least_by(frames.enumerate(), |(place, frame)| cost(frame) + 0.06 * *place as f64);
        ground.take(best, TEXT);
        (number, best)
    };
    marked.iter().copied().map(label).collect()
}

/// Where a label may stand: along the curve, then more and more beside it, each time from the middle on.
fn spots(curve: &Curve, size: f64) -> impl Iterator<Item = Point> + '_ {
    let along = move |count: i32| {
        let steps = (0..count).map(|place| if place % 2 == 0 { place / 2 } else { -place / 2 - 1 });
        steps.map(move |step| curve.point(0.5 + 0.8 * f64::from(step) / f64::from(count)))
    };
    let beside = (0..24).flat_map(move |place| {
        let (down, right) = (f64::from(place) * FRAC_PI_4).sin_cos();
        let far = 1.2 * size * f64::from(place / 8 + 1);
        along(6).map(move |Point { x, y }| Point { x: x + right * far, y: y + down * far })
    });
    along(18).chain(beside)
}

/// The first of those that cost least.
fn least_by<T>(all: impl Iterator<Item = T>, cost: impl Fn(&T) -> f64) -> T {
    let costs = all.map(|one| (cost(&one), one));
    costs.min_by(|one, other| one.0.total_cmp(&other.0)).expect("there is one").1
}

/// What nodes, names, links and labels cover, and some room around links.
pub fn extent(layout: &Layout, curves: &[Curve], labels: &[(usize, Frame)]) -> Frame {
    let room = 2.6 * layout.size;
    let points = curves.iter().flat_map(|curve| curve.points(20)).map(|point| Frame::around(point, room, room));
    points.chain(labels.iter().map(|(_, frame)| *frame)).fold(layout.extent(), Frame::joined)
}
