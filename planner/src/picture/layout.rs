//! Where nodes and their names stand.

use super::tree::Tree;
use super::{letters, Drawing};

/// Outlines are kept in slices of this height, in pixels.
const SLICE: f64 = 3.0;

/// How far names are turned, in degrees.
const TURN: f64 = 60.0;

/// Where level names of inner nodes make the layout wider than that, they are turned too.
const WIDEST_LEVEL: f64 = 2000.0;

/// A leaf's name of that width, in parts of the size of its letters, is not turned.
const SHORT_NAME: f64 = 1.9;

#[derive(Clone, Copy, Debug)]
pub struct Point {
    pub x: f64,
    pub y: f64,
}

/// A box around a part of the picture.
#[derive(Clone, Copy, Debug)]
pub struct Frame {
    pub left: f64,
    pub top: f64,
    pub right: f64,
    pub bottom: f64,
}

impl Frame {
    pub fn around(Point { x, y }: Point, width: f64, height: f64) -> Frame {
        Frame { left: x - width / 2.0, top: y - height / 2.0, right: x + width / 2.0, bottom: y + height / 2.0 }
    }

    pub fn holds(&self, Point { x, y }: Point) -> bool {
        self.left <= x && x <= self.right && self.top <= y && y <= self.bottom
    }

    pub fn joined(self, other: Frame) -> Frame {
        let (left, top) = (self.left.min(other.left), self.top.min(other.top));
        Frame { left, top, right: self.right.max(other.right), bottom: self.bottom.max(other.bottom) }
    }
}

/// Where a name stands, and by how many degrees it is turned.
#[derive(Clone, Copy, Debug, PartialEq)]
pub enum Hang {
    /// In the middle below its node.
    Under,
    /// From its node on.
    From(f64),
    /// Up to its node.
    UpTo(f64),
}

pub struct Layout {
    /// The size of letters in names.
    pub size: f64,
    /// The middle of each node.
    pub places: Vec<Point>,
    /// Names as shown.
    pub names: Vec<String>,
    pub hangs: Vec<Hang>,
}

impl Layout {
    pub fn new(drawing: &Drawing) -> Layout {
        let tree = Tree::new(drawing);
        let level = Layout::of_tree(drawing, &tree, false);
        let Frame { left, right, .. } = level.extent();
        if right - left <= WIDEST_LEVEL {
            return level;
        }
        Layout::of_tree(drawing, &tree, true)
    }

    /// The layout of a tree; steep if the names of inner nodes are turned.
    fn of_tree(drawing: &Drawing, tree: &Tree, steep: bool) -> Layout {
        let size = (12.4 - drawing.nodes.len() as f64 / 50.0).max(8.0);
        let row = row_height(tree, size);
        let places = tree.depths.iter().map(|&depth| Point { x: 0.0, y: (depth + 2) as f64 * row }).collect();
        let names: Vec<String> = drawing.nodes.iter().map(|node| letters::shortened(&node.name)).collect();
        let hangs = hangs(tree, &names, steep);
        let mut layout = Layout { size, places, names, hangs };
        layout.hang_up(tree, 0);
        for &node in &tree.downward {
            for &child in &tree.children[node] {
                layout.places[child].x += layout.places[node].x;
            }
        }
        layout
    }

    pub fn radius(&self, node: usize) -> f64 {
        self.size * if node == 0 { 0.62 } else { 0.45 }
    }

    /// How far from the middle of its node a name starts.
    pub fn start(&self, node: usize) -> f64 {
        self.radius(node) + 0.35 * self.size
    }

    /// How far above its node's middle a name's middle is: level names keep off links to the sides.
    pub fn lift(&self, turn: f64) -> f64 {
        if turn == 0.0 {
            0.3 * self.size
        } else {
            0.0
        }
    }

    /// What all nodes and names cover.
    pub fn extent(&self) -> Frame {
        let frames = (0..self.places.len()).flat_map(|node| self.frames(node));
        frames.reduce(Frame::joined).expect("a drawing has nodes")
    }

    /// Boxes that cover a node, the first, and its name.
    pub fn frames(&self, node: usize) -> Vec<Frame> {
        let Point { x, y } = self.places[node];
        let (radius, start) = (self.radius(node), self.start(node));
        let length = letters::width(&self.names[node]) * self.size;
        let mut frames = vec![Frame::around(Point { x, y }, 2.0 * radius, 2.0 * radius)];
        let (turn, sign) = match self.hangs[node] {
            Hang::Under => {
                frames.push(Frame::around(Point { x, y: y + start + 0.4 * self.size }, length, self.size));
                return frames;
            }
            Hang::From(turn) => (turn, 1.0),
            Hang::UpTo(turn) => (turn, -1.0),
        };
        let (down, right) = turn.to_radians().sin_cos();
        let (width, height) = (self.size * down + SLICE * right, self.size * right + SLICE * down);
        frames.extend((0..(length / SLICE).ceil() as usize).map(|part| {
            let way = sign * (start + SLICE * (part as f64 + 0.5));
            Frame::around(Point { x: x + way * right, y: y + way * down - self.lift(turn) }, width, height)
        }));
        frames
    }

    /// Places what hangs below a node, each node from its parent; the outline of it all, from the node.
    fn hang_up(&mut self, tree: &Tree, node: usize) -> Outline {
        let children = &tree.children[node];
        let below: Vec<Outline> = children.iter().map(|&child| self.hang_up(tree, child)).collect();
        let mut outline = Outline(Vec::new());
        for ((&child, below), x) in children.iter().zip(&below).zip(spread(&below, 0.45 * self.size)) {
            self.places[child].x = x;
            outline.add(below, x);
            outline.cover_line(self.places[node], self.places[child]);
        }
        self.frames(node).into_iter().for_each(|frame| outline.cover(frame));
        outline
    }
}

/// How far rows are apart: less where there are many, more where there are many leaves.
fn row_height(tree: &Tree, size: f64) -> f64 {
    let rows = tree.depths.iter().fold(0, |deepest, &depth| deepest.max(depth)) as f64 + 1.0;
    let leaves = tree.children.iter().filter(|children| children.is_empty()).count() as f64;
    let wide = (0.6 * leaves * size / rows).min(40.0 * size);
    (800.0 / rows).min(7.5 * size).max(wide).max(3.0 * size)
}

/// Inner nodes have level names away from their parents' links.
fn hangs(tree: &Tree, names: &[String], steep: bool) -> Vec<Hang> {
    let inner = |left: bool| match (steep, left) {
        (true, _) => Hang::UpTo(TURN),
        (false, true) => Hang::UpTo(0.0),
        (false, false) => Hang::From(0.0),
    };
    let mut hangs = vec![inner(false); names.len()];
    for siblings in &tree.children {
        for (place, &node) in siblings.iter().enumerate() {
            hangs[node] = match tree.children[node].is_empty() {
                true if letters::width(&names[node]) <= SHORT_NAME => Hang::Under,
                true => Hang::From(TURN),
                false => inner(2 * place + 1 < siblings.len()),
            };
        }
    }
    hangs
}

/// Where outlines stand clear of each other, around 0: each between as far left and as far right as it can be.
fn spread(outlines: &[Outline], gap: f64) -> Vec<f64> {
    let apart = |one: usize, other: usize| outlines[one].distance(&outlines[other]) + gap;
    let mut left = vec![0.0; outlines.len()];
    for place in 1..outlines.len() {
        left[place] = (0..place).map(|before| left[before] + apart(before, place)).fold(f64::MIN, f64::max);
    }
    let mut right = left.clone();
    for place in (1..outlines.len()).rev() {
        let behind = place..outlines.len();
        right[place - 1] = behind.map(|behind| right[behind] - apart(place - 1, behind)).fold(f64::MAX, f64::min);
    }
    let middle = left.last().map_or(0.0, |last| last / 2.0);
    left.iter().zip(right).map(|(left, right)| (left + right) / 2.0 - middle).collect()
}

/// How far a part of the picture reaches to the left and to the right, slice by slice.
struct Outline(Vec<(f64, f64)>);

impl Outline {
    /// How far to the right another outline touches this one.
    fn distance(&self, other: &Outline) -> f64 {
        self.0.iter().zip(&other.0).map(|(one, other)| one.1 - other.0).fold(f64::MIN, f64::max)
    }

    /// Covers what another outline does that is moved aside.
    fn add(&mut self, other: &Outline, aside: f64) {
        for (slice, &(left, right)) in other.0.iter().enumerate() {
            let middle = (slice as f64 + 0.5) * SLICE;
            self.cover(Frame { left: left + aside, top: middle, right: right + aside, bottom: middle });
        }
    }

    fn cover(&mut self, frame: Frame) {
        let (first, last) = ((frame.top / SLICE) as usize, (frame.bottom / SLICE) as usize);
        if self.0.len() <= last {
            self.0.resize(last + 1, (f64::MAX, f64::MIN));
        }
        for (left, right) in &mut self.0[first..=last] {
            *left = left.min(frame.left);
            *right = right.max(frame.right);
        }
    }

    /// Covers the link from a node to a child.
    fn cover_line(&mut self, from: Point, to: Point) {
        let slices = ((to.y - from.y) / SLICE).ceil();
        let (across, down) = ((to.x - from.x) / slices, (to.y - from.y) / slices);
        for slice in 0..slices as usize {
            let part = slice as f64 + 0.5;
            let middle = Point { x: from.x + part * across, y: from.y + part * down };
            self.cover(Frame::around(middle, across.abs(), down));
        }
    }
}
