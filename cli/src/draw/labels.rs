//! Numbers at edges and lengths at nodes, and where they are written.

use lexicon::{Diagram, Edge, Node};

use crate::{
    names::{decimal, fraction},
    spelling::letter,
};

use super::{
    frames::{Frame, Obstacle},
    layout::Layout,
    plane::{point, toward, Point},
    sizes::{self, CLEAR, LENGTH, NUMBER, UNIT},
};

/// Something written in a picture.
#[derive(Clone, Debug)]
pub struct Label {
    pub text: String,
    pub size: f64,
    /// Its middle.
    pub at: Point,
    /// Whether it is a length at a node; else it is a number at an edge.
    pub length: bool,
    /// Where it may be written, and how unwelcome each place is in itself.
    places: Vec<(Point, f64)>,
}

/// A diagram as it is drawn, in units of the picture.
pub struct Picture<'a> {
    pub diagram: &'a Diagram,
    pub at: Vec<Point>,
    pub labels: Vec<Label>,
}

/// How many factors are tried to make room for the labels, and by what each exceeds the one before.
const FACTORS: usize = 14;
const FACTOR: f64 = 1.15;

/// The number at an edge, unless it is 3.
pub fn number(edge: Edge) -> Option<String> {
    (edge.num != 3 || edge.den != 1).then(|| fraction(edge))
}

/// The length at a node, unless it is 1 or the node is unringed: the notation's letter for it if
/// that is shorter than its decimals, which for `q` are 1.4142135623730951.
fn length(node: Node) -> Option<String> {
    let (Node::Ringed(value) | Node::Snub(value)) = node else {
        return None;
    };
    let decimals = decimal(value).replace('-', "−").replace("inf", "∞");
    let letter = letter(&node).filter(|_| decimals.len() > 1);
    let text = letter.map_or(decimals, String::from);
    (value.to_bits() != 1.0_f64.to_bits()).then_some(text)
}

/// Makes the picture of a diagram, wide enough that its labels don't collide if that can be.
pub fn picture<'a>(diagram: &'a Diagram, layout: &Layout) -> Picture<'a> {
    let mut best: Option<(f64, Picture)> = None;
    let mut factor = UNIT;
    for _ in 0..FACTORS {
        let mut picture = Picture {
            diagram,
            at: layout.at.iter().map(|&place| place * factor).collect(),
            labels: Vec::new(),
        };
        picture.write(layout);
        let trouble = picture.settle();
        if best.as_ref().is_none_or(|(least, _)| trouble < *least) {
            best = Some((trouble, picture));
        }
        if trouble <= 0.0 {
            break;
        }
        factor *= FACTOR;
    }
    best.map_or_else(
        || unreachable!("some factor is tried"),
        |(_, picture)| picture,
    )
}

impl Picture<'_> {
    /// Nodes and edges as obstacles.
    pub fn obstacles(&self) -> Vec<Obstacle> {
        let nodes = self.diagram.nodes.iter().zip(&self.at);
        let discs = nodes.map(|(&node, &at)| Obstacle::Disc(at, sizes::radius(node)));
        let lines = self.diagram.edges.iter();
        discs
            .chain(lines.map(|edge| Obstacle::Line(self.at[edge.a], self.at[edge.b])))
            .collect()
    }

    /// Adds all labels, with the places where they may be.
    fn write(&mut self, layout: &Layout) {
        for part in &layout.parts {
            let count = part.nodes.iter().fold(0.0, |count, _| count + 1.0);
            let sum = part
                .nodes
                .iter()
                .fold(point(0.0, 0.0), |sum, &v| sum + self.at[v]);
            let middle = (!part.tree).then_some(sum * (1.0 / count));
            for stored in self
                .diagram
                .edges
                .iter()
                .filter(|e| part.nodes.contains(&e.a))
            {
                if let Some(text) = number(stored.edge) {
                    let line = (self.at[stored.a], self.at[stored.b]);
                    let places = along(line, sizes::half(&text, NUMBER), middle);
                    self.labels.push(Label::new(text, NUMBER, false, places));
                }
            }
            for &node in &part.nodes {
                let kind = self.diagram.nodes[node];
                if let Some(text) = length(kind) {
                    let half = sizes::half(&text, LENGTH);
                    let places = around(self.at[node], sizes::radius(kind), half, middle);
                    self.labels.push(Label::new(text, LENGTH, true, places));
                }
            }
        }
    }

    /// Lets each label take its best place until none moves; returns how much they collide.
    fn settle(&mut self) -> f64 {
        let fixed = self.obstacles();
        let mut trouble = 0.0;
        for _ in 0..6 {
            trouble = 0.0;
            let mut moved = false;
            for i in 0..self.labels.len() {
                let others = self.labels.iter().enumerate().filter(|&(j, _)| j != i);
                let others = others.map(|(_, label)| Obstacle::Frame(label.bounds()));
                let obstacles: Vec<Obstacle> = fixed.iter().copied().chain(others).collect();
                let (place, collision) = self.labels[i].best(&obstacles);
                moved |= self.labels[i].at != place;
                self.labels[i].at = place;
                trouble += collision;
            }
            if !moved {
                break;
            }
        }
        trouble
    }
}

impl Label {
    fn new(text: String, size: f64, length: bool, places: Vec<(Point, f64)>) -> Self {
        Self {
            text,
            size,
            at: places[0].0,
            length,
            places,
        }
    }

    pub fn bounds(&self) -> Frame {
        Frame {
            middle: self.at,
            half: sizes::half(&self.text, self.size),
        }
    }

    /// Its best place among obstacles, and how much it collides with them there.
    fn best(&self, obstacles: &[Obstacle]) -> (Point, f64) {
        let half = sizes::half(&self.text, self.size);
        let mut best = (self.at, 0.0, f64::INFINITY);
        for &(middle, unwelcome) in &self.places {
            let (collision, crowding) = collision(Frame { middle, half }, obstacles);
            let cost = 20.0 * collision + crowding + unwelcome;
            if cost < best.2 - 1e-9 {
                best = (middle, collision, cost);
            }
        }
        (best.0, best.1)
    }
}

/// How much a box collides with obstacles, and how near they are beyond that.
pub fn collision(place: Frame, obstacles: &[Obstacle]) -> (f64, f64) {
    let mut collision = 0.0;
    let mut crowding = 0.0;
    for obstacle in obstacles {
        let clear = place.clearance(obstacle);
        collision += (CLEAR - clear - 1e-6).max(0.0);
        crowding += (4.0 * CLEAR - clear).max(0.0) / (4.0 * CLEAR);
    }
    (collision, crowding)
}

/// The places beside an edge, the middle of the better side first. A cycle's better side is its
/// outside, else the upper or the right one is.
fn along((a, b): (Point, Point), half: Point, middle: Option<Point>) -> Vec<(Point, f64)> {
    let line = b - a;
    let mut normal = point(line.y, -line.x) * (1.0 / line.length());
    let outward = middle.map_or(0.0, |middle| ((a + b) * 0.5 - middle).dot(normal));
    let upward = if normal.y.abs() > 0.2 {
        -normal.y
    } else {
        normal.x
    };
    if outward < -1.0 || outward < 1.0 && upward < 0.0 {
        normal = normal * -1.0;
    }
    let aside = normal * (Frame::reach(half, normal) + CLEAR + 0.5);
    let mut places = Vec::new();
    for share in [0.5, 0.45, 0.55, 0.4, 0.6, 0.35, 0.65, 0.3, 0.7] {
        let on = a + line * share;
        let off = (share - 0.5_f64).abs() * 6.0;
        places.push((on + aside, off));
        places.push((on - aside, off + 0.4));
    }
    places
}

/// The places around a node: below first, or outside of a cycle.
fn around(at: Point, radius: f64, half: Point, middle: Option<Point>) -> Vec<(Point, f64)> {
    let above = middle.is_some_and(|middle| at.y < middle.y - 1.0);
    let mut places = Vec::new();
    for (degrees, unwelcome) in [
        (90.0, 0.0),
        (270.0, 0.3),
        (0.0, 0.5),
        (180.0, 0.5),
        (45.0, 0.6),
        (135.0, 0.6),
        (315.0, 0.7),
        (225.0, 0.7),
    ] {
        let direction = toward(if above { -degrees } else { degrees });
        let sign = |x: f64| if x.abs() < 1e-6 { 0.0 } else { x.signum() };
        let room = radius + CLEAR + 0.5;
        let shift =
            direction * room + point(sign(direction.x) * half.x, sign(direction.y) * half.y);
        places.push((at + shift, unwelcome));
    }
    places
}
