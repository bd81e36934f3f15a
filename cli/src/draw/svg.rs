//! The picture as an SVG.

use std::fmt::{Arguments, Write};

use lexicon::Node;

use super::{
    frames::Frame,
    labels::Picture,
    loops::Loop,
    plane::{bounds, point, Point},
    sizes::{CLEAR, DOT, MARGIN, NUMBER, RING, STROKE},
};

const FILLED: &str = " fill=\"black\" stroke=\"none\"";

/// How far the handles of a loop's curve are along it, in distances of its tip from its middle, and
/// how far across, in those along it. The curve reaches three quarters of the way to them.
const DROP: (f64, f64) = (1.95, 0.8);

/// Writes a picture, all that belongs to loops at its end.
pub fn svg(picture: &Picture, loops: &[Loop]) -> String {
    let (low, high) = page(picture, loops);
    // The nodes' own page decides where they are, whatever loops add to it.
    let origin = page(picture, &[]).0;
    let size = high - low;
    let corner = low - origin;
    let count = picture.at.len();
    let mut svg = Svg {
        text: String::new(),
        origin,
    };
    svg.line(format_args!(
        "<svg xmlns=\"http://www.w3.org/2000/svg\" viewBox=\"{} {} {} {}\" width=\"{2}\" height=\"{3}\">",
        decimal(corner.x), decimal(corner.y), decimal(size.x), decimal(size.y)
    ));
    let s = if count == 1 { "" } else { "s" };
    svg.line(format_args!(
        "<title>Coxeter diagram of {count} node{s}</title>"
    ));
    svg.strokes();
    svg.edges(picture);
    svg.nodes(picture);
    svg.end();
    svg.letters();
    svg.labels(picture);
    svg.end();
    svg.loops(loops);
    svg.line(format_args!("</svg>"));
    svg.text
}

/// The corners of the page that has room for all.
fn page(picture: &Picture, loops: &[Loop]) -> (Point, Point) {
    let (low, high) = bounds(&picture.at);
    let margin = point(MARGIN, MARGIN);
    let mut points = vec![low - margin, high + margin];
    for label in &picture.labels {
        let Frame { middle, half } = label.bounds();
        let half = half + point(CLEAR, CLEAR);
        points.extend([middle - half, middle + half]);
    }
    for (_, place) in loops.iter().filter_map(|drawn| drawn.number.as_ref()) {
        points.extend(place.corners());
    }
    bounds(&points)
}

/// At most two decimals.
fn decimal(value: f64) -> String {
    let rounded = (value * 100.0).round() / 100.0;
    (rounded + 0.0).to_string() // no -0
}

struct Svg {
    text: String,
    /// The upper left corner of the page.
    origin: Point,
}

impl Svg {
    fn line(&mut self, line: Arguments) {
        let _ = writeln!(self.text, "{line}"); // a string can always be written
    }

    fn at(&self, place: Point) -> (String, String) {
        let place = place - self.origin;
        (decimal(place.x), decimal(place.y))
    }

    /// Begins a group of lines and circles, which are not filled unless they say so.
    fn strokes(&mut self) {
        self.line(format_args!(
            "<g fill=\"none\" stroke=\"black\" stroke-width=\"{STROKE}\">"
        ));
    }

    /// Begins a group of words.
    fn letters(&mut self) {
        self.line(format_args!(
            "<g font-family=\"serif\" text-anchor=\"middle\">"
        ));
    }

    fn end(&mut self) {
        self.line(format_args!("</g>"));
    }

    fn circle(&mut self, class: &str, middle: Point, radius: f64, more: &str) {
        let (x, y) = self.at(middle);
        self.line(format_args!(
            "<circle class=\"{class}\" cx=\"{x}\" cy=\"{y}\" r=\"{radius}\"{more}/>"
        ));
    }

    fn words(&mut self, class: &str, text: &str, size: f64, middle: Point) {
        // The middle of a digit is 0.34 of its size above the line on which it stands.
        let (x, y) = self.at(middle + point(0.0, size * 0.34));
        let text = escaped(text);
        self.line(format_args!(
            "<text class=\"{class}\" x=\"{x}\" y=\"{y}\" font-size=\"{size}\">{text}</text>"
        ));
    }

    /// Edges go to the middles of nodes, but only to the rim of open circles.
    fn edges(&mut self, picture: &Picture) {
        let cut = |node: usize| match picture.diagram.nodes[node] {
            Node::Snub(_) => RING,
            Node::Ringed(_) | Node::Unringed => 0.0,
        };
        for edge in &picture.diagram.edges {
            let (a, b) = (picture.at[edge.a], picture.at[edge.b]);
            let along = (b - a) * (1.0 / (b - a).length());
            let (x1, y1) = self.at(a + along * cut(edge.a));
            let (x2, y2) = self.at(b - along * cut(edge.b));
            self.line(format_args!(
                "<line class=\"edge\" x1=\"{x1}\" y1=\"{y1}\" x2=\"{x2}\" y2=\"{y2}\"/>"
            ));
        }
    }

    /// The nodes, in the record's order.
    fn nodes(&mut self, picture: &Picture) {
        for (node, &at) in picture.diagram.nodes.iter().zip(&picture.at) {
            match node {
                Node::Snub(_) => self.circle("node", at, RING, ""),
                Node::Unringed => self.circle("node", at, DOT, FILLED),
                Node::Ringed(_) => {
                    self.circle("node", at, DOT, FILLED);
                    self.circle("ring", at, RING, "");
                }
            }
        }
    }

    fn labels(&mut self, picture: &Picture) {
        for label in &picture.labels {
            let class = if label.length { "length" } else { "number" };
            self.words(class, &label.text, label.size, label.at);
        }
    }

    /// A curve from the tip of a loop and back to it.
    fn drop(&mut self, drawn: &Loop) {
        let along = (drawn.middle - drawn.tip) * DROP.0;
        let across = point(-along.y, along.x) * DROP.1;
        let (x, y) = self.at(drawn.tip);
        let (x1, y1) = self.at(drawn.tip + along - across);
        let (x2, y2) = self.at(drawn.tip + along + across);
        self.line(format_args!(
            "<path class=\"loop\" d=\"M {x} {y} C {x1} {y1} {x2} {y2} {x} {y}\"/>"
        ));
    }

    fn loops(&mut self, loops: &[Loop]) {
        if loops.is_empty() {
            return;
        }
        self.strokes();
        for drawn in loops {
            self.drop(drawn);
        }
        self.end();
        self.letters();
        for (text, place) in loops.iter().filter_map(|drawn| drawn.number.as_ref()) {
            self.words("loop", text, NUMBER, place.middle);
        }
        self.end();
    }
}

fn escaped(text: &str) -> String {
    text.replace('&', "&amp;")
        .replace('<', "&lt;")
        .replace('>', "&gt;")
}
