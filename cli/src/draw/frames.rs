//! The room that things take in a picture, and how clear they are of each other.

use super::plane::{distance, from_segment, meet, point, Point};

/// An upright rectangle around its middle, which something written fills.
#[derive(Clone, Copy, Debug)]
pub struct Frame {
    pub middle: Point,
    /// Half its width and half its height.
    pub half: Point,
}

/// What something else must keep clear of.
#[derive(Clone, Copy, Debug)]
pub enum Obstacle {
    Disc(Point, f64),
    Line(Point, Point),
    Frame(Frame),
}

impl Frame {
    pub fn corners(self) -> [Point; 4] {
        [(1.0, 1.0), (-1.0, 1.0), (-1.0, -1.0), (1.0, -1.0)]
            .map(|(x, y)| self.middle + point(x * self.half.x, y * self.half.y))
    }

    /// How far it reaches from its middle in a direction.
    pub fn reach(half: Point, direction: Point) -> f64 {
        half.x * direction.x.abs() + half.y * direction.y.abs()
    }

    /// How far a point is from it, negative inside.
    fn gap_to_point(self, p: Point) -> f64 {
        let x = (p.x - self.middle.x).abs() - self.half.x;
        let y = (p.y - self.middle.y).abs() - self.half.y;
        if x <= 0.0 && y <= 0.0 {
            x.max(y)
        } else {
            point(x.max(0.0), y.max(0.0)).length()
        }
    }

    /// How far a segment is from it, negative if it goes in.
    fn gap_to_line(self, start: Point, end: Point) -> f64 {
        let line = (start, end);
        let corners = self.corners();
        if (0..4).any(|i| meet((corners[i], corners[(i + 1) % 4]), line)) {
            // How deep it goes in, so that the least bad place can be found.
            let deep = self.half.x.min(self.half.y);
            return from_segment(self.middle, line).min(deep) - deep;
        }
        let ends = self.gap_to_point(start).min(self.gap_to_point(end));
        let gaps = corners.into_iter().map(|corner| from_segment(corner, line));
        gaps.fold(ends, f64::min)
    }

    /// How far it is from an obstacle, negative if they overlap.
    pub fn clearance(self, obstacle: &Obstacle) -> f64 {
        match *obstacle {
            Obstacle::Disc(middle, radius) => self.gap_to_point(middle) - radius,
            Obstacle::Line(a, b) => self.gap_to_line(a, b),
            Obstacle::Frame(other) => {
                let x = (self.middle.x - other.middle.x).abs() - self.half.x - other.half.x;
                let y = (self.middle.y - other.middle.y).abs() - self.half.y - other.half.y;
                x.max(y)
            }
        }
    }
}

/// How far a disc is from an obstacle, negative if they overlap.
pub fn disc_clearance(middle: Point, radius: f64, obstacle: &Obstacle) -> f64 {
    let aside = match *obstacle {
        Obstacle::Disc(other, reach) => distance(middle, other) - reach,
        Obstacle::Line(a, b) => from_segment(middle, (a, b)),
        Obstacle::Frame(other) => other.gap_to_point(middle),
    };
    aside - radius
}
