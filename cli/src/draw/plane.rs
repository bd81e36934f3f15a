//! Points of the plane. y grows downward, as in an SVG, so that rising angles turn clockwise.

use std::ops::{Add, Mul, Sub};

#[derive(Clone, Copy, Debug, PartialEq)]
pub struct Point {
    pub x: f64,
    pub y: f64,
}

pub const fn point(x: f64, y: f64) -> Point {
    Point { x, y }
}

/// The point at distance 1 in this direction: 0 degrees is right, 90 is down.
pub fn toward(degrees: f64) -> Point {
    let (y, x) = degrees.to_radians().sin_cos();
    // Rounded, so that no machine's last bit of a sine shows in a picture, and right is quite level.
    point((x * 1e9).round() / 1e9, (y * 1e9).round() / 1e9)
}

impl Add for Point {
    type Output = Self;
    fn add(self, other: Self) -> Self {
        point(self.x + other.x, self.y + other.y)
    }
}

impl Sub for Point {
    type Output = Self;
    fn sub(self, other: Self) -> Self {
        point(self.x - other.x, self.y - other.y)
    }
}

impl Mul<f64> for Point {
    type Output = Self;
    fn mul(self, factor: f64) -> Self {
        point(self.x * factor, self.y * factor)
    }
}

impl Point {
    pub fn dot(self, other: Self) -> f64 {
        self.x * other.x + self.y * other.y
    }

    /// Twice the area of the triangle that it makes with another and the origin, with a sign.
    pub fn area(self, other: Self) -> f64 {
        self.x * other.y - self.y * other.x
    }

    pub fn length(self) -> f64 {
        self.dot(self).sqrt()
    }

    /// Turned by the angle of a point at distance 1.
    pub fn turned(self, by: Self) -> Self {
        point(self.x * by.x - self.y * by.y, self.x * by.y + self.y * by.x)
    }
}

pub fn distance(p: Point, q: Point) -> f64 {
    (p - q).length()
}

/// The distance of a point from the segment between two others.
pub fn from_segment(p: Point, (a, b): (Point, Point)) -> f64 {
    let along = b - a;
    let share = (p - a).dot(along) / along.dot(along).max(f64::MIN_POSITIVE);
    distance(p, a + along * share.clamp(0.0, 1.0))
}

/// Whether two segments meet. Touching counts.
pub fn meet((a, b): (Point, Point), (c, d): (Point, Point)) -> bool {
    let sides = |from: Point, to: Point, p: Point, q: Point| {
        (to - from).area(p - from) * (to - from).area(q - from)
    };
    // The boxes around them tell segments of one line apart.
    let overlap = |a: f64, b: f64, c: f64, d: f64| a.min(b) <= c.max(d) && c.min(d) <= a.max(b);
    overlap(a.x, b.x, c.x, d.x)
        && overlap(a.y, b.y, c.y, d.y)
        && sides(a, b, c, d) <= 0.0
        && sides(c, d, a, b) <= 0.0
}

/// The corners of the smallest upright box around points, the least and the greatest.
pub fn bounds(points: &[Point]) -> (Point, Point) {
    let Some(&first) = points.first() else {
        return (point(0.0, 0.0), point(0.0, 0.0));
    };
    points.iter().fold((first, first), |(low, high), p| {
        (
            point(low.x.min(p.x), low.y.min(p.y)),
            point(high.x.max(p.x), high.y.max(p.y)),
        )
    })
}
