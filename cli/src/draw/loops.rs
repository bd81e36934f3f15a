//! Loops: drops that hang at their nodes, put where there is room when all else is in its place.

use lexicon::{Cd, Edge, Node, StoredEdge};

use super::{
    frames::{disc_clearance, Frame, Obstacle},
    labels::{collision, number, Picture},
    plane::{bounds, point, toward, Point},
    sizes::{self, CLEAR, LOOP, LOOP_OFF, MARGIN, NUMBER, RING},
};

/// A loop as it is drawn.
pub struct Loop {
    /// Where it begins and ends.
    pub tip: Point,
    /// The middle of its round part.
    pub middle: Point,
    /// Its number and where that is written.
    pub number: Option<(String, Frame)>,
}

/// The loops of a text, each with the place of its node in the record.
fn of_text(cd: &Cd, numbering: &[usize]) -> Vec<(usize, Edge)> {
    let loops = cd.edges().into_iter().filter(StoredEdge::is_loop);
    let mut loops: Vec<(usize, Edge)> = loops
        .filter_map(|stored| {
            let place = numbering.iter().position(|&node| node == stored.a)?;
            Some((place, stored.edge))
        })
        .collect();
    loops.sort_by_key(|&(place, _)| place);
    loops
}

/// The loops of a text, drawn into the picture of its figure.
pub fn draw(cd: &Cd, numbering: &[usize], picture: &Picture) -> Vec<Loop> {
    let mut obstacles = picture.obstacles();
    let labels = picture
        .labels
        .iter()
        .map(|label| Obstacle::Frame(label.bounds()));
    obstacles.extend(labels);
    let (low, high) = bounds(&picture.at);
    let margin = point(MARGIN, MARGIN);
    let page = (low - margin, high + margin);
    let mut drawn = Vec::new();
    for (place, edge) in of_text(cd, numbering) {
        let at = picture.at[place];
        let touch = match picture.diagram.nodes[place] {
            Node::Snub(_) => RING,
            Node::Ringed(_) | Node::Unringed => 0.0,
        };
        let direction = direction(at, touch + LOOP_OFF, &obstacles);
        let (tip, middle) = (at + direction * touch, at + direction * (touch + LOOP_OFF));
        obstacles.push(Obstacle::Disc(middle, LOOP));
        let number = number(edge).map(|text| {
            let place = beside(middle, &text, &obstacles, page);
            obstacles.push(Obstacle::Frame(place));
            (text, place)
        });
        drawn.push(Loop {
            tip,
            middle,
            number,
        });
    }
    drawn
}

/// The direction in which a loop, whose middle is so far from its node, has most room.
fn direction(at: Point, off: f64, obstacles: &[Obstacle]) -> Point {
    let own = |obstacle: &&Obstacle| matches!(obstacle, Obstacle::Disc(middle, _) if *middle == at);
    let mut best = (toward(270.0), f64::NEG_INFINITY);
    // From the top to both sides, so that of directions with as much room the upper is taken.
    for sixteenth in 0_u8..16 {
        let sign = if sixteenth % 2 == 1 { 22.5 } else { -22.5 };
        let direction = toward(270.0 + sign * f64::from(sixteenth.div_ceil(2)));
        let others = obstacles.iter().filter(|obstacle| !own(obstacle));
        let rooms = others.map(|obstacle| disc_clearance(at + direction * off, LOOP, obstacle));
        let room = rooms.fold(2.0 * CLEAR, f64::min);
        if room > best.1 + 1e-6 {
            best = (direction, room);
        }
    }
    best.0
}

/// The place of a loop's number beside it, on the page if that can be.
fn beside(middle: Point, text: &str, obstacles: &[Obstacle], page: (Point, Point)) -> Frame {
    let half = sizes::half(text, NUMBER);
    let room = LOOP + CLEAR + 0.5;
    let places = (0_u8..8).map(|eighth| {
        let direction = toward(270.0 + 45.0 * f64::from(eighth));
        let sign = |x: f64| if x.abs() < 1e-6 { 0.0 } else { x.signum() };
        let shift =
            direction * room + point(sign(direction.x) * half.x, sign(direction.y) * half.y);
        Frame {
            middle: middle + shift,
            half,
        }
    });
    let cost = |place: &Frame| {
        let (collision, crowding) = collision(*place, obstacles);
        let beyond = place.corners().map(|p| {
            (page.0.x - p.x).max(p.x - page.1.x).max(0.0)
                + (page.0.y - p.y).max(p.y - page.1.y).max(0.0)
        });
        20.0 * collision + crowding + 10.0 * beyond.iter().sum::<f64>()
    };
    let best = places.min_by(|this, that| cost(this).total_cmp(&cost(that)));
    best.unwrap_or(Frame { middle, half })
}
