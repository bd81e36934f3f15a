//! Reads a drawing back, as a person does who follows its lines. It shares nothing with the program.

use std::collections::BTreeSet;

/// What a drawing says: each node's symbol in the order of typing, and which nodes a number joins.
#[derive(Debug, Default, PartialEq)]
pub struct Said {
    pub nodes: Vec<String>,
    pub edges: BTreeSet<(usize, usize, String)>,
}

/// A node or a number: where it stands, and its text.
struct Spot {
    row: usize,
    columns: std::ops::Range<usize>,
    text: String,
}

#[derive(Clone, Copy, PartialEq)]
enum Cell {
    Space,
    Across,
    Down,
    Corner,
    Node(usize),
    Number(usize),
}

#[derive(Clone, Copy, PartialEq)]
enum Way {
    Left,
    Right,
    Up,
    Down,
}

use Way::{Left, Right, Up};

#[derive(Default)]
struct Page {
    cells: Vec<Vec<Cell>>,
    nodes: Vec<Spot>,
    numbers: Vec<Spot>,
    /// Names that stand at the right of nodes.
    names: Vec<(usize, u8)>,
}

pub fn read(drawing: &[&str]) -> Said {
    let mut rows = drawing;
    let header = rows.first().filter(|row| row.starts_with('a'));
    if header.is_some() {
        rows = &rows[1..];
    }
    let mut page = Page::default();
    for row in rows {
        page.scan(row.as_bytes());
    }
    let joined = page.joined();
    let order = match header {
        Some(header) => page.order_by_name(header.as_bytes()),
        None => page.order_by_place(&joined),
    };
    assert_eq!(order.len(), page.nodes.len(), "nodes are left out");
    let place = |node| order.iter().position(|&other| other == node).unwrap();
    let pairs = joined.iter().map(|&(a, b, number)| {
        let (a, b) = (place(a), place(b));
        (a.min(b), a.max(b), page.numbers[number].text.clone())
    });
    Said {
        nodes: order
            .iter()
            .map(|&node| page.nodes[node].text.clone())
            .collect(),
        edges: pairs.collect(),
    }
}

impl Page {
    fn scan(&mut self, row: &[u8]) {
        let mut cells = vec![];
        while let Some(&byte) = row.get(cells.len()) {
            let rest = &row[cells.len()..];
            let (cell, length) = match byte {
                b' ' => (Cell::Space, 1),
                b'-' => (Cell::Across, 1),
                b'|' => (Cell::Down, 1),
                b'+' => (Cell::Corner, 1),
                b'0'..=b'9' => (Cell::Number(self.numbers.len()), number_length(rest)),
                b'o' | b'x' | b's' => (Cell::Node(self.nodes.len()), node_length(rest)),
                b'a'..=b'i' => {
                    self.names.push((self.nodes.len() - 1, byte));
                    (Cell::Space, 1)
                }
                _ => panic!("what is {}?", char::from(byte)),
            };
            let spot = Spot {
                row: self.cells.len(),
                columns: cells.len()..cells.len() + length,
                text: String::from_utf8(rest[..length].to_vec()).unwrap(),
            };
            match cell {
                Cell::Node(_) => self.nodes.push(spot),
                Cell::Number(_) => self.numbers.push(spot),
                _ => (),
            }
            cells.extend(vec![cell; length]);
        }
        self.cells.push(cells);
    }

    fn cell(&self, row: usize, column: usize) -> Cell {
        let row = self.cells.get(row);
        row.and_then(|row| row.get(column))
            .copied()
            .unwrap_or(Cell::Space)
    }

    /// The nodes that each number joins, and the number.
    fn joined(&self) -> Vec<(usize, usize, usize)> {
        let mut joined = vec![];
        let mut followed = BTreeSet::new();
        for (i, Spot { row, columns, .. }) in self.numbers.iter().enumerate() {
            let before = columns.start.checked_sub(1);
            let across = before.is_some_and(|before| self.cell(*row, before) == Cell::Across);
            let ends = if across {
                [(*row, columns.start - 1, Left), (*row, columns.end, Right)]
            } else {
                [
                    (*row - 1, columns.start, Up),
                    (*row + 1, columns.start, Way::Down),
                ]
            };
            let [a, b] = ends.map(|(row, column, way)| {
                let line = if across { Cell::Across } else { Cell::Down };
                assert!(self.cell(row, column) == line, "no line at a number's end");
                self.follow((row, column, way), &mut followed)
            });
            joined.push((a, b, i));
        }
        for (row, cells) in self.cells.iter().enumerate() {
            for (column, &cell) in cells.iter().enumerate() {
                let upright = cell == Cell::Down;
                let line = upright || cell == Cell::Across || cell == Cell::Corner;
                assert!(
                    !line || followed.contains(&(row, column, upright)),
                    "a line without a number"
                );
            }
        }
        joined
    }

    /// The one node whose lines these are.
    fn follow(
        &self,
        start: (usize, usize, Way),
        followed: &mut BTreeSet<(usize, usize, bool)>,
    ) -> usize {
        let mut found = BTreeSet::new();
        let mut seen = BTreeSet::new();
        let mut ahead = vec![start];
        while let Some((row, column, way)) = ahead.pop() {
            let upright = matches!(way, Up | Way::Down);
            match self.cell(row, column) {
                Cell::Node(node) => {
                    self.check_end(&self.nodes[node], column, upright);
                    found.insert(node);
                }
                Cell::Number(number) => self.check_end(&self.numbers[number], column, upright),
                Cell::Corner if seen.insert((row, column, false)) => {
                    ahead.extend(self.out_of_corner(row, column));
                }
                Cell::Across if upright => panic!("a line ends at another"),
                Cell::Across | Cell::Down if seen.insert((row, column, upright)) => {
                    ahead.push(next(row, column, way));
                }
                Cell::Space => panic!("a line ends nowhere, at {row}, {column}"),
                _ => (), // was seen
            }
        }
        followed.extend(seen);
        assert_eq!(found.len(), 1, "lines of {found:?} run together");
        found.pop_first().unwrap()
    }

    /// A line that comes from above or below must meet the first character of a node, or of a number
    /// that is not within a row of `-`.
    fn check_end(&self, spot: &Spot, column: usize, upright: bool) {
        if upright {
            assert_eq!(spot.columns.start, column, "a line misses {}", spot.text);
            let before = column
                .checked_sub(1)
                .map(|before| self.cell(spot.row, before));
            let number = spot.text.as_bytes()[0].is_ascii_digit();
            assert!(
                !number || before != Some(Cell::Across),
                "a line ends at another's number"
            );
        }
    }

    /// The lines that a corner joins.
    fn out_of_corner(&self, row: usize, column: usize) -> Vec<(usize, usize, Way)> {
        let mut ways = vec![Right, Way::Down, Up];
        if column > 0 {
            ways.push(Left);
        }
        let steps = ways.into_iter().map(|way| next(row, column, way));
        let steps = steps.filter(|&(row, column, way)| match way {
            Left | Right => self.cell(row, column) == Cell::Across,
            Up | Way::Down => matches!(self.cell(row, column), Cell::Down | Cell::Corner),
        });
        steps.collect()
    }

    fn order_by_name(&self, header: &[u8]) -> Vec<usize> {
        let name = |node: usize| {
            let right = self.names.iter().find(|&&(named, _)| named == node);
            right.map_or_else(|| header[self.nodes[node].columns.start], |&(_, name)| name)
        };
        let mut order: Vec<_> = (0..self.nodes.len()).collect();
        order.sort_by_key(|&node| name(node));
        let names: Vec<_> = order.iter().map(|&node| name(node)).collect();
        assert_eq!(names, b"abcdefghi"[..names.len()]);
        order
    }

    /// The nodes along the line, then branch by branch.
    fn order_by_place(&self, joined: &[(usize, usize, usize)]) -> Vec<usize> {
        let line: Vec<_> = (0..self.nodes.len())
            .filter(|&node| self.nodes[node].row == 0)
            .collect();
        let mut order = line.clone();
        for node in line {
            self.branches(node, joined, &mut order);
        }
        order
    }

    fn branches(&self, node: usize, joined: &[(usize, usize, usize)], order: &mut Vec<usize>) {
        let row = self.nodes[node].row;
        let others = joined.iter().filter_map(|&(a, b, _)| match node {
            n if n == a => Some(b),
            n if n == b => Some(a),
            _ => None,
        });
        let mut below: Vec<_> = others
            .filter(|&other| self.nodes[other].row > row)
            .collect();
        below.sort_by_key(|&node| self.nodes[node].columns.start);
        for node in below {
            order.push(node);
            self.branches(node, joined, order);
        }
    }
}

fn next(row: usize, column: usize, way: Way) -> (usize, usize, Way) {
    let (row, column) = match way {
        Left => (row, column - 1),
        Right => (row, column + 1),
        Up => (row - 1, column),
        Way::Down => (row + 1, column),
    };
    (row, column, way)
}

fn number_length(text: &[u8]) -> usize {
    let digit = |byte: &u8| byte.is_ascii_digit() || *byte == b'/';
    text.iter()
        .position(|byte| !digit(byte))
        .unwrap_or(text.len())
}

fn node_length(text: &[u8]) -> usize {
    match text.get(1) {
        Some(b'(') => 1 + text.iter().position(|&byte| byte == b')').unwrap(),
        _ => 1,
    }
}
