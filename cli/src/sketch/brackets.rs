//! Edges between nodes that are no neighbours on the line: brackets below it.

use super::{plan::Plan, Drawing};

/// An edge between two nodes, which are told by their places on the line.
pub struct Bracket {
    pub from: usize,
    pub to: usize,
    pub number: String,
    row: usize,
}

impl Bracket {
    fn spans(&self, at: usize) -> bool {
        (self.from..=self.to).contains(&at)
    }

    fn ends_at(&self, at: usize) -> bool {
        self.from == at || self.to == at
    }
}

/// The brackets of a plan, the shorter first.
pub fn of(plan: &Plan) -> Vec<Bracket> {
    let mut brackets = Vec::new();
    for (to, &b) in plan.line.iter().enumerate() {
        for (from, &a) in plan.line[..to.saturating_sub(1)].iter().enumerate() {
            let number = plan.number(a, b);
            brackets.extend(number.map(|number| Bracket {
                from,
                to,
                number,
                row: 0,
            }));
        }
    }
    brackets.sort_by_key(|bracket| (bracket.to - bracket.from, bracket.from));
    brackets
}

/// Gives each bracket the first row in which it touches no other, below what hangs on nodes that it
/// passes and at which none ends.
pub fn give_rows(brackets: &mut [Bracket], hanging: &[Vec<String>]) {
    let ended: Vec<_> = (0..hanging.len())
        .map(|at| brackets.iter().any(|bracket| bracket.ends_at(at)))
        .collect();
    for i in 0..brackets.len() {
        let (placed, rest) = brackets.split_at_mut(i);
        let bracket = &mut rest[0];
        let passed = (bracket.from + 1..bracket.to).filter(|&at| !ended[at]);
        let first = 2 + passed.map(|at| hanging[at].len()).max().unwrap_or(0);
        let taken = |row| {
            let mut there = placed.iter().filter(|other| other.row == row);
            there.any(|other| other.from <= bracket.to && bracket.from <= other.to)
        };
        // So many others can't take all of so many rows and one more.
        let mut rows = first..=first + placed.len();
        bracket.row = rows.find(|&row| !taken(row)).unwrap_or(first);
    }
}

/// The lines that go down from the nodes of the line to brackets.
pub struct Lines {
    pub columns: Vec<usize>,
    /// For each node the row below which it hangs what hangs on it: the last of all brackets that end
    /// at it or pass it, or 0 if none ends there.
    pub base: Vec<usize>,
    /// The last row, for each node, of its line; 0 for none.
    depth: Vec<usize>,
}

impl Lines {
    pub fn new(hanging: &[Vec<String>], brackets: &[Bracket], columns: Vec<usize>) -> Self {
        let last = |such: &dyn Fn(&Bracket) -> bool| {
            let rows = brackets.iter().filter(|bracket| such(bracket));
            rows.map(|bracket| bracket.row).max().unwrap_or(0)
        };
        let mut lines = Self {
            columns,
            base: vec![],
            depth: vec![],
        };
        for (at, rows) in hanging.iter().enumerate() {
            let ended = last(&|bracket| bracket.ends_at(at));
            let passed = last(&|bracket| bracket.spans(at));
            let base = if ended == 0 { 0 } else { passed };
            lines.base.push(base);
            lines.depth.push(if rows.is_empty() { ended } else { base });
        }
        lines
    }
}

/// Draws the brackets and the lines that go down to them and across them.
pub fn draw(drawing: &mut Drawing, lines: &Lines, brackets: &[Bracket]) {
    for bracket in brackets {
        let [from, to] = [bracket.from, bracket.to].map(|at| lines.columns[at]);
        drawing.put(bracket.row, from, &"-".repeat(to - from));
    }
    for (&column, &depth) in lines.columns.iter().zip(&lines.depth) {
        for row in 1..=depth {
            drawing.put(row, column, "|");
        }
    }
    for bracket in brackets {
        let [from, to] = [bracket.from, bracket.to].map(|at| lines.columns[at]);
        drawing.put(bracket.row, from, "+");
        drawing.put(bracket.row, to, "+");
        drawing.put(bracket.row, number_column(lines, bracket), &bracket.number);
    }
}

/// Where a bracket's number begins: as near its middle as it has a `-` on both sides, and no line
/// passes there or ends right above. Between two neighbours there is always room.
fn number_column(lines: &Lines, bracket: &Bracket) -> usize {
    let [from, to] = [bracket.from, bracket.to].map(|at| lines.columns[at]);
    let length = bracket.number.len();
    let clear = |&begin: &usize| {
        let covered = begin - 1..=begin + length;
        let mut inner = bracket.from + 1..bracket.to;
        !inner.any(|at| lines.depth[at] + 1 >= bracket.row && covered.contains(&lines.columns[at]))
    };
    let middle = from + to + 1 - length; // twice the column that is sought
    (from + 2..to - length)
        .filter(clear)
        .min_by_key(|begin| middle.abs_diff(2 * begin))
        .unwrap_or(from + 2)
}
