//! Graphs on at most nine nodes, without their labels.

/// A set of nodes: bit i is node i.
pub type Set = u16;

/// The set of one node.
pub const fn only(node: usize) -> Set {
    1 << node
}

/// The nodes of a set, rising.
pub fn members(set: Set) -> impl Iterator<Item = usize> + Clone {
    (0..16).filter(move |&node| set & only(node) != 0)
}

/// A graph without loops: the neighbours of each node.
#[derive(Clone, Debug, PartialEq)]
pub struct Graph(Vec<Set>);

impl Graph {
    pub fn new(count: usize) -> Self {
        Self(vec![0; count])
    }

    pub fn len(&self) -> usize {
        self.0.len()
    }

    /// The set of all nodes.
    pub fn all(&self) -> Set {
        only(self.len()) - 1
    }

    pub fn join(&mut self, a: usize, b: usize) {
        self.0[a] |= only(b);
        self.0[b] |= only(a);
    }

    pub fn part(&mut self, a: usize, b: usize) {
        self.0[a] &= !only(b);
        self.0[b] &= !only(a);
    }

    pub fn joined(&self, a: usize, b: usize) -> bool {
        self.0[a] & only(b) != 0
    }

    pub fn near(&self, node: usize) -> Set {
        self.0[node]
    }

    /// The edges, the lesser node first.
    pub fn edges(&self) -> Vec<(usize, usize)> {
        let lesser = |b: usize| members(self.0[b] & (only(b) - 1)).map(move |a| (a, b));
        (0..self.len()).flat_map(lesser).collect()
    }

    /// All nodes that can be reached from one without leaving a set that it is in.
    pub fn reach(&self, from: usize, within: Set) -> Set {
        let mut reached = only(from);
        loop {
            let next = members(reached).fold(reached, |set, node| set | self.0[node] & within);
            if next == reached {
                return reached;
            }
            reached = next;
        }
    }

    /// The connected parts of a set of nodes, in the order of their least nodes.
    pub fn parts(&self, within: Set) -> Vec<Set> {
        let mut left = within;
        let mut parts = Vec::new();
        while left != 0 {
            let part = self.reach(left.trailing_zeros() as usize, within);
            left &= !part;
            parts.push(part);
        }
        parts
    }

    /// The graph on some of the nodes, numbered as they stand in the list.
    pub fn on(&self, nodes: &[usize]) -> Self {
        let mut graph = Self::new(nodes.len());
        for (j, &b) in nodes.iter().enumerate() {
            for (i, _) in nodes[..j]
                .iter()
                .enumerate()
                .filter(|(_, &a)| self.joined(a, b))
            {
                graph.join(i, j);
            }
        }
        graph
    }

    /// A shortest path from a node to one of the ends, between them only through a set; at least
    /// one edge long.
    pub fn path(&self, from: usize, through: Set, ends: Set) -> Option<Vec<usize>> {
        let mut paths = vec![vec![from]];
        let mut seen = only(from);
        while !paths.is_empty() {
            let mut longer = Vec::new();
            for path in paths {
                let last = path[path.len() - 1];
                for next in members(self.0[last] & (through | ends) & !seen) {
                    let path = [&path[..], &[next]].concat();
                    if ends & only(next) != 0 {
                        return Some(path);
                    }
                    seen |= only(next);
                    longer.push(path);
                }
            }
            paths = longer;
        }
        None
    }

    /// What is left when nodes with fewer than two neighbours are taken away again and again: the
    /// cycles and what joins them.
    pub fn core(&self) -> Set {
        let mut core = self.all();
        while let Some(leaf) = members(core).find(|&v| (self.0[v] & core).count_ones() < 2) {
            core &= !only(leaf);
        }
        core
    }
}
