//! Diagrams that were read from a text.

use std::{fmt, str::FromStr};

use crate::{
    ffi::{self, Written, GENERATOR, LIMIT, SQUARE},
    CdError, CdResult, Cox, Diagram, Groups, Matrix, Node, Record, StoredEdge,
};

/// A Coxeter diagram that was read from a text.
///
/// It keeps the text, at most 255 bytes, from which the library computes all else.
///
/// There is no `==`, since it could be taken for that of figures: compare [`Cd::record`] for those,
/// and [`Cd::diagram`] for nodes and edges as they were read.
///
/// ```
/// use lexicon::{Cd, Edge, Node, StoredEdge};
///
/// let cd = Cd::parse("x5/2o3s")?;
/// assert_eq!(cd.nodes(), [Node::Ringed(1.0), Node::Unringed, Node::Snub(1.0)]);
/// assert_eq!(
///     cd.edges(),
///     [
///         StoredEdge { a: 0, b: 1, edge: Edge { num: 5, den: 2 } },
///         StoredEdge { a: 1, b: 2, edge: Edge { num: 3, den: 1 } },
///     ]
/// );
/// assert!(cd.minimal());
/// # Ok::<(), lexicon::CdError>(())
/// ```
#[derive(Clone, Debug)]
pub struct Cd {
    text: String,
    /// Whether its lengths may be infinite.
    wish: bool,
    diagram: Diagram,
    minimal: bool,
}

impl Cd {
    /// Reads a diagram in line notation.
    ///
    /// # Errors
    ///
    /// One of the first eleven cases of [`CdError`], or [`CdError::InfiniteLength`].
    pub fn parse(input: &str) -> CdResult<Self> {
        Self::parse_bytes(input.as_bytes())
    }

    /// Reads a diagram from bytes that need not be UTF-8, such as those of a file or a request.
    ///
    /// # Errors
    ///
    /// As [`Cd::parse`].
    ///
    /// ```
    /// use lexicon::{Cd, CdError};
    ///
    /// assert_eq!(Cd::parse_bytes(b"x3o")?.node_count(), 2);
    /// assert_eq!(Cd::parse_bytes(b"x3\xff").unwrap_err(), CdError::NotAscii { pos: 2 });
    /// # Ok::<(), CdError>(())
    /// ```
    pub fn parse_bytes(input: &[u8]) -> CdResult<Self> {
        Self::read(input, false)
    }

    /// Reads a diagram whose lengths may be infinite, from a text or from bytes: for an import of
    /// old articles, and for programs that rely on what miratope-core's `Cd::parse` takes.
    ///
    /// # Errors
    ///
    /// One of the first eleven cases of [`CdError`].
    ///
    /// ```
    /// use lexicon::{Cd, CdError, Node};
    ///
    /// let imported = Cd::parse_with_infinite("(inf)3o")?;
    /// assert_eq!(imported.nodes(), [Node::Ringed(f64::INFINITY), Node::Unringed]);
    /// assert_eq!(imported.generator().unwrap_err(), CdError::Infinite { node: 0 });
    ///
    /// assert_eq!(Cd::parse("(inf)3o").unwrap_err(), CdError::InfiniteLength { pos: 3 });
    /// # Ok::<(), CdError>(())
    /// ```
    pub fn parse_with_infinite(input: impl AsRef<[u8]>) -> CdResult<Self> {
        Self::read(input.as_ref(), true)
    }

    fn read(input: &[u8], wish: bool) -> CdResult<Self> {
        let (numbers, [nodes, _, minimal]) = ffi::read(input, wish)?;
        Ok(Self {
            // Refusal 2 leaves only ASCII, which this copies as it is.
            text: String::from_utf8_lossy(input).into_owned(),
            wish,
            diagram: Diagram::from_numbers(&numbers, nodes),
            minimal: minimal == 1,
        })
    }

    /// The text, as it was typed.
    #[must_use]
    pub fn text(&self) -> &str {
        &self.text
    }

    /// The nodes and edges, as plain data.
    #[must_use]
    pub fn diagram(&self) -> &Diagram {
        &self.diagram
    }

    /// The dimension of the polytope, which is the number of nodes.
    #[must_use]
    pub fn dim(&self) -> usize {
        self.node_count()
    }

    /// The number of nodes, 0 to 9.
    #[must_use]
    pub fn node_count(&self) -> usize {
        self.diagram.nodes.len()
    }

    /// The number of stored edges, loops included. Texts of one figure may differ in their loops.
    #[must_use]
    pub fn edge_count(&self) -> usize {
        self.diagram.edges.len()
    }

    /// An iterator over the nodes, in the order in which they were read.
    pub fn node_iter(&self) -> impl Iterator<Item = Node> + '_ {
        self.diagram.nodes.iter().copied()
    }

    /// The nodes, in the order in which they were read.
    #[must_use]
    pub fn nodes(&self) -> Vec<Node> {
        self.diagram.nodes.clone()
    }

    /// The lengths of the nodes, in the order in which they were read, 0 for the unringed.
    #[must_use]
    pub fn node_vector(&self) -> Vec<f64> {
        self.node_iter().map(|node| node.value()).collect()
    }

    /// The stored edges with the nodes that they join, in the order in which they were stored,
    /// loops included; their fractions are in lowest terms.
    #[must_use]
    pub fn edges(&self) -> Vec<StoredEdge> {
        self.diagram.edges.clone()
    }

    /// Whether each connected component has a ringed node. Snub nodes do not count.
    #[must_use]
    pub fn minimal(&self) -> bool {
        self.minimal
    }

    /// The figure's filing record. Two texts have the same record exactly when they draw the same
    /// figure, whichever way they number its nodes and write its fractions; loops play no part.
    ///
    /// What an article tells of a figure may be computed from any of its texts. Where two have the same
    /// record, so do they have the same [`Cd::minimal`], as many [`Cd::edges`] that are no loops, and the
    /// same [`Groups::names`] and orders, or [`CdError::NoName`] both, of nodes that may differ.
    ///
    /// The more nodes are alike, the longer it takes: nine different ones about 1 µs, nine alike in a
    /// chain about 25 µs, nine alike that nothing joins about 7 ms.
    ///
    /// ```
    /// use lexicon::Cd;
    ///
    /// let octahedron = Cd::parse("x3o4o")?.record();
    /// assert_eq!(octahedron, Cd::parse("o4o3x")?.record());
    /// assert_ne!(octahedron, Cd::parse("x4o3o")?.record());
    /// # Ok::<(), lexicon::CdError>(())
    /// ```
    #[must_use]
    pub fn record(&self) -> Record {
        self.record_and_numbering().0
    }

    /// The record, and the numbering that gives it: for each place of the record the node of this
    /// diagram that stands there. With it, what belongs to a node can be filed with the record.
    ///
    /// Of all numberings that give the record it is the first, compared as lists of numbers from the
    /// left. So a text has one numbering, in every version of this crate, and a drawing that is made
    /// from it does not change. [`Cd::corresponding_nodes`] compares the numberings of two texts.
    ///
    /// ```
    /// use lexicon::Cd;
    ///
    /// let (record, numbering) = Cd::parse("x3o4o")?.record_and_numbering();
    /// assert_eq!(numbering, [2, 1, 0]);
    /// assert_eq!(record, Cd::parse("o4o3x")?.record());
    /// # Ok::<(), lexicon::CdError>(())
    /// ```
    #[must_use]
    pub fn record_and_numbering(&self) -> (Record, Vec<usize>) {
        answered(Record::of_text(&self.text, self.wish))
    }

    /// For each node of this diagram the node of the other that corresponds to it, or `None` if the
    /// two are different figures. Corresponding nodes stand at the same place of the record: sent so,
    /// this diagram is carried onto the other, kinds, lengths and fractions alike. Where a figure has
    /// symmetries, other ways of sending the nodes do so too; this one is always the same.
    ///
    /// ```
    /// use lexicon::Cd;
    ///
    /// let typed = Cd::parse("x3o4o")?;
    /// assert_eq!(typed.corresponding_nodes(&Cd::parse("o4o3x")?), Some(vec![2, 1, 0]));
    /// assert_eq!(typed.corresponding_nodes(&Cd::parse("x4o3o")?), None);
    /// # Ok::<(), lexicon::CdError>(())
    /// ```
    #[must_use]
    pub fn corresponding_nodes(&self, other: &Cd) -> Option<Vec<usize>> {
        let (record, from) = self.record_and_numbering();
        let (same, to) = other.record_and_numbering();
        (record == same).then(|| {
            let mut nodes = vec![0; from.len()];
            for (&node, &corresponding) in from.iter().zip(&to) {
                nodes[node] = corresponding;
            }
            nodes
        })
    }

    /// The finite group of each component, over stored edges: its name in Coxeter's list, and its
    /// order. A component has a name exactly when some renumbering carries its edges onto the name's,
    /// and it never has two.
    ///
    /// Rings, lengths and loops play no part, and a fraction counts in its lowest terms. Nor does the
    /// tolerance of mirrors play one: an edge of 4294967295 between two nodes has its name, though
    /// [`Cox::normals`] refuses it. It takes less than 30 µs.
    ///
    /// # Errors
    ///
    /// [`CdError::NoName`] with the lowest node of the first component that no name fits: its group is
    /// infinite, or an edge of it is a fraction such as 5/2.
    ///
    /// ```
    /// use lexicon::{Cd, CdError};
    ///
    /// let groups = Cd::parse("x3o3o x7o")?.groups()?;
    /// let names: Vec<String> = groups.iter().map(|group| group.name().to_string()).collect();
    /// assert_eq!(names, ["A3", "I2(7)"]);
    /// assert_eq!((groups[1].node(), groups[1].order()), (3, 14));
    ///
    /// let tiling = Cd::parse("x x4o4o")?;
    /// assert_eq!(tiling.groups().unwrap_err(), CdError::NoName { node: 1 });
    /// # Ok::<(), CdError>(())
    /// ```
    pub fn groups(&self) -> CdResult<Groups> {
        let (numbers, [components, ..]) = ffi::names(self.text.as_bytes(), self.wish)?;
        Ok(Groups::from_numbers(&numbers, components))
    }

    /// The Coxeter matrix: 1 on the diagonal, an edge's value where it joins two nodes, else 2.
    #[must_use]
    pub fn cox(&self) -> Cox {
        answered(Cox::read(&self.text, self.wish))
    }

    /// The generator point as miratope-core computes it: the x for which the matrix of
    /// [`Cox::normals`], times x, is [`Cd::node_vector`].
    ///
    /// It depends on the order of the nodes. Two texts of one figure may have different points, and
    /// different radii: those of `x3o4o` and `o4o3x` are 1 and √5. An editor prints the radius of
    /// [`Cd::wall_generator`]; this one is for comparisons with miratope-core.
    ///
    /// # Errors
    ///
    /// [`CdError::Crowded`] if the mirrors don't exist, else [`CdError::Infinite`] if a length is
    /// infinite, which only [`Cd::parse_with_infinite`] takes.
    ///
    /// ```
    /// use lexicon::{Cd, CdError};
    ///
    /// let point = Cd::parse("x2u")?.generator()?;
    /// assert_eq!(point.coordinates(), [1.0, 2.0]);
    /// assert_eq!(point.radius(), 5.0_f64.sqrt());
    ///
    /// let tiling = Cd::parse("x4o4o")?;
    /// assert_eq!(tiling.generator().unwrap_err(), CdError::Crowded { column: 2 });
    /// # Ok::<(), CdError>(())
    /// ```
    pub fn generator(&self) -> CdResult<Generator> {
        Generator::from_written(ffi::generator(self.text.as_bytes(), self.wish))
    }

    /// The generator point over the walls: its distance from the wall of each node, of those that
    /// [`Cox::walls`] has, is half the node's length.
    ///
    /// An editor prints the radius of this one. It is the circumradius of the figure whose edges have
    /// the lengths of the nodes, snub nodes counting as ringed ones, and the same for every text of the
    /// figure, up to rounding. That of [`Cd::generator`] is miratope-core's and depends on the order in
    /// which the nodes were typed. The more crowded the walls are, the more digits are lost, and where
    /// they almost don't fit, some texts of a figure may be refused and others not.
    ///
    /// [`Cd::reflections`] are in miratope-core's mirrors, not in the walls: they don't send this
    /// point to the other vertices of the figure.
    ///
    /// # Errors
    ///
    /// [`CdError::Crowded`] if the walls don't exist, else [`CdError::Infinite`] if a length is
    /// infinite, which only [`Cd::parse_with_infinite`] takes.
    ///
    /// ```
    /// use lexicon::{Cd, CdError};
    ///
    /// let edge = Cd::parse("x")?.wall_generator()?;
    /// assert_eq!((edge.coordinates(), edge.radius()), (&[0.5][..], 0.5));
    ///
    /// // An octahedron, typed from either end, with miratope-core's radii.
    /// for (text, radius) in [("x3o4o", 1.0), ("o4o3x", 5.0_f64.sqrt())] {
    ///     let octahedron = Cd::parse(text)?;
    ///     assert!((octahedron.wall_generator()?.radius() - 0.5_f64.sqrt()).abs() < 1e-12);
    ///     assert!((octahedron.generator()?.radius() - radius).abs() < 1e-12);
    /// }
    ///
    /// let tiling = Cd::parse("x3o3o3*a")?;
    /// assert_eq!(tiling.wall_generator().unwrap_err(), CdError::Crowded { column: 2 });
    /// # Ok::<(), CdError>(())
    /// ```
    pub fn wall_generator(&self) -> CdResult<Generator> {
        Generator::from_written(ffi::wall_generator(self.text.as_bytes(), self.wish))
    }

    /// The radius of [`Cd::generator`], which depends on the order of the nodes as that does. An editor
    /// prints that of [`Cd::wall_generator`].
    ///
    /// # Errors
    ///
    /// As [`Cd::generator`].
    pub fn circumradius(&self) -> CdResult<f64> {
        self.generator().map(|point| point.radius())
    }

    /// The reflections in the mirrors of [`Cox::normals`], one matrix for each node, as miratope-core
    /// has them.
    ///
    /// # Errors
    ///
    /// As [`Cox::normals`].
    ///
    /// ```
    /// use lexicon::Cd;
    ///
    /// let reflections = Cd::parse("x2x")?.reflections()?;
    /// assert_eq!(reflections[0].column(0), [-1.0, 0.0]);
    /// assert_eq!(reflections[0].column(1), [0.0, 1.0]);
    /// # Ok::<(), lexicon::CdError>(())
    /// ```
    pub fn reflections(&self) -> CdResult<Vec<Matrix>> {
        let (doubles, [nodes, ..]) = ffi::reflections(self.text.as_bytes(), self.wish)?;
        let squares = doubles.chunks(SQUARE).take(nodes);
        Ok(squares
            .map(|square| Matrix::from_square(square, nodes))
            .collect())
    }
}

/// The answer to a call that refuses nothing but texts, of a text that was accepted with this wish.
fn answered<T>(result: CdResult<T>) -> T {
    result.unwrap_or_else(|e| unreachable!("an accepted text was refused: {e}"))
}

impl FromStr for Cd {
    type Err = CdError;

    /// As [`Cd::parse`].
    fn from_str(text: &str) -> CdResult<Self> {
        Self::parse(text)
    }
}

impl From<Cd> for Cox {
    /// As [`Cd::cox`].
    fn from(cd: Cd) -> Self {
        cd.cox()
    }
}

impl fmt::Display for Cd {
    /// Writes the nodes and edges as miratope-core does, the fractions in lowest terms.
    fn fmt(&self, f: &mut fmt::Formatter<'_>) -> fmt::Result {
        self.diagram.fmt(f)
    }
}

/// A generator point of a diagram, [over the walls](Cd::wall_generator) or as [miratope-core has
/// it](Cd::generator).
#[derive(Clone, Debug, PartialEq)]
pub struct Generator {
    coordinates: Vec<f64>,
    radius: f64,
}

impl Generator {
    /// The point that a call for generators wrote.
    fn from_written(written: Written<f64, GENERATOR>) -> CdResult<Self> {
        let (doubles, [nodes, ..]) = written?;
        Ok(Self {
            coordinates: doubles[..nodes].to_vec(),
            radius: doubles[LIMIT],
        })
    }

    /// The coordinates, one for each node.
    #[must_use]
    pub fn coordinates(&self) -> &[f64] {
        &self.coordinates
    }

    /// The distance of the point from the origin.
    #[must_use]
    pub fn radius(&self) -> f64 {
        self.radius
    }
}
