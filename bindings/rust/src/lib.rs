//! Coxeter diagrams in line notation, and one filing record for each figure.
//!
//! [`Cd::parse`] reads a text such as `x4o3o` as miratope-core does, or refuses it with a [`CdError`]
//! that tells the byte and the reason. [`Cd::record`] gives the figure's [`Record`]: two texts have
//! the same record exactly when they draw the same figure. [`Cox`] and [`Generator`] are its geometry;
//! the radius to print is that of [`Cd::wall_generator`]. [`Cd::groups`] names its finite groups.
//!
//! ```
//! use lexicon::{Cd, CdError};
//!
//! let octahedron = Cd::parse("x3o4o")?;
//! assert_eq!(octahedron.node_count(), 3);
//! assert_eq!(octahedron.record(), Cd::parse("o4o3x")?.record());
//! assert_eq!(format!("{:.4}", octahedron.wall_generator()?.radius()), "0.7071");
//! let group = octahedron.groups()?[0];
//! assert_eq!((group.name().to_string(), group.order()), ("B3".to_owned(), 48));
//!
//! assert_eq!(Cd::parse("x3_").unwrap_err(), CdError::InvalidSymbol { pos: 2 });
//! # Ok::<(), CdError>(())
//! ```
//!
//! A [`Shelf`] is a file of many records, sorted: an editor adds articles to it, and a server asks
//! it whether a headword is taken. [`Shelf::rescue`] keeps what can be kept of a damaged one.
//!
//! ```
//! use lexicon::{Cd, Shelf};
//!
//! let mut shelf = Shelf::default();
//! shelf.add(&Cd::parse("x3o4o")?.record())?;
//! assert!(shelf.contains(&Cd::parse("o4o3x")?.record())?);
//! # Ok::<(), lexicon::CdError>(())
//! ```
//!
//! The work is done by the proved library that `include/lexicon.h` describes. This crate hands it
//! texts, files and buffers and gives types to its numbers; it decides nothing about diagrams itself.
//!
//! # Limits
//!
//! A text has at most 255 bytes, all of them ASCII, and nine nodes; a length in parentheses has at
//! most 15 digits, three exponent digits and a power of ten from −22 to 22. What is beyond a limit
//! is refused. So is an infinite length, such as `(inf)` typed for a placeholder, unless
//! [`Cd::parse_with_infinite`] reads the text.
//!
//! # What it needs
//!
//! An x86-64 processor. Of what `lexicon.h` asks of a caller the crate ensures all but the default
//! floating-point environment (round to nearest, no traps, no flush-to-zero), which a Rust program
//! has unless C code changed it. Rounding down, `(0.1)` files as other bytes.
//!
//! # Coming from miratope-core
//!
//! All names stand at the root of the crate, and `Cox<f64>` is [`Cox`].
//!
//! | miratope-core | here |
//! |---|---|
//! | `Cd::parse`; `CdBuilder`: `new`, `build` | [`Cd::parse_with_infinite`], or [`Cd::parse`], which refuses infinite lengths |
//! | `CdResult`; `CdError`, its cases and words | the same, with more cases; what miratope-core panics on, such as `(`, `x ` and `x3*c`, is refused |
//! | `Cd`: `dim`, `node_count`, `edge_count`, `node_iter`, `nodes`, `minimal`, `cox`; its `Display` | the same, with the fractions of `Display` in lowest terms |
//! | `Cd::node_vector` | the same, as a `Vec` |
//! | `Cd::raw_nodes`, `Cd::raw_edges` | [`Cd::diagram`]: its `nodes` and its `edges`, the lower node first, fractions in lowest terms |
//! | `Cd::generator`, `Cd::circumradius` | the same, with a [`CdError`] for `None` and for infinite lengths; the point is a [`Generator`]. They depend on the order of the nodes: to print, take [`Cd::wall_generator`] and its radius, which miratope-core lacks |
//! | `Cd::new`, `Default` of a `Cd`, `Cd::add_node`, `Cd::add_edge` | none: a diagram comes from a text or from a record. The text `*a` has no nodes |
//! | `Node`: its cases, `value`, `is_ringed`; its `Display` | the same; `==` is by bits |
//! | `Node::ringed`, `Node::snub` | [`Node::Ringed`], [`Node::Snub`] |
//! | `Node::from_char`, `Node::from_char_or` | [`Cd::parse`] of the letter, and [`Cd::nodes`] of that |
//! | `Edge`: `num`, `den`, `value`, `eq_two`; its `Display` | the same; `eq_two` does not wrap |
//! | `Edge::rational`, `Edge::int` | none: an [`Edge`] is plain data, and [`Cd::parse`] tests those of a text |
//! | `NodeRef`: its cases, `new`, `index`; `EdgeRef`: `first`, `other`, `edge`, `new`, `indices` | none: [`Cd::parse`] finds the nodes that references mean; [`StoredEdge`] has them |
//! | `Cox::parse` | [`Cd::parse_with_infinite`] and [`Cd::cox`] of that, or [`Cox::parse`], which refuses infinite lengths |
//! | `Cox`: `dim`, `cox[(i, j)]`, `==`; `From<Cd>` for `Cox` | the same |
//! | `Cox`: `a`, `b`, `d`, `e`, `h` | the same, with a [`CdError`] for a panic and for sizes above nine |
//! | `Cox::trivial` | [`Cox::a`] of 1 |
//! | `Cox::from_lin_diagram_iter`; `Cox::from_lin_diagram` and `Cox::i2`, which panic | [`Cox::parse`] of the chain as a text, such as `o7o` |
//! | `Cox::normals` | the same, as a [`Matrix`], with a [`CdError`] for `None`; Coxeter's mirrors, which miratope-core lacks, are [`Cox::walls`] |
//! | `Cox::gen_iter`, its `gens` | [`Cd::reflections`], for a family those of its text |
//! | `Cox::gen_iter`, its walk; `Cox::group` | none: the elements of groups are not in the specification; their names and orders, which miratope-core lacks, are [`Cd::groups`] |
//! | `Cox`: `new`, `link`, `iter_mut`, `cox[(i, j)] = ..` | none: the library takes no matrix |
//!
//! Cosines and sums are those of the specification, so that every machine computes the same doubles;
//! the last bits may differ from those of nalgebra and of the machine's cosine.

#![deny(missing_docs, unsafe_code)]

mod cd;
mod cox;
mod diagram;
mod error;
#[allow(unsafe_code)]
mod ffi;
mod group;
mod record;
mod rescue;
mod shelf;

pub use cd::{Cd, Generator};
pub use cox::{Cox, Matrix};
pub use diagram::{Diagram, Edge, Node, StoredEdge};
pub use error::{CdError, CdResult};
pub use group::{Group, GroupName, Groups};
pub use record::{Record, RecordError};
pub use rescue::{PlaceMark, Rescue};
pub use shelf::Shelf;
