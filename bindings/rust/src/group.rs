//! The names and orders of finite groups.

use std::{fmt, ops::Deref, slice, vec};

use crate::{diagram::part, ffi::NAMES};

/// The name of a finite group that reflections generate, from Coxeter's list.
///
/// Every value is a name, since only the library's answers make those with a number: no other crate
/// can make an `A` of 0 or an `I2` of 4, and so none has to test the numbers that it meets. Where
/// other crates match, such patterns end in `..`.
///
/// ```
/// use lexicon::{Cd, GroupName};
///
/// let name = Cd::parse("x3o4o")?.groups()?[0].name();
/// assert!(matches!(name, GroupName::B { n: 3, .. }));
/// assert_eq!(name.to_string(), "B3");
/// # Ok::<(), lexicon::CdError>(())
/// ```
///
/// ```compile_fail,E0639
/// let name = lexicon::GroupName::A { n: 0 };
/// ```
///
/// Names are ordered as they are listed here, and those of a family by their number, so that they can
/// be sorted.
#[derive(Clone, Copy, Debug, PartialEq, Eq, PartialOrd, Ord, Hash)]
pub enum GroupName {
    /// A chain of 3s, the group of a simplex. Its order is (n + 1)!.
    #[non_exhaustive]
    A {
        /// How many nodes there are, at least 1.
        n: usize,
    },

    /// A chain of 3s with a 4 at one end, the group of a hypercube. Its order is 2ⁿ n!.
    #[non_exhaustive]
    B {
        /// How many nodes there are, at least 2.
        n: usize,
    },

    /// A chain of 3s and one more node, joined by a 3 to the second of them. Its order is 2ⁿ⁻¹ n!.
    #[non_exhaustive]
    D {
        /// How many nodes there are, at least 4: those of three are named as A3.
        n: usize,
    },

    /// Five nodes in a chain of 3s, and one more joined by a 3 to the third. Its order is 51,840.
    E6,

    /// Six nodes in a chain of 3s, and one more joined by a 3 to the third. Its order is 2,903,040.
    E7,

    /// Seven nodes in a chain of 3s, and one more joined by a 3 to the third. Its order is
    /// 696,729,600.
    E8,

    /// The chain 3, 4, 3, the group of the 24-cell. Its order is 1,152.
    F4,

    /// The chain 5, 3, the group of the icosahedron. Its order is 120.
    H3,

    /// The chain 5, 3, 3, the group of the 600-cell. Its order is 14,400.
    H4,

    /// Two nodes joined by a whole number, the group of a polygon. Its order is 2p.
    #[non_exhaustive]
    I2 {
        /// The number, at least 5: 3 is A2, and 4 is B2.
        p: u32,
    },
}

impl GroupName {
    /// The name of this letter and number behind it.
    fn from_numbers(letter: u64, number: u64) -> Self {
        match (u8::try_from(letter), number) {
            (Ok(b'A'), n) => Self::A { n: index(n) },
            (Ok(b'B'), n) => Self::B { n: index(n) },
            (Ok(b'D'), n) => Self::D { n: index(n) },
            (Ok(b'E'), 6) => Self::E6,
            (Ok(b'E'), 7) => Self::E7,
            (Ok(b'E'), 8) => Self::E8,
            (Ok(b'F'), 4) => Self::F4,
            (Ok(b'H'), 3) => Self::H3,
            (Ok(b'H'), 4) => Self::H4,
            (Ok(b'I'), p) => Self::I2 { p: part(p) },
            _ => unreachable!("lexicon.h has no name of letter {letter} and number {number}"),
        }
    }

    /// The order of the group, the number of its elements. A name has at most nine nodes, so that
    /// none of these numbers is too large.
    ///
    /// ```
    /// use lexicon::{Cd, GroupName};
    ///
    /// assert_eq!(GroupName::E8.order(), 696_729_600);
    /// assert_eq!(Cd::parse("x7o")?.groups()?[0].name().order(), 14);
    /// # Ok::<(), lexicon::CdError>(())
    /// ```
    #[must_use]
    pub fn order(self) -> u64 {
        let factorial = |n: usize| (1..=n).fold(1, |product, k| product * k as u64);
        match self {
            Self::A { n } => factorial(n + 1),
            Self::B { n } => factorial(n) << n,
            Self::D { n } => factorial(n) << (n - 1),
            Self::E6 => 51_840,
            Self::E7 => 2_903_040,
            Self::E8 => 696_729_600,
            Self::F4 => 1_152,
            Self::H3 => 120,
            Self::H4 => 14_400,
            Self::I2 { p } => 2 * u64::from(p),
        }
    }
}

impl fmt::Display for GroupName {
    /// Writes `A3`, `E8` or `I2(7)`.
    fn fmt(&self, f: &mut fmt::Formatter<'_>) -> fmt::Result {
        match self {
            Self::A { n } => write!(f, "A{n}"),
            Self::B { n } => write!(f, "B{n}"),
            Self::D { n } => write!(f, "D{n}"),
            Self::E6 => write!(f, "E6"),
            Self::E7 => write!(f, "E7"),
            Self::E8 => write!(f, "E8"),
            Self::F4 => write!(f, "F4"),
            Self::H3 => write!(f, "H3"),
            Self::H4 => write!(f, "H4"),
            Self::I2 { p } => write!(f, "I2({p})"),
        }
    }
}

/// The finite group of a component of a diagram.
#[derive(Clone, Copy, Debug, PartialEq, Eq, Hash)]
pub struct Group {
    node: usize,
    name: GroupName,
    order: u64,
}

impl Group {
    /// The component that the library laid out in these numbers.
    fn from_numbers(&[node, letter, number, order]: &[u64; 4]) -> Self {
        let name = GroupName::from_numbers(letter, number);
        debug_assert_eq!(name.order(), order, "{name}");
        let node = index(node);
        Self { node, name, order }
    }

    /// The component's lowest node.
    #[must_use]
    pub fn node(&self) -> usize {
        self.node
    }

    /// The group's name.
    #[must_use]
    pub fn name(&self) -> GroupName {
        self.name
    }

    /// The group's order, the library's own number, which is proved to be that of the name. It is what
    /// [`GroupName::order`] computes.
    #[must_use]
    pub fn order(&self) -> u64 {
        self.order
    }
}

/// The finite groups of a diagram's components, by rising lowest node: a slice of them, their names
/// sorted, and the order of the whole.
///
/// ```
/// use lexicon::Cd;
///
/// let groups = Cd::parse("x3o3o x7o")?.groups()?;
/// assert_eq!(groups.len(), 2);
/// for group in &groups {
///     println!("{} has order {}", group.name(), group.order());
/// }
/// # Ok::<(), lexicon::CdError>(())
/// ```
#[derive(Clone, Debug, PartialEq, Eq, Hash)]
pub struct Groups(Vec<Group>);

impl Groups {
    /// So many components that the library laid out in these numbers.
    pub(crate) fn from_numbers(numbers: &[u64; NAMES], count: usize) -> Self {
        let components = numbers.as_chunks().0.iter().take(count);
        Self(components.map(Group::from_numbers).collect())
    }

    /// The names, sorted. Every text of a figure has the same ones, each as often, so that this list does
    /// not depend on the order in which the components were typed, as the slice does.
    ///
    /// ```
    /// use lexicon::Cd;
    ///
    /// let [prism, typed_otherwise] = ["x7o x3o3o", "x3o3o x7o"].map(Cd::parse);
    /// let [prism, typed_otherwise] = [prism?.groups()?, typed_otherwise?.groups()?];
    /// assert_eq!(prism.names(), typed_otherwise.names());
    /// assert_ne!(prism[0].name(), typed_otherwise[0].name());
    /// # Ok::<(), lexicon::CdError>(())
    /// ```
    #[must_use]
    pub fn names(&self) -> Vec<GroupName> {
        let mut names: Vec<_> = self.iter().map(Group::name).collect();
        names.sort_unstable();
        names
    }

    /// The order of the diagram's whole group, which is the product of the components' groups: the
    /// product of their orders, 1 if there is no component. `None` if it is 2¹²⁸ or more, as it can
    /// be of four [`GroupName::I2`] with very large p.
    ///
    /// ```
    /// use lexicon::Cd;
    ///
    /// assert_eq!(Cd::parse("x3o3o x7o")?.groups()?.order(), Some(24 * 14));
    /// assert_eq!(Cd::parse("*a")?.groups()?.order(), Some(1));
    /// # Ok::<(), lexicon::CdError>(())
    /// ```
    #[must_use]
    pub fn order(&self) -> Option<u128> {
        let mut orders = self.iter().map(|group| u128::from(group.order()));
        orders.try_fold(1, u128::checked_mul)
    }
}

impl Deref for Groups {
    type Target = [Group];

    fn deref(&self) -> &[Group] {
        &self.0
    }
}

impl IntoIterator for Groups {
    type Item = Group;
    type IntoIter = vec::IntoIter<Group>;

    fn into_iter(self) -> Self::IntoIter {
        self.0.into_iter()
    }
}

impl<'a> IntoIterator for &'a Groups {
    type Item = &'a Group;
    type IntoIter = slice::Iter<'a, Group>;

    fn into_iter(self) -> Self::IntoIter {
        self.iter()
    }
}

/// A node, or how many nodes there are, for which the library has a wider place.
fn index(number: u64) -> usize {
    let narrow = number.try_into();
    narrow.unwrap_or_else(|_| unreachable!("lexicon.h has at most nine nodes"))
}
