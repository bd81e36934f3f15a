//! The names and orders of finite groups.

use std::collections::HashMap;

use lexicon::{Cd, CdError, CdResult, GroupName, Groups};

/// Two nodes and the whole number of the edge that joins them.
type Joined = (usize, usize, u32);

/// A component's lowest node, name and order.
type Told = (usize, String, u64);

/// A name as the ticket writes it, its diagram and its order.
struct Named {
    name: String,
    nodes: usize,
    edges: Vec<Joined>,
    order: u64,
}

impl Named {
    fn new(name: impl Into<String>, nodes: usize, edges: Vec<Joined>, order: u64) -> Self {
        Self {
            name: name.into(),
            nodes,
            edges,
            order,
        }
    }
}

fn chain(numbers: &[u32]) -> Vec<Joined> {
    let edges = numbers.iter().enumerate();
    edges.map(|(i, &number)| (i, i + 1, number)).collect()
}

/// A chain of 3s with a 4 or a 5 at its end.
fn chain_from(first: u32, nodes: usize) -> Vec<Joined> {
    let mut edges = chain(&vec![3; nodes - 1]);
    edges[0].2 = first;
    edges
}

/// A chain of 3s, and one more node joined by a 3 to one of them.
fn branched(nodes: usize, at: usize) -> Vec<Joined> {
    let mut edges = chain(&vec![3; nodes - 2]);
    edges.push((at, nodes - 1, 3));
    edges
}

/// The ticket's list, as far as nine nodes go, with a few of the I2.
fn all_names() -> Vec<Named> {
    let factorial = |n: usize| (1..=n as u64).product::<u64>();
    let mut all = vec![
        Named::new("E6", 6, branched(6, 2), 51_840),
        Named::new("E7", 7, branched(7, 2), 2_903_040),
        Named::new("E8", 8, branched(8, 2), 696_729_600),
        Named::new("F4", 4, chain(&[3, 4, 3]), 1_152),
        Named::new("H3", 3, chain_from(5, 3), 120),
        Named::new("H4", 4, chain_from(5, 4), 14_400),
    ];
    for n in 1..=9 {
        let edges = chain(&vec![3; n - 1]);
        all.push(Named::new(format!("A{n}"), n, edges, factorial(n + 1)));
    }
    for n in 2..=9 {
        let order = (1 << n) * factorial(n);
        all.push(Named::new(format!("B{n}"), n, chain_from(4, n), order));
    }
    for n in 4..=9 {
        let order = (1 << (n - 1)) * factorial(n);
        all.push(Named::new(format!("D{n}"), n, branched(n, 1), order));
    }
    for p in [5, 6, 7, 100, 65_536, 1 << 31, u32::MAX - 1, u32::MAX] {
        let order = 2 * u64::from(p);
        all.push(Named::new(format!("I2({p})"), 2, chain(&[p]), order));
    }
    all
}

struct Random(u64);

impl Random {
    fn below(&mut self, limit: usize) -> usize {
        // xorshift64*
        self.0 ^= self.0 >> 12;
        self.0 ^= self.0 << 25;
        self.0 ^= self.0 >> 27;
        (self.0.wrapping_mul(0x2545_f491_4f6c_dd1d) >> 33) as usize % limit
    }

    /// The nodes 0, 1, 2... in any order.
    fn nodes(&mut self, count: usize) -> Vec<usize> {
        let mut nodes: Vec<usize> = (0..count).collect();
        for i in 1..count {
            nodes.swap(i, self.below(i + 1));
        }
        nodes
    }
}

fn letter(node: usize) -> char {
    char::from(b"abcdefghi"[node])
}

/// Unringed nodes, then the edges by references.
fn text(nodes: usize, edges: impl IntoIterator<Item = (usize, usize, String)>) -> String {
    let edges = edges.into_iter();
    let edges = edges.map(|(a, b, number)| format!(" *{}{number}*{}", letter(a), letter(b)));
    "o".repeat(nodes) + &edges.collect::<String>()
}

/// A text of these components side by side, in any numbering, and what should be told of it.
fn side_by_side(components: &[&Named], random: &mut Random) -> (String, Vec<Told>) {
    let nodes = components.iter().map(|named| named.nodes).sum();
    let numbering = random.nodes(nodes);
    let (mut edges, mut told, mut start) = (vec![], vec![], 0);
    for named in components {
        let own = &numbering[start..start + named.nodes];
        let renumbered = named
            .edges
            .iter()
            .map(|&(a, b, number)| (own[a], own[b], number.to_string()));
        edges.extend(renumbered);
        told.push((*own.iter().min().unwrap(), named.name.clone(), named.order));
        start += named.nodes;
    }
    told.sort();
    (text(nodes, edges), told)
}

fn told(groups: &Groups) -> Vec<Told> {
    let told = groups
        .iter()
        .map(|group| (group.node(), group.name().to_string(), group.order()));
    told.collect()
}

fn groups(text: &str) -> CdResult<Groups> {
    Cd::parse(text)?.groups()
}

#[test]
fn every_name_and_its_order_in_any_numbering() -> CdResult<()> {
    let mut random = Random(0x6e61_6d65);
    for named in all_names() {
        for _ in 0..200 {
            let (text, expected) = side_by_side(&[&named], &mut random);
            let groups = groups(&text)?;
            assert_eq!(told(&groups), expected, "{text}");
            assert_eq!(groups[0].name().order(), named.order, "{text}");
        }
    }
    Ok(())
}

#[test]
fn components_by_rising_lowest_node() -> CdResult<()> {
    let (names, mut random) = (all_names(), Random(0x726f_7773));
    for one in &names {
        for other in names.iter().filter(|other| one.nodes + other.nodes <= 9) {
            let third = &names[random.below(names.len())];
            let all = [one, other, third];
            let fits = if one.nodes + other.nodes + third.nodes <= 9 {
                3
            } else {
                2
            };
            let (text, expected) = side_by_side(&all[..fits], &mut random);
            let groups = groups(&text)?;
            assert_eq!(told(&groups), expected, "{text}");
            let order = expected
                .iter()
                .map(|&(.., order)| u128::from(order))
                .product();
            assert_eq!(groups.order(), Some(order), "{text}");
        }
    }
    Ok(())
}

/// By Coxeter's classification: of a connected diagram of whole numbers the walls exist exactly when
/// its group is finite, and then it has a name.
#[test]
fn all_diagrams_of_four_nodes_have_names_where_walls_exist() -> CdResult<()> {
    let pairs = [(0, 1), (0, 2), (1, 2), (0, 3), (1, 3), (2, 3)];
    let mut named = 0;
    for number in 0..5_u32.pow(6) {
        let edge = |i: usize| 2 + number / 5_u32.pow(u32::try_from(i).unwrap()) % 5;
        let edges = pairs.iter().enumerate();
        let edges = edges.map(|(i, &(a, b))| (a, b, edge(i).to_string()));
        let cd = Cd::parse(&text(4, edges))?;
        assert_eq!(
            cd.groups().is_ok(),
            cd.cox().walls().is_ok(),
            "{}",
            cd.text()
        );
        named += usize::from(cd.groups().is_ok());
    }
    assert!(named > 100, "{named}");
    Ok(())
}

/// One edge of a name made a fraction: no name is left.
#[test]
fn fractions_fit_no_name() {
    for named in all_names().iter().filter(|named| named.nodes > 1) {
        for changed in 0..named.edges.len() {
            for fraction in ["5/2", "3/2", "4/3", "4294967295/2"] {
                let edges = named.edges.iter().enumerate();
                let edges = edges.map(|(i, &(a, b, number))| {
                    let whole = number.to_string();
                    (a, b, if i == changed { fraction.into() } else { whole })
                });
                let text = text(named.nodes, edges);
                assert_eq!(groups(&text), Err(CdError::NoName { node: 0 }), "{text}");
            }
        }
    }
}

#[test]
fn two_nodes() {
    let name = |edge: &str| groups(&format!("x{edge}o")).map(|groups| groups[0].name().to_string());
    for (edge, expected) in [
        ("3", "A2"),
        ("6/2", "A2"),
        ("4", "B2"),
        ("8/2", "B2"),
        ("5", "I2(5)"),
        ("10/2", "I2(5)"),
        ("6", "I2(6)"),
        ("4294967294/2", "I2(2147483647)"),
        ("4294967295", "I2(4294967295)"),
    ] {
        assert_eq!(name(edge).as_deref(), Ok(expected), "{edge}");
    }
    for edge in ["5/2", "3/2", "7/3", "4294967295/4294967294"] {
        assert_eq!(name(edge), Err(CdError::NoName { node: 0 }), "{edge}");
    }
}

#[test]
fn the_first_component_that_no_name_fits_is_refused() {
    for (text, node) in [
        ("x4o4o", 0),
        ("o3o3o3*a", 0),
        ("o5o3o3o3o", 0),
        ("o3o3o3o3o3o3o3o *c3o", 0), // E9
        ("o3o3o3o3o *c3o3o", 0),
        ("x x5/2x", 1),
        ("x3o3o x4o4o x5/2o", 3),
        ("oooo *a3*d *c5/2*b", 1),
        ("oooo *b3*d *d5/2*c", 1),
    ] {
        assert_eq!(groups(text), Err(CdError::NoName { node }), "{text}");
    }
}

#[test]
fn rings_lengths_loops_and_spellings_play_no_part() -> CdResult<()> {
    let plain = groups("o3o4o")?;
    for text in [
        "x3x4x",
        "s3(-2.5)4(1e22)",
        "o3o4o *a5/2*a *c7*c",
        "o6/2o12/3o2*a",
        "o4o3o",
    ] {
        assert_eq!(groups(text)?, plain, "{text}");
    }
    let infinite = Cd::parse_with_infinite("(inf)3(-inf)4o")?;
    assert_eq!(infinite.groups()?, plain);
    Ok(())
}

#[test]
fn no_tolerance_of_mirrors_plays_a_part() -> CdResult<()> {
    let cd = Cd::parse("x4294967295o")?;
    let crowded = CdError::Crowded { column: 1 };
    assert_eq!(cd.cox().normals(), Err(crowded));
    assert_eq!(cd.cox().walls(), Err(crowded));
    assert_eq!(
        told(&cd.groups()?),
        [(0, "I2(4294967295)".to_owned(), 8_589_934_590)]
    );
    Ok(())
}

/// The largest products, and those on both sides of 2¹²⁸.
#[test]
fn the_order_of_the_whole_is_told_as_far_as_it_fits() -> CdResult<()> {
    let order = |text: &str| groups(text).map(|groups| groups.order());
    assert_eq!(order("*a")?, Some(1));
    assert_eq!(order("x")?, Some(2));
    assert_eq!(order("ooooooooo")?, Some(512));
    assert_eq!(order("o3o3o3o3o3o3o *c3o o")?, Some(2 * 696_729_600));

    let half = "x2147483648x x2147483648x x2147483648x"; // 2⁹⁶
    assert_eq!(order(half)?, Some(1 << 96));
    assert_eq!(
        order(&format!("{half} x2147483647x"))?,
        Some(u128::MAX - (1 << 97) + 1)
    );
    assert_eq!(order(&format!("{half} x2147483648x"))?, None);
    assert_eq!(
        order(&format!("{half} x1073741823x x"))?,
        Some(u128::MAX - (1 << 98) + 1)
    );
    assert_eq!(order(&format!("{half} x1073741824x x"))?, None);

    let three = "x4294967295x x4294967295x x4294967295x xxx";
    assert_eq!(order(three)?, Some(8 * 8_589_934_590_u128.pow(3)));
    let four = "x4294967295x x4294967295x x4294967295x x4294967295x x";
    assert_eq!(order(four)?, None);
    Ok(())
}

/// Each number in a match that lists all names, as another crate writes it.
#[test]
fn names_are_matched() -> CdResult<()> {
    for named in all_names() {
        let (text, _) = side_by_side(&[&named], &mut Random(1));
        let written = match groups(&text)?[0].name() {
            GroupName::A { n, .. } => format!("A{n}"),
            GroupName::B { n, .. } => format!("B{n}"),
            GroupName::D { n, .. } => format!("D{n}"),
            GroupName::E6 => "E6".to_owned(),
            GroupName::E7 => "E7".to_owned(),
            GroupName::E8 => "E8".to_owned(),
            GroupName::F4 => "F4".to_owned(),
            GroupName::H3 => "H3".to_owned(),
            GroupName::H4 => "H4".to_owned(),
            GroupName::I2 { p, .. } => format!("I2({p})"),
        };
        assert_eq!(written, named.name);
    }
    Ok(())
}

#[test]
fn are_a_slice_in_order() -> CdResult<()> {
    let groups = groups("x3o x7o x3o x")?;
    assert_eq!((groups.len(), groups.is_empty()), (4, false));
    assert_eq!((groups[1].node(), groups.get(4)), (2, None));
    let mut count: HashMap<GroupName, usize> = HashMap::new();
    for group in &groups {
        *count.entry(group.name()).or_default() += 1;
    }
    assert_eq!(count[&groups[0].name()], 2);
    let nodes = groups.clone().into_iter().map(|group| group.node());
    assert!(nodes.eq([0, 2, 4, 6]));
    assert_eq!(groups[0].name(), groups[2].name());
    assert_ne!(groups[0], groups[2]); // of other nodes
    assert!(self::groups("*a")?.is_empty());
    Ok(())
}
