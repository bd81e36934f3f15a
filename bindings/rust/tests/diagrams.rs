//! The nodes and edges that a text is read to.

use std::collections::HashSet;

use lexicon::{Cd, CdResult, Diagram, Edge, Node, StoredEdge};

fn edges(text: &str) -> CdResult<Vec<(usize, usize, u32, u32)>> {
    let numbers = |StoredEdge { a, b, edge }| (a, b, edge.num, edge.den);
    Ok(Cd::parse(text)?.edges().into_iter().map(numbers).collect())
}

#[test]
fn edges_are_in_the_order_stored() -> CdResult<()> {
    assert_eq!(
        edges("x3o4o5*a")?,
        [(0, 1, 3, 1), (1, 2, 4, 1), (0, 2, 5, 1)]
    );
    assert_eq!(
        edges("ooo*c5*b *c4*a *a3*b")?,
        [(1, 2, 5, 1), (0, 2, 4, 1), (0, 1, 3, 1)]
    );
    Ok(())
}

#[test]
fn loops_are_stored_and_twos_are_dropped() -> CdResult<()> {
    assert_eq!(edges("x3*a")?, [(0, 0, 3, 1)]);
    assert_eq!(edges("x4/2o")?, []);
    assert_eq!(edges("x2*c")?, []); // unseen, so that the missing node does not matter
    Ok(())
}

#[test]
fn the_last_two_parts_of_an_edge_count() -> CdResult<()> {
    assert_eq!(edges("x5/3/2o")?, [(0, 1, 3, 2)]);
    assert_eq!(edges("x5/6/4o")?, [(0, 1, 3, 2)]);
    assert_eq!(
        edges("x4294967295/4294967294o")?,
        [(0, 1, u32::MAX, u32::MAX - 1)]
    );
    Ok(())
}

#[test]
fn edges_are_in_lowest_terms() -> CdResult<()> {
    assert_eq!(edges("x6/2o")?, [(0, 1, 3, 1)]);
    assert_eq!(edges("x10/4o8/6*b")?, [(0, 1, 5, 2), (1, 1, 4, 3)]);
    for text in ["x6/2o", "x006/2o", "x4294967295/1431655765o"] {
        let (typed, lowest) = (Cd::parse(text)?, Cd::parse("x3o")?);
        assert_eq!(typed.edges(), lowest.edges());
        assert_eq!(typed.diagram(), lowest.diagram());
        assert_eq!(typed.to_string(), lowest.to_string());
        assert_eq!(typed.text(), text);
    }
    Ok(())
}

#[test]
fn nodes_have_their_lengths() -> CdResult<()> {
    let cd = Cd::parse("o s q (-2.5e1) (-0)")?;
    let root = std::f64::consts::SQRT_2;
    let expected = [0.0, 1.0, root, -25.0, -0.0];
    assert_eq!(cd.node_vector(), expected);
    assert!(cd.node_vector()[4].is_sign_negative());
    let values: Vec<f64> = cd.node_iter().map(|node| node.value()).collect();
    assert_eq!(values, expected);
    let ringed: Vec<bool> = cd.node_iter().map(|node| node.is_ringed()).collect();
    assert_eq!(ringed, [false, false, true, true, true]);
    assert_eq!(cd.nodes()[..2], [Node::Unringed, Node::Snub(1.0)]);
    Ok(())
}

#[test]
fn nodes_and_diagrams_are_compared_by_kind_and_bits() -> CdResult<()> {
    let texts = [
        "(0)", "(-0)", "o", "x", "(1)", "s", "xo", "ox", "x3o", "x6/2o",
    ];
    let mut diagrams: HashSet<Diagram> = HashSet::new();
    for text in texts {
        let diagram = Cd::parse(text)?.diagram().clone();
        let new = !["(1)", "x6/2o"].contains(&text); // which are x and x3o
        assert_eq!(diagrams.insert(diagram), new, "{text}");
    }
    assert_ne!(Node::Ringed(0.0), Node::Ringed(-0.0));
    assert_ne!(Node::Ringed(0.0), Node::Snub(0.0));
    assert_ne!(Node::Ringed(0.0), Node::Unringed);
    let nodes = [Node::Ringed(f64::NAN); 2]; // of no text, but data
    assert_eq!((nodes[0], HashSet::from(nodes).len()), (nodes[1], 1));
    Ok(())
}

#[test]
fn minimal_takes_a_ring_in_each_component() -> CdResult<()> {
    for (text, minimal) in [
        ("x3o", true),
        ("x o", false),
        ("s3s", false),
        ("x2o3x", true),
    ] {
        assert_eq!(Cd::parse(text)?.minimal(), minimal, "{text}");
    }
    Ok(())
}

#[test]
fn an_edge_has_its_quotient() {
    let edge = Edge { num: 5, den: 2 };
    assert_eq!((edge.value(), edge.to_string()), (2.5, "5 / 2".to_owned()));
    assert_eq!(Edge { num: 3, den: 1 }.to_string(), "3");
}

#[test]
fn an_edge_is_two_without_wrapping() {
    let two = |num, den| Edge { num, den }.eq_two();
    assert!(two(2, 1) && two(6, 3) && two(u32::MAX - 1, u32::MAX / 2));
    assert!(!two(5, 2) && !two(0, 1 << 31) && !two(1, 2));
}

#[test]
fn is_displayed_as_by_miratope_core() -> CdResult<()> {
    let cd = Cd::parse("q5/2s3o")?;
    let nodes = "Node 0: x(1.4142135623730951)\nNode 1: s(1)\nNode 2: o\n";
    let expected = format!("3 Nodes\n2 Edges\n{nodes}Edge 0: 5 / 2Edge 1: 3");
    assert_eq!(
        (cd.to_string(), cd.diagram().to_string()),
        (expected.clone(), expected)
    );
    Ok(())
}

#[test]
fn the_text_is_kept_as_typed() -> CdResult<()> {
    let cd: Cd = " x 3 o".parse()?;
    assert_eq!(cd.text(), " x 3 o");
    Ok(())
}
