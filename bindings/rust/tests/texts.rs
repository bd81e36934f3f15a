//! Texts at the limits and beyond: each ends with a diagram or with a refusal.

use lexicon::{Cd, CdError, CdResult, Cox, Node};

fn refusal(text: &[u8]) -> CdError {
    Cd::parse_bytes(text).unwrap_err()
}

#[test]
fn empty_or_only_spaces() {
    for text in ["", " ", "\t\n\u{b}\u{c}\r "] {
        let pos = text.len();
        let ending = CdError::UnexpectedEnding { pos };
        assert_eq!(refusal(text.as_bytes()), ending);
    }
}

#[test]
fn nul_bytes_fit_nothing() {
    for pos in 0..5 {
        let mut text = *b"x4o3o";
        text[pos] = 0;
        assert_eq!(refusal(&text), CdError::InvalidSymbol { pos });
    }
    assert_eq!(refusal(b"x4o3o\0"), CdError::InvalidSymbol { pos: 5 });
}

#[test]
fn bytes_of_128_and_above_are_found_first() {
    for pos in 0..5 {
        for byte in 128..=255 {
            let mut text = *b"_____"; // 6 at 0 otherwise
            text[pos] = byte;
            assert_eq!(refusal(&text), CdError::NotAscii { pos });
        }
    }
    assert_eq!(Cd::parse("x3é").unwrap_err(), CdError::NotAscii { pos: 2 });
}

#[test]
fn at_most_255_bytes() -> CdResult<()> {
    let text = |len: usize| " ".repeat(len - 1) + "x";
    let cd = Cd::parse(&text(255))?;
    assert_eq!(cd.nodes(), [Node::Ringed(1.0)]);
    assert_eq!(cd.text(), text(255));
    assert_eq!(cd.record(), Cd::parse("x")?.record());
    for len in [256, 257, 100_000] {
        let too_long = CdError::TooLong { pos: 255 };
        assert_eq!(refusal(text(len).as_bytes()), too_long);
    }
    // The length is tested before the bytes.
    assert_eq!(refusal(&[255; 256]), CdError::TooLong { pos: 255 });
    Ok(())
}

#[test]
fn at_most_nine_nodes() {
    assert_eq!(Cd::parse(&"o".repeat(9)).unwrap().node_count(), 9);
    let tenth = Cd::parse(&"o".repeat(10)).unwrap_err();
    assert_eq!(tenth, CdError::TooManyNodes { pos: 9 });
    // A reference adds no node.
    assert_eq!(Cd::parse("ooooooooo*a*-a").unwrap().node_count(), 9);
}

#[test]
fn infinite_lengths_are_refused_as_they_are_met() {
    let unwished = |pos| CdError::InfiniteLength { pos };
    assert_eq!(refusal(b"(inf)"), unwished(3));
    assert_eq!(refusal(b"(-Infinity)"), unwished(9));
    assert_eq!(refusal(b"ooooooooo(+iNf)"), unwished(13)); // no tenth node, as it has a fault
    assert_eq!(refusal(b"x3*c(inf)"), unwished(7)); // nodes are missed only after the text
    assert_eq!(refusal(b"x1(inf)").number(), 7);
}

#[test]
fn infinite_lengths_are_lengths_if_wished() -> CdResult<()> {
    let cd = Cd::parse_with_infinite("(inf)3(-Infinity)")?;
    let nodes = [Node::Ringed(f64::INFINITY), Node::Ringed(f64::NEG_INFINITY)];
    assert_eq!(cd.nodes(), nodes);
    assert_eq!(cd.record().diagram().nodes, nodes);
    let turned = Cd::parse_with_infinite(b"(-INF)3(+inf)")?;
    assert_eq!(cd.corresponding_nodes(&turned), Some(vec![1, 0]));
    assert_eq!(cd.cox(), Cox::parse("x3x")?);
    assert_eq!(cd.cox().normals(), Cox::parse("x3x")?.normals());
    assert_eq!(cd.reflections(), Cd::parse("x3x")?.reflections());
    assert_eq!(cd.generator().unwrap_err(), CdError::Infinite { node: 0 });
    Ok(())
}

#[test]
fn the_wish_changes_nothing_for_finite_lengths() -> CdResult<()> {
    let [cd, wished] = [Cd::parse("q3o4s")?, Cd::parse_with_infinite("q3o4s")?];
    assert_eq!(cd.diagram(), wished.diagram());
    assert_eq!(cd.record_and_numbering(), wished.record_and_numbering());
    assert_eq!(cd.generator(), wished.generator());
    Ok(())
}

#[test]
fn no_nodes() -> CdResult<()> {
    let cd = Cd::parse("*a")?;
    assert_eq!((cd.dim(), cd.node_count(), cd.edge_count()), (0, 0, 0));
    assert!(cd.minimal() && cd.nodes().is_empty() && cd.edges().is_empty());
    assert_eq!(cd.to_string(), "0 Nodes\n0 Edges\n");
    let (record, numbering) = cd.record_and_numbering();
    assert_eq!((record.as_bytes(), numbering), (&[0; 370], vec![]));
    assert!(record.diagram().nodes.is_empty());
    assert_eq!((cd.cox().dim(), cd.cox().normals()?.dim()), (0, 0));
    assert_eq!(
        (cd.generator()?.coordinates(), cd.circumradius()?),
        (&[][..], 0.0)
    );
    assert!(cd.reflections()?.is_empty());
    Ok(())
}

/// The library keeps nothing between calls.
#[test]
fn read_from_many_threads_at_once() {
    let texts = [
        "x3o4o", "o4o3x", "*a", "x1o", "(inf)", "x4o4o", "s5s3s", "oooooo",
    ];
    let answers = |text: &str| {
        Cd::parse_with_infinite(text)
            .map(|cd| (cd.record_and_numbering(), cd.generator(), cd.minimal()))
    };
    let alone = texts.map(answers);
    std::thread::scope(|scope| {
        for _ in 0..4 {
            scope.spawn(|| (0..50).for_each(|_| assert_eq!(texts.map(answers), alone)));
        }
    });
}
