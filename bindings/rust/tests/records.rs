//! Records: equal for equal figures, keys of maps, read back, refused.

use std::{
    collections::{BTreeSet, HashMap},
    error::Error,
};

use lexicon::{Cd, CdError, Node, Record, RecordError, StoredEdge};

fn cd(text: &str) -> Cd {
    Cd::parse(text).unwrap()
}

fn record(text: &str) -> Record {
    cd(text).record()
}

#[test]
fn headwords_meet_in_one_article() {
    let typed = [
        "x3o4o", "x4o3o", "o4o3x", "o3o4x", "x3o", "x6/2o", "o3o *a3x", "x3o4o2*a",
    ];
    let mut articles: HashMap<Record, Vec<&str>> = HashMap::new();
    for text in typed {
        articles.entry(record(text)).or_default().push(text);
    }
    assert_eq!(articles[&record("x3o4o")], ["x3o4o", "o4o3x", "x3o4o2*a"]);
    assert_eq!(articles[&record("x4o3o")], ["x4o3o", "o3o4x"]);
    assert_eq!(articles[&record("o3x")], ["x3o", "x6/2o"]);
    assert_eq!(articles[&record("x3o3o")], ["o3o *a3x"]);
    assert_eq!(articles.len(), 4);
}

#[test]
fn loops_play_no_part_and_signs_of_zero_do() {
    assert_eq!(record("x3*a4o"), record("x4o"));
    assert_ne!(record("(0)"), record("(-0)"));
    assert_ne!(record("s"), record("x"));
}

/// In the record's order of nodes a text has the diagram that its record is read back to.
#[test]
fn is_read_back_to_the_diagram_of_the_text() {
    for text in ["o6/2x", "o4294967295/1431655765x", "o3x"] {
        assert_eq!(record(text).diagram(), *cd(text).diagram());
        assert_eq!(record(text), record("x3o"));
    }
}

/// The bytes that the specification gives for `x4o`.
#[test]
fn has_the_bytes_of_the_specification() {
    let mut bytes = [0; Record::LEN];
    bytes[..2].copy_from_slice(&[2, 1]);
    bytes[10..13].copy_from_slice(&[2, 0x3f, 0xf0]);
    bytes[82..90].copy_from_slice(&[0, 0, 0, 4, 0, 0, 0, 1]);
    assert_eq!(record("x4o").as_bytes(), &bytes);
    assert_eq!(record("o4x").as_bytes(), &bytes);
}

#[test]
fn the_numbering_gives_the_record() {
    let cd = cd("q6/2o x4s *b10/4*c");
    let (record, numbering) = cd.record_and_numbering();
    let diagram = record.diagram();
    for (place, &node) in numbering.iter().enumerate() {
        assert_eq!(diagram.nodes[place], cd.nodes()[node]);
    }
    let place = |node| numbering.iter().position(|&old| old == node).unwrap();
    for stored in cd.edges() {
        let (a, b) = (place(stored.a), place(stored.b));
        let same = |other: &&StoredEdge| (other.a, other.b) == (a.min(b), a.max(b));
        assert_eq!(diagram.edges.iter().find(same).unwrap().edge, stored.edge);
    }
    assert_eq!(diagram.edges.len(), cd.edge_count());
}

/// Of symmetric figures, by hand: the nodes by rising number, as far as the record allows it.
#[test]
fn the_numbering_is_the_first() {
    for (text, first) in [
        ("xxx", vec![0, 1, 2]),
        ("xxo", vec![2, 0, 1]),
        ("x3x x", vec![2, 0, 1]),
        ("x3x3x", vec![0, 2, 1]),
        ("x3x3x3*a", vec![0, 1, 2]),
        ("x3x x3x", vec![0, 2, 3, 1]),
        ("x3x3x3x3*a", vec![0, 2, 1, 3]),
        ("x3o3o3o", vec![3, 1, 2, 0]),
        ("xxxxxxxxx", (0..9).collect()),
        ("*a", vec![]),
    ] {
        let (_, numbering) = cd(text).record_and_numbering();
        assert_eq!(numbering, first, "{text}");
    }
}

#[test]
fn corresponding_nodes_carry_one_diagram_onto_the_other() {
    let [one, other, apart] = ["x3x4o q5/2x", "q5/2x o4x3x", "x3x4o q5/3x"].map(cd);
    let nodes = one.corresponding_nodes(&other).unwrap();
    assert_eq!(nodes, [4, 3, 2, 0, 1]);
    for (node, &corresponding) in nodes.iter().enumerate() {
        assert_eq!(one.nodes()[node], other.nodes()[corresponding]);
    }
    for stored in one.edges() {
        let ends = [nodes[stored.a], nodes[stored.b]];
        let joins = |edge: &&StoredEdge| ends.contains(&edge.a) && ends.contains(&edge.b);
        assert_eq!(other.edges().iter().find(joins).unwrap().edge, stored.edge);
    }
    assert_eq!(one.corresponding_nodes(&apart), None);
    assert_eq!(cd("*a").corresponding_nodes(&cd("*b2*z")), Some(vec![]));
}

#[test]
fn round_trips_by_bytes_and_by_digits() {
    for text in ["*a", "x", "x3o4o", "s5/2s3s", "(inf)3(-0)7/3o", "ooooooo"] {
        let record = Cd::parse_with_infinite(text).unwrap().record();
        assert_eq!(Record::from_bytes(record.as_bytes()), Ok(record));
        assert_eq!(Record::from_trusted_bytes(record.as_bytes()), record);
        let bytes: &[u8] = record.as_ref();
        assert_eq!(
            (bytes, bytes.try_into()),
            (&record.as_bytes()[..], Ok(record))
        );
        let digits = record.to_string();
        assert_eq!((digits.len(), digits.to_lowercase()), (740, digits.clone()));
        assert_eq!(digits.parse(), Ok(record));
        assert_eq!(digits.to_uppercase().parse(), Ok(record));
        assert_eq!(format!("{record:?}"), format!("Record({digits})"));
    }
}

#[test]
fn is_ordered_by_its_bytes_as_by_its_digits() {
    let records = ["x3o4o", "*a", "s", "x", "o", "(-1)", "x5o", "x5/2o"].map(record);
    let by_bytes: BTreeSet<Record> = records.into();
    let by_digits: BTreeSet<String> = records.map(|record| record.to_string()).into();
    assert_eq!(by_bytes.len(), records.len());
    assert!(by_bytes.iter().map(Record::to_string).eq(by_digits));
}

#[test]
fn other_lengths_are_refused() {
    let bytes = [0; 1000];
    for len in [0, 1, 369, 371, 740, 1000] {
        assert_eq!(
            Record::from_bytes(&bytes[..len]),
            Err(CdError::RecordLength)
        );
        assert_eq!(Record::try_from(&bytes[..len]), Err(CdError::RecordLength));
    }
    assert_eq!(Record::from_bytes(&bytes[..370]), Ok(record("*a")));
}

type Bytes = [u8; Record::LEN];

const NODE: usize = 9; // bytes
const PAIR: usize = 8;

fn node_at(i: usize) -> usize {
    1 + NODE * i
}

fn pair_at(i: usize, j: usize) -> usize {
    let (low, high) = (i.min(j), i.max(j));
    82 + PAIR * (high * (high - 1) / 2 + low)
}

/// The same bytes with these at a place.
fn changed(bytes: &Bytes, at: usize, by: &[u8]) -> Bytes {
    let mut changed = *bytes;
    changed[at..at + by.len()].copy_from_slice(by);
    changed
}

/// The bytes of a diagram renumbered: place i gets the node of place `order[i]`.
fn renumbered(bytes: &Bytes, order: &[usize]) -> Bytes {
    let mut out = *bytes;
    for (i, &node) in order.iter().enumerate() {
        out = changed(&out, node_at(i), &bytes[node_at(node)..][..NODE]);
        for (j, &other) in order[..i].iter().enumerate() {
            out = changed(&out, pair_at(i, j), &bytes[pair_at(node, other)..][..PAIR]);
        }
    }
    out
}

/// Every order of the numbers below n.
fn orders(n: usize) -> Vec<Vec<usize>> {
    let Some(last) = n.checked_sub(1) else {
        return vec![vec![]];
    };
    let with_last = |order: Vec<usize>| {
        (0..n).map(move |place| [&order[..place], &[last], &order[place..]].concat())
    };
    orders(last).into_iter().flat_map(with_last).collect()
}

/// As many renumberings as the figure has symmetries are its record.
#[test]
fn every_other_numbering_is_not_the_smallest() {
    for (text, symmetries) in [
        ("*a", 1),
        ("x", 1),
        ("x4o", 1),
        ("x3x", 2),
        ("x3o4o", 1),
        ("s5/2x3s", 1),
        ("x3x3x", 2),
        ("xxx", 6),
        ("(0)(-0)q3(-1)", 1),
        ("x3x3x3x3*a", 8),
        ("x3x x3o s", 2),
    ] {
        let record = record(text);
        let mut same = 0;
        for order in orders(cd(text).node_count()) {
            let bytes = renumbered(record.as_bytes(), &order);
            let read = Record::from_bytes(&bytes);
            if bytes == *record.as_bytes() {
                assert_eq!(read, Ok(record), "{text} {order:?}");
                same += 1;
            } else {
                assert_eq!(read, Err(CdError::NotSmallest), "{text} {order:?}");
                assert!(bytes > *record.as_bytes(), "{text} {order:?}");
            }
        }
        assert_eq!(same, symmetries, "{text}");
    }
}

/// The record of `x3o4o` so changed, in every numbering: that is tested last.
fn assert_no_diagram(at: usize, by: &[u8]) {
    let damaged = changed(record("x3o4o").as_bytes(), at, by);
    for order in orders(3) {
        let read = Record::from_bytes(&renumbered(&damaged, &order));
        assert_eq!(read, Err(CdError::NoDiagram), "{by:?} at {at}, {order:?}");
    }
}

fn assert_no_edge(at: usize, num: u32, den: u32) {
    assert_no_diagram(at, &[num.to_be_bytes(), den.to_be_bytes()].concat());
}

/// The record has o, o and x, 4 between the first two, nothing between the first and the last, and 3.
#[test]
fn bytes_of_no_diagram_are_refused() {
    for count in [0, 2, 4, 9, 10, 255] {
        assert_no_diagram(0, &[count]);
    }
    for kind in [0, 4, 255] {
        assert_no_diagram(node_at(0), &[kind]);
    }
    for length in [1.0_f64, -0.0, 5e-324] {
        assert_no_diagram(node_at(0) + 1, &length.to_be_bytes()); // but o has none
    }
    for nan in [0x7ff8 << 48, 0xfff8 << 48, (0x7ff_u64 << 52) + 1, u64::MAX] {
        assert_no_diagram(node_at(2) + 1, &nan.to_be_bytes());
    }
    for (num, den) in [(6, 2), (4, 2), (4, 0), (0, 1), (1, 1), (3, 4)] {
        assert_no_edge(pair_at(0, 1), num, den);
    }
    assert_no_edge(pair_at(0, 2), 4, 2);
    assert_no_edge(pair_at(0, 2), 0, 0);
    assert_no_edge(pair_at(0, 3), 2, 1); // an unused place, which is zero
    for filler in [node_at(3), pair_at(0, 1) - 1, Record::LEN - 1] {
        assert_no_diagram(filler, &[1]);
    }
    let read = Record::from_bytes(&[255; Record::LEN]);
    assert_eq!(read, Err(CdError::NoDiagram));
}

/// Also those that no text has. Only nan is none.
#[test]
fn any_length_is_read() {
    let (large, infinite) = (f64::MAX, f64::INFINITY);
    let record = record("x3o4o");
    for length in [0.0, -0.0, 5e-324, 1e300, large, -large, infinite, -infinite] {
        let bytes = changed(record.as_bytes(), node_at(2) + 1, &length.to_be_bytes());
        let nodes = Record::from_bytes(&bytes).unwrap().diagram().nodes;
        assert_eq!(nodes[2], Node::Ringed(length));
        let turned = Record::from_bytes(&renumbered(&bytes, &[2, 1, 0]));
        assert_eq!(turned, Err(CdError::NotSmallest), "{length}");
    }
}

/// What was sent is refused, and every text of the figure gets the record that is read back.
#[test]
fn bad_numbering_is_mended_by_the_text() {
    let record = record("x3o4o");
    let sent = renumbered(record.as_bytes(), &[2, 1, 0]); // as typed
    assert_eq!(Record::from_bytes(&sent), Err(CdError::NotSmallest));
    for text in ["x3o4o", "o4o3x", "o6/2x *a4o", "x3o4o *a5*a"] {
        let mended = cd(text).record();
        assert_eq!(mended, record, "{text}");
        assert_eq!(Record::from_bytes(mended.as_bytes()), Ok(mended), "{text}");
    }
}

#[test]
fn trusted_bytes_are_taken_as_they_are() {
    let record = Record::from_trusted_bytes(&[255; Record::LEN]);
    assert_eq!(record.as_bytes(), &[255; Record::LEN]);
    assert_eq!(record.to_string(), "ff".repeat(Record::LEN));
}

#[test]
#[should_panic(expected = "not the layout of any diagram")]
fn a_diagram_of_trusted_bytes_that_are_no_layout_panics() {
    let _ = Record::from_trusted_bytes(&[255; Record::LEN]).diagram();
}

#[test]
#[should_panic(expected = "not the smallest numbering")]
fn a_diagram_of_trusted_bytes_that_are_numbered_badly_panics() {
    let sent = renumbered(record("x4o").as_bytes(), &[1, 0]);
    let _ = Record::from_trusted_bytes(&sent).diagram();
}

#[test]
fn wrong_digits_are_told() {
    let digits = record("x4o").to_string();
    let refusal = |text: &str| text.parse::<Record>().unwrap_err();
    assert_eq!(refusal(""), RecordError::Length { len: 0 });
    assert_eq!(refusal(&digits[1..]), RecordError::Length { len: 739 });
    assert_eq!(
        refusal(&(digits.clone() + "\n")),
        RecordError::Length { len: 741 }
    );
    // The length is that in bytes: é has two.
    assert_eq!(
        refusal(&digits.replacen('0', "é", 1)),
        RecordError::Length { len: 741 }
    );
    for (pos, wrong) in [(0, "g"), (1, " "), (370, "+"), (739, "\0")] {
        let mut text = digits.clone();
        text.replace_range(pos..=pos, wrong);
        assert_eq!(refusal(&text), RecordError::Digit { pos });
    }
    let mut text = digits.clone();
    text.replace_range(3..5, "é");
    assert_eq!(refusal(&text), RecordError::Digit { pos: 3 });

    let damaged = digits.replacen("02", "0a", 1);
    let turned = renumbered(record("x4o").as_bytes(), &[1, 0]);
    let turned = Record::from_trusted_bytes(&turned).to_string();
    for (text, reason) in [
        (damaged, CdError::NoDiagram),
        (turned, CdError::NotSmallest),
    ] {
        let refused = refusal(&text);
        assert_eq!(refused, RecordError::Refused(reason));
        assert_eq!(refused.to_string(), "the digits are those of no record");
        let source = refused.source().and_then(|e| e.downcast_ref());
        assert_eq!(source, Some(&reason));
    }

    let short = refusal("0");
    assert_eq!(short.to_string(), "1 bytes in place of 740 digits");
    assert!(short.source().is_none());
}
