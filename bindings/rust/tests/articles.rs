//! What an article tells of a figure, from whichever of its texts.

use lexicon::{Cd, CdError, CdResult, GroupName, StoredEdge};

/// The minimal mark, the number of edges between different nodes, and the names, sorted, or `None` if
/// no name fits a component.
type Article = (bool, usize, Option<String>);

fn article(text: &str) -> Article {
    let cd = Cd::parse(text).unwrap();
    let between_different_nodes = |stored: &&StoredEdge| !stored.is_loop();
    let edges = cd.edges().iter().filter(between_different_nodes).count();
    let names = match cd.groups() {
        Ok(groups) => Some(groups.names()),
        Err(CdError::NoName { .. }) => None,
        Err(refusal) => panic!("{text}: {refusal}"),
    };
    let written = |names: Vec<GroupName>| {
        let names: Vec<_> = names.iter().map(GroupName::to_string).collect();
        names.join(" ")
    };
    (cd.minimal(), edges, names.map(written))
}

/// Texts of a figure, and what they tell.
const FIGURES: [(&str, bool, usize, Option<&str>); 9] = [
    (
        "x3o4o, o4o3x, o3x *a4o, x3o4o5*c, x3*a3o4o, x6/2o8/2o3*c, xoo *b4*c *a3*b",
        true,
        2,
        Some("B3"),
    ),
    (
        "x3o3o x7o, x7o x3o3o, xx7o *a3o3o, x7*a7o x3o3o4/3*e",
        true,
        3,
        Some("A3 I2(7)"),
    ),
    (
        "x3o x5o x, x x5o x3o, xxx5o *b3o, xxx5o *b3o7/2*e",
        true,
        2,
        Some("A1 A2 I2(5)"),
    ),
    ("x5/2o x3o, x3o x5/2o, xx3o *a5/2o", true, 2, None),
    ("s3s4s, s4s3s, s4s3s9*c", false, 2, Some("B3")),
    ("o3o s, s o3o, o3o3*b s5*c", false, 1, Some("A1 A2")),
    ("x3x3x3*a, x3x3x *a3*c, x3x3x3*a3*a", true, 3, None),
    ("oooo, ooo2o, oo*a9*a oo", false, 0, Some("A1 A1 A1 A1")),
    ("*a, *-c2*b, *z *a", true, 0, Some("")),
];

#[test]
fn texts_of_a_figure_tell_the_same() {
    for (texts, minimal, edges, names) in FIGURES {
        let mut records = Vec::new();
        for text in texts.split(", ") {
            let told = (minimal, edges, names.map(str::to_owned));
            assert_eq!(article(text), told, "{text}");
            records.push(Cd::parse(text).unwrap().record());
        }
        records.dedup();
        assert_eq!(records.len(), 1, "{texts}");
    }
}

#[test]
fn nodes_of_refusals_may_differ() -> CdResult<()> {
    let nameless = |text| Ok::<_, CdError>(Cd::parse(text)?.groups().unwrap_err());
    assert_eq!(nameless("x5/2o x3o")?, CdError::NoName { node: 0 });
    assert_eq!(nameless("x3o x5/2o")?, CdError::NoName { node: 2 });
    Ok(())
}
