//! The names and orders of groups.

use lexicon::{Cd, CdError};

use crate::{lines, random::Random};

/// What should be listed. The order of the whole is multiplied here, as far as it fits.
pub fn listed(cd: &Cd) -> Vec<String> {
    let name = |node: usize| char::from(b"abcdefghi"[node]);
    let groups = match cd.groups() {
        Ok(groups) if groups.is_empty() => return vec!["groups: none".into()],
        Ok(groups) => groups,
        Err(CdError::NoName { node }) => {
            let words = "groups: none, refusal 21: no name of a finite group fits the component";
            return vec![format!("{words} of node {}", name(node))];
        }
        Err(other) => panic!("{other}"),
    };
    let mut lines = vec!["groups:".to_owned()];
    for group in &groups {
        let (node, order) = (name(group.node()), group.order());
        lines.push(format!("  {node}: {}, order {order}", group.name()));
    }
    let mut orders = groups.iter().map(|group| u128::from(group.order()));
    let product = orders.try_fold(1, u128::checked_mul);
    if groups.len() > 1 {
        let product = product.map_or("at least 2^128".to_owned(), |order| order.to_string());
        lines.push(format!("  their product: order {product}"));
    }
    lines
}

/// The lines from `groups` on.
fn shown(text: &str) -> Vec<String> {
    let lines = lines(&["--infinite", text]);
    let at = lines.iter().position(|line| line.starts_with("groups:"));
    lines[at.unwrap()..].to_vec()
}

#[test]
fn groups_look_as_they_should() {
    let none = "groups: none, refusal 21: no name of a finite group fits the component of node";
    for (text, expected) in [
        ("*a", "groups: none"),
        ("x", "groups:\n  a: A1, order 2"),
        ("x3o4o", "groups:\n  a: B3, order 48"),
        ("s3(inf)4(-0) *a5/2*a", "groups:\n  a: B3, order 48"),
        ("x10/2o", "groups:\n  a: I2(5), order 10"),
        (
            "x3o3o x7o",
            "groups:\n  a: A3, order 24\n  d: I2(7), order 14\n  their product: order 336",
        ),
        (
            "oooo *a3*d *c4*b",
            "groups:\n  a: A2, order 6\n  b: B2, order 8\n  their product: order 48",
        ),
        ("x5/2o", &format!("{none} a")),
        ("x3o x4o4o x5/2o", &format!("{none} c")),
        ("o3o3o3o3o3o3o3o *c3o", &format!("{none} a")),
    ] {
        assert_eq!(shown(text).join("\n"), expected, "{text}");
    }
}

/// The last product that is told and the first that is not, which is 2^128.
#[test]
fn products_are_told_as_far_as_they_fit() {
    let last = |p: u32| {
        let text = format!("x2147483648x x2147483648x x2147483648x x{p}x");
        shown(&text).pop().unwrap()
    };
    let told = "  their product: order 340282366762482138434845932244680310784";
    assert_eq!(last(2_147_483_647), told);
    assert_eq!(last(2_147_483_648), "  their product: order at least 2^128");
    assert_eq!(last(u32::MAX), "  their product: order at least 2^128");
}

/// Enough of the random texts that are compared in all have names, one or several.
#[test]
fn random_texts_have_names() {
    let mut random = Random(0x9e37_79b9);
    let texts = (0..2000).filter_map(|_| Cd::parse_with_infinite(random.typed()).ok());
    let groups: Vec<_> = texts.filter_map(|cd| cd.groups().ok()).collect();
    let several = groups.iter().filter(|groups| groups.len() > 1).count();
    assert!(
        several > 50 && groups.len() > several + 50,
        "{several} of {}",
        groups.len()
    );
}
