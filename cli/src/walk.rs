//! The order in which a person would type the nodes of a diagram: long chains first, then what
//! branches off them.

use lexicon::Diagram;

/// The nodes, each with an earlier node that it is joined to, or with none where a new part of the
/// diagram begins. Each is joined to the one before it as long as a chain goes on.
pub fn steps(diagram: &Diagram) -> Vec<(Option<usize>, usize)> {
    let mut steps: Vec<(Option<usize>, usize)> = Vec::new();
    let mut left: Vec<usize> = (0..diagram.nodes.len()).rev().collect(); // records end in rings
    while !left.is_empty() {
        let mut walked = steps.iter().map(|&(_, node)| node);
        let branch = walked.find(|&node| !neighbours(diagram, node, &left).is_empty());
        let chain = match branch {
            Some(node) => chain(diagram, node, &reached(diagram, node, &left)),
            None => long_chain(diagram, &left),
        };
        let mut from = branch;
        for node in chain {
            left.retain(|&other| other != node);
            steps.push((from, node));
            from = Some(node);
        }
    }
    steps
}

/// A longest chain of a part of the diagram that nothing joins to the rest.
fn long_chain(diagram: &Diagram, left: &[usize]) -> Vec<usize> {
    let part = reached(diagram, left[0], left);
    let mut longest = Vec::new();
    for &start in &part {
        let chain = [vec![start], chain(diagram, start, &without(&part, start))].concat();
        if chain.len() > longest.len() {
            longest = chain;
        }
        if longest.len() == part.len() {
            break;
        }
    }
    longest
}

/// A longest chain that goes on from a node over nodes that are left.
fn chain(diagram: &Diagram, from: usize, left: &[usize]) -> Vec<usize> {
    let mut longest = Vec::new();
    for next in neighbours(diagram, from, left) {
        let chain = [vec![next], chain(diagram, next, &without(left, next))].concat();
        if chain.len() > longest.len() {
            longest = chain;
        }
        if longest.len() == left.len() {
            break; // else all chains of a diagram with many edges would be tried
        }
    }
    longest
}

/// The nodes that can be reached from one over those that are left, in their order.
fn reached(diagram: &Diagram, from: usize, left: &[usize]) -> Vec<usize> {
    let mut found = vec![from];
    let mut at = 0;
    while let Some(&node) = found.get(at) {
        let next = neighbours(diagram, node, left);
        found.extend(
            next.iter()
                .filter(|node| !found.contains(node))
                .collect::<Vec<_>>(),
        );
        at += 1;
    }
    left.iter()
        .copied()
        .filter(|node| found.contains(node))
        .collect()
}

fn neighbours(diagram: &Diagram, node: usize, left: &[usize]) -> Vec<usize> {
    let joined = |other| {
        let pair = (node.min(other), node.max(other));
        diagram.edges.iter().any(|edge| (edge.a, edge.b) == pair)
    };
    left.iter()
        .copied()
        .filter(|&other| joined(other))
        .collect()
}

fn without(left: &[usize], node: usize) -> Vec<usize> {
    left.iter()
        .copied()
        .filter(|&other| other != node)
        .collect()
}
