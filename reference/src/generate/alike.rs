//! Whether "renumbering nodes turns one into the other", by matching node with
//! node. It knows no order of siblings.

use crate::records::{Case, OutlineNode, SelectionNode};

/// The set keeps its order, so member is matched with member.
pub fn alike(one: &Case, other: &Case) -> bool {
    let selections = |case: &Case| {
        let all = [&case.first].into_iter().chain(&case.set);
        all.map(|nodes| selection_tree(nodes)).collect::<Vec<_>>()
    };
    let (ours, theirs) = (selections(one), selections(other));
    match_trees(&outline_tree(&one.outline), &outline_tree(&other.outline))
        && ours.len() == theirs.len()
        && ours.iter().zip(&theirs).all(|(a, b)| match_trees(a, b))
}

/// A tree's nodes: of each its parent and what else it has.
type Tree<N> = Vec<(usize, N)>;

fn outline_tree(nodes: &[OutlineNode]) -> Tree<(u16, bool)> {
    let node = |node: &OutlineNode| (node.parent, (node.label, node.strong));
    nodes.iter().map(node).collect()
}

fn selection_tree(nodes: &[SelectionNode]) -> Tree<(u16, bool, usize, u16)> {
    let own = |node: &SelectionNode| (node.label, node.descendant, node.position, node.figure);
    nodes.iter().map(|node| (node.parent, own(node))).collect()
}

fn match_trees<N: PartialEq>(one: &Tree<N>, other: &Tree<N>) -> bool {
    one.len() == other.len() && match_below(one, 0, other, 0)
}

/// Whether the two subtrees are one but for their numbers. Each child takes the
/// first that it matches: what matches one of several alike matches all of them.
fn match_below<N: PartialEq>(one: &Tree<N>, a: usize, other: &Tree<N>, b: usize) -> bool {
    let mut free = children(other, b);
    one[a].1 == other[b].1
        && children(one, a).into_iter().all(|child| {
            let found = free
                .iter()
                .position(|&twin| match_below(one, child, other, twin));
            found.map(|place| free.remove(place)).is_some()
        })
        && free.is_empty()
}

fn children<N>(tree: &Tree<N>, of: usize) -> Vec<usize> {
    (1..tree.len()).filter(|&t| tree[t].0 == of).collect()
}
