//! "One way of writing a case": request #106's writer, apart from its questions.

use crate::records::{Case, OutlineNode, SelectionNode};

/// A node of an outline in preorder: depth, label, strong.
type OutlineEntry = (usize, u16, bool);
/// A node of a selection in preorder: "(depth, label, edge, position)", and the figure
/// last.
type SelectionEntry = (usize, u16, bool, usize, u16);

/// "puts every tree in preorder [...]. The set keeps its order."
pub fn normal(case: &Case) -> Case {
    Case {
        outline: outline(&case.outline),
        first: selection(&case.first),
        set: case.set.iter().map(|member| selection(member)).collect(),
        positions: case.positions,
    }
}

fn outline(nodes: &[OutlineNode]) -> Vec<OutlineNode> {
    let list = outline_list(nodes, 0, 0);
    let parents = parents(&list, |entry| entry.0);
    let node = |(&(_, label, strong), parent)| OutlineNode {
        parent,
        label,
        strong,
    };
    list.iter().zip(parents).map(node).collect()
}

fn selection(nodes: &[SelectionNode]) -> Vec<SelectionNode> {
    let list = selection_list(nodes, 0, 0);
    let parents = parents(&list, |entry| entry.0);
    let node = |(&(_, label, descendant, position, figure), parent)| SelectionNode {
        parent,
        label,
        descendant,
        position,
        figure,
    };
    list.iter().zip(parents).map(node).collect()
}

/// The nodes from one on downwards: "Outline siblings go by label."
fn outline_list(nodes: &[OutlineNode], t: usize, depth: usize) -> Vec<OutlineEntry> {
    let mut children: Vec<usize> = (1..nodes.len()).filter(|&c| nodes[c].parent == t).collect();
    children.sort_by_key(|&child| nodes[child].label);
    let mut list = vec![(depth, nodes[t].label, nodes[t].strong)];
    for child in children {
        list.extend(outline_list(nodes, child, depth + 1));
    }
    list
}

/// The nodes from one on downwards: "Selection siblings go by their subtrees, each, ordered within
/// first, written as a list of (depth, label, edge, position), compared at the first difference with
/// a prefix first", and #107 "compares the figure last". That is how lists of tuples are compared;
/// child comes before descendant, as 0 before 1.
fn selection_list(nodes: &[SelectionNode], q: usize, depth: usize) -> Vec<SelectionEntry> {
    let mut subtrees: Vec<Vec<SelectionEntry>> = (1..nodes.len())
        .filter(|&child| nodes[child].parent == q)
        .map(|child| selection_list(nodes, child, depth + 1))
        .collect();
    subtrees.sort();
    let own = &nodes[q];
    let mut list = vec![(depth, own.label, own.descendant, own.position, own.figure)];
    list.extend(subtrees.concat());
    list
}

/// Each node's parent in a preorder: the last one before it that is one step higher. The root's is 0.
fn parents<T>(list: &[T], depth: impl Fn(&T) -> usize) -> Vec<usize> {
    let above = |(number, entry)| {
        let higher = |&before: &usize| depth(&list[before]) + 1 == depth(entry);
        (0..number).rev().find(higher).unwrap_or(0)
    };
    list.iter().enumerate().map(above).collect()
}
