//! "Striking out what an order need not say": request #105's tool, apart from its questions.

use crate::judging::{judge, INCLUDED};
use crate::records::{Case, SelectionNode};

/// What became of a first selection.
pub struct Shortened {
    /// What is left of it, "records in their old order", parents renumbered.
    pub left: Vec<SelectionNode>,
    /// "the struck original numbers in striking order"
    pub struck: Vec<usize>,
    /// The sum over all verdicts made, those that kept their leaf among them.
    pub tried: u64,
}

/// "It strikes a leaf if the selection without it is judged included in the present one within the
/// limit, then starts over", until no leaf goes. The case's set is not used.
pub fn shorten(case: &Case, limit: u64) -> Shortened {
    let mut left = case.first.clone();
    // Of each node left, the number that it has in the case.
    let mut numbers: Vec<usize> = (0..left.len()).collect();
    let (mut struck, mut tried) = (Vec::new(), 0);
    while let Some(leaf) = first_to_go(case, &left, limit, &mut tried) {
        left = without(&left, leaf);
        struck.push(numbers.remove(leaf));
    }
    Shortened {
        left,
        struck,
        tried,
    }
}

/// The lowest leaf that is struck, if one is. A leaf whose verdict is stopped or not included stays, and
/// its trials count as well.
fn first_to_go(
    case: &Case,
    present: &[SelectionNode],
    limit: u64,
    tried: &mut u64,
) -> Option<usize> {
    candidates(present).into_iter().find(|&leaf| {
        let inner = Case {
            outline: case.outline.clone(),
            first: without(present, leaf),
            set: vec![present.to_vec()],
            positions: case.positions,
        };
        let (kind, more, _) = judge(&inner, limit);
        *tried += more;
        kind == INCLUDED
    })
}

/// "its leaves without a position, root excepted, lowest number first"
pub fn candidates(selection: &[SelectionNode]) -> Vec<usize> {
    let leaf = |q: usize| selection.iter().all(|node| node.parent != q);
    (1..selection.len())
        .filter(|&q| selection[q].position == 0 && leaf(q))
        .collect()
}

/// The selection without one of its leaves: the nodes after it move up by one number.
pub fn without(selection: &[SelectionNode], leaf: usize) -> Vec<SelectionNode> {
    let mut left = selection.to_vec();
    left.remove(leaf);
    for node in left.iter_mut().filter(|node| node.parent > leaf) {
        node.parent -= 1;
    }
    left
}
