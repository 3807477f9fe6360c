//! Random sets: of one member, of several, and of members that have the first
//! selection's results by turns.

use super::plan::{OutlineRow, SelectionRow, Set};
use super::prng::Prng;
use super::trees;
use crate::embedding::{has, Shape};
use crate::records::{selection_nodes, SET_SELECTIONS};

/// A set whose members are drawn by `member`, or from the first selection.
pub fn set(
    prng: &mut Prng,
    first: &[SelectionRow],
    outline: &[OutlineRow],
    member: impl Fn(&mut Prng) -> Vec<SelectionRow>,
) -> Set {
    let drawn = match prng.below(10) {
        0..=4 => None,
        5..=7 => by_turns(prng, first, outline),
        _ => {
            let count = prng.between(2, SET_SELECTIONS);
            // Were a member wide, the others would seldom matter.
            let narrow = |_| {
                let rows = member(prng);
                trees::strengthen(prng, &rows, outline)
            };
            Some((0..count).map(narrow).collect())
        }
    };
    let mut set = drawn.unwrap_or_else(|| vec![member(prng)]);
    rearrange(prng, &mut set);
    set
}

/// What changes no verdict: another order, and now and then a member twice.
pub fn rearrange(prng: &mut Prng, set: &mut Set) {
    if set.len() < SET_SELECTIONS && prng.percent(15) {
        set.push(set[prng.below(set.len())].clone());
    }
    if prng.percent(50) {
        prng.shuffle(set);
    }
}

/// One member for each label that a node of any label takes, as far as eight
/// go, now and then without one of them; `None` where no node takes several.
fn by_turns(prng: &mut Prng, first: &[SelectionRow], outline: &[OutlineRow]) -> Option<Set> {
    let free: Vec<(usize, Vec<u16>)> = (0..first.len())
        .filter(|&q| first[q][1] == 0)
        .map(|q| (q, labels_taken(first, outline, q)))
        .filter(|(_, labels)| labels.len() > 1)
        .collect();
    let (q, labels) = prng.one_of(&free)?;
    let mut set: Set = labels
        .iter()
        .take(SET_SELECTIONS)
        .map(|&label| {
            let mut rows = first.to_vec();
            rows[*q][1] = label;
            rows
        })
        .collect();
    if prng.percent(25) {
        set.remove(prng.below(set.len()));
    }
    Some(set)
}

/// The labels that a selection node takes in some placement, in outline order.
fn labels_taken(rows: &[SelectionRow], outline: &[OutlineRow], q: usize) -> Vec<u16> {
    let nodes = selection_nodes(rows);
    let images = Shape::new(&nodes).images(&trees::volume_nodes(&trees::as_volume(outline)));
    let mut labels = Vec::new();
    for (t, &taken) in images.iter().enumerate() {
        let label = outline[t][1];
        if has(taken, q) && !labels.contains(&label) {
            labels.push(label);
        }
    }
    labels
}
