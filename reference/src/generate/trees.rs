//! Random outlines, selections and volumes as rows.

use super::figures;
use super::plan::{OutlineRow, SelectionRow, VolumeRow};
use super::prng::Prng;
use crate::embedding::{has, Shape};
use crate::records::{selection_nodes, volume_node, VolumeNode, SELECTION_NODES, VOLUME_NODES};

/// An outline of some size, from a chain to a bush. Few labels make equal
/// ones on a path common.
pub fn outline(prng: &mut Prng, size: usize) -> Vec<OutlineRow> {
    let labels = [1, 2, 3, 5, 20, 100][prng.below(6)];
    let high = prng.percent(10);
    let reach = [1, 2, 4, 10, 64][prng.below(5)];
    let strong = [0, 10, 30, 60, 100][prng.below(5)];
    let label = |number: usize| {
        if high {
            u16::MAX - number as u16
        } else {
            1 + number as u16
        }
    };
    let mut rows: Vec<OutlineRow> = vec![[0, label(prng.below(labels)), 0]];
    while rows.len() < size {
        // The nearer the parents, the deeper the tree.
        let parent = (rows.len() - 1 - prng.below(reach.min(rows.len()))) as u16;
        let mut wanted = label(prng.below(labels));
        if has_child(&rows, parent, wanted) {
            // A label of no other node, so that siblings stay different.
            wanted = 200 + rows.len() as u16;
        }
        rows.push([parent, wanted, u16::from(prng.percent(strong))]);
    }
    rows
}

fn has_child(rows: &[OutlineRow], parent: u16, label: u16) -> bool {
    rows.iter()
        .skip(1)
        .any(|row| row[0] == parent && row[1] == label)
}

pub fn children(outline: &[OutlineRow], of: usize) -> Vec<usize> {
    (1..outline.len())
        .filter(|&t| usize::from(outline[t][0]) == of)
        .collect()
}

pub fn descendants(outline: &[OutlineRow], of: usize) -> Vec<usize> {
    let mut found = vec![false; outline.len()];
    for t in of + 1..outline.len() {
        let parent = usize::from(outline[t][0]);
        found[t] = parent == of || found[parent];
    }
    (0..outline.len()).filter(|&t| found[t]).collect()
}

/// How freely a selection is drawn, each in percent.
#[derive(Clone, Copy)]
pub struct Freedom {
    pub any_label: usize,
    pub descendant: usize,
    /// Labels put where they need not fit.
    pub stray: usize,
}

impl Freedom {
    pub fn random(prng: &mut Prng) -> Self {
        Freedom {
            any_label: [0, 20, 50, 90][prng.below(4)],
            descendant: [0, 20, 50, 90][prng.below(4)],
            stray: [0, 0, 0, 10][prng.below(4)],
        }
    }
}

/// A selection of `size` nodes without positions, drawn along a placement so
/// that most have one. Nodes that find no room below are drawn at random.
pub fn selection(
    prng: &mut Prng,
    outline: &[OutlineRow],
    size: usize,
    freedom: Freedom,
) -> Vec<SelectionRow> {
    let mut places = vec![0];
    let mut rows: Vec<SelectionRow> = vec![[0, drawn_label(prng, outline, 0, freedom), 0, 0, 0]];
    while rows.len() < size {
        let descendant = prng.percent(freedom.descendant);
        let parents: Vec<usize> = (0..rows.len())
            .filter(|&q| !children(outline, places[q]).is_empty())
            .collect();
        let parent = prng.one_of(&parents).copied().unwrap_or(rows.len() - 1);
        let room = if descendant {
            descendants(outline, places[parent])
        } else {
            children(outline, places[parent])
        };
        let place = prng.one_of(&room).copied().unwrap_or(0);
        let label = drawn_label(prng, outline, place, freedom);
        rows.push([parent as u16, label, descendant.into(), 0, 0]);
        places.push(place);
    }
    figures::ask(prng, &mut rows);
    rows
}

fn drawn_label(prng: &mut Prng, outline: &[OutlineRow], place: usize, freedom: Freedom) -> u16 {
    if prng.percent(freedom.any_label) {
        0
    } else if prng.percent(freedom.stray) {
        [outline[prng.below(outline.len())][1], prng.draw() as u16][prng.below(2)]
    } else {
        outline[place][1]
    }
}

/// Gives the positions 1 to k to nodes drawn at random.
pub fn hold_positions(prng: &mut Prng, rows: &mut [SelectionRow], k: usize) {
    let mut nodes: Vec<usize> = (0..rows.len()).collect();
    prng.shuffle(&mut nodes);
    for (position, &q) in (1..=k as u16).zip(&nodes) {
        rows[q][3] = position;
    }
}

/// A selection that asks less than another: fewer labels, wider edges, fewer
/// leaves, lower figures. So it holds the other's results.
pub fn weaken(prng: &mut Prng, rows: &[SelectionRow]) -> Vec<SelectionRow> {
    let mut rows = rows.to_vec();
    for _ in 0..prng.between(1, 6) {
        let q = prng.below(rows.len());
        match prng.below(4) {
            0 => rows[q][1] = 0,
            1 if q > 0 => rows[q][2] = 1,
            2 => drop_leaf(&mut rows, q),
            _ => splice(&mut rows, q),
        }
    }
    figures::ask_less(prng, &mut rows);
    rows
}

/// A selection that asks more in a place or two, so that often only some
/// trials pass.
pub fn strengthen(
    prng: &mut Prng,
    rows: &[SelectionRow],
    outline: &[OutlineRow],
) -> Vec<SelectionRow> {
    let mut rows = rows.to_vec();
    for _ in 0..prng.between(1, 2) {
        let q = prng.below(rows.len());
        let place = prng.below(outline.len());
        match prng.below(3) {
            0 => rows[q][1] = outline[place][1],
            1 => rows[q][2] = 0,
            _ if rows.len() < SELECTION_NODES => {
                let label = [0, outline[place][1]][prng.below(2)];
                rows.push([q as u16, label, u16::from(prng.percent(50)), 0, 0]);
            }
            _ => rows[q][1] = 0,
        }
    }
    figures::ask_more(prng, &mut rows);
    rows
}

/// Takes a leaf away, if it is one and holds no position.
fn drop_leaf(rows: &mut Vec<SelectionRow>, q: usize) {
    let leaf = rows.iter().skip(1).all(|row| usize::from(row[0]) != q);
    if q > 0 && leaf && rows[q][3] == 0 {
        remove(rows, q);
    }
}

/// Takes a node out of the middle, its children becoming its parent's
/// descendants.
fn splice(rows: &mut Vec<SelectionRow>, q: usize) {
    if q == 0 || rows[q][3] != 0 {
        return;
    }
    let parent = rows[q][0];
    for row in rows
        .iter_mut()
        .skip(1)
        .filter(|row| usize::from(row[0]) == q)
    {
        row[0] = parent;
        row[2] = 1;
    }
    remove(rows, q);
}

/// Removes a row that is nobody's parent.
pub fn remove(rows: &mut Vec<SelectionRow>, q: usize) {
    rows.remove(q);
    for row in rows.iter_mut().filter(|row| usize::from(row[0]) > q) {
        row[0] -= 1;
    }
}

/// The same tree with its table in another order, parents first.
pub fn reorder<const N: usize>(prng: &mut Prng, rows: &[[u16; N]]) -> Vec<[u16; N]> {
    let mut new_number = vec![None; rows.len()];
    new_number[0] = Some(0);
    let mut out = vec![rows[0]];
    while out.len() < rows.len() {
        let ready: Vec<usize> = (1..rows.len())
            .filter(|&q| new_number[q].is_none() && new_number[usize::from(rows[q][0])].is_some())
            .collect();
        let Some(&q) = prng.one_of(&ready) else { break };
        let mut row = rows[q];
        row[0] = new_number[usize::from(row[0])].unwrap_or(0);
        new_number[q] = Some(out.len() as u16);
        out.push(row);
    }
    out
}

/// A volume drawn along the outline: `size` nodes, then what strong edges
/// still ask for, as far as 1,024 nodes go.
pub fn volume(prng: &mut Prng, outline: &[OutlineRow], size: usize) -> Vec<VolumeRow> {
    grow_volume(prng, outline, vec![(0, 0)], size)
}

/// Grows a volume from nodes given with parent and outline node.
pub fn grow_volume(
    prng: &mut Prng,
    outline: &[OutlineRow],
    mut nodes: Vec<(usize, usize)>,
    size: usize,
) -> Vec<VolumeRow> {
    let below: Vec<Vec<usize>> = (0..outline.len()).map(|t| children(outline, t)).collect();
    let recent = [2, 10, VOLUME_NODES][prng.below(3)];
    let mut failures = 0;
    while nodes.len() < size && failures < 50 {
        let parent = nodes.len() - 1 - prng.below(recent.min(nodes.len()));
        match prng.one_of(&below[nodes[parent].1]) {
            Some(&t) => nodes.push((parent, t)),
            None => failures += 1,
        }
    }
    let mut present = vec![vec![]; VOLUME_NODES];
    for &(parent, t) in nodes.iter().skip(1) {
        present[parent].push(t);
    }
    let mut visited = 0;
    while visited < nodes.len() {
        for &t in &below[nodes[visited].1] {
            let missing = outline[t][2] == 1 && !present[visited].contains(&t);
            if missing && nodes.len() < VOLUME_NODES {
                nodes.push((visited, t));
            }
        }
        visited += 1;
    }
    let row = |&(parent, t): &(usize, usize)| [parent as u16, outline[t][1], 0];
    let mut rows: Vec<VolumeRow> = nodes.iter().map(row).collect();
    figures::give(prng, &mut rows);
    rows
}

/// A few strokes that often make a volume not fit.
pub fn spoil_volume(prng: &mut Prng, outline: &[OutlineRow], rows: &mut Vec<VolumeRow>) {
    for _ in 0..prng.between(1, 3) {
        let v = prng.below(rows.len());
        match prng.below(4) {
            0 => rows[v][1] = outline[prng.below(outline.len())][1],
            1 => rows[v][1] = 1 + prng.below(usize::from(u16::MAX)) as u16,
            2 if v > 0 => rows[v][0] = prng.below(v) as u16,
            // The last node is a leaf, and often one that a strong edge asks for.
            _ if rows.len() > 1 => drop(rows.pop()),
            _ => {}
        }
    }
}

/// A volume with no regard to the outline but for its labels.
pub fn wild_volume(prng: &mut Prng, outline: &[OutlineRow], size: usize) -> Vec<VolumeRow> {
    let reach = [1, 3, VOLUME_NODES][prng.below(3)];
    let mut rows: Vec<VolumeRow> = (0..size.max(1))
        .map(|v| {
            let parent = if v == 0 {
                0
            } else {
                v - 1 - prng.below(reach.min(v))
            };
            let label = outline[prng.below(outline.len())][1];
            [parent as u16, if v == 0 { outline[0][1] } else { label }, 0]
        })
        .collect();
    figures::give(prng, &mut rows);
    rows
}

/// "the outline read as a volume", which grants any figure.
pub fn as_volume(outline: &[OutlineRow]) -> Vec<VolumeRow> {
    outline
        .iter()
        .map(|&[parent, label, _]| [parent, label, u16::MAX])
        .collect()
}

pub fn volume_nodes(rows: &[VolumeRow]) -> Vec<VolumeNode> {
    rows.iter().map(volume_node).collect()
}

/// An embedding drawn at random, `None` where there is none.
pub fn embedding(
    prng: &mut Prng,
    selection: &[SelectionRow],
    volume: &[VolumeRow],
) -> Option<Vec<usize>> {
    let nodes = selection_nodes(selection);
    let tree = volume_nodes(volume);
    let at = Shape::new(&nodes).parts(&tree, |_, _| true);
    let mut images = vec![0; nodes.len()];
    if !has(at[0], 0) {
        return None;
    }
    for q in 1..nodes.len() {
        let from = images[nodes[q].parent];
        let mut below = vec![false; tree.len()];
        for v in from + 1..tree.len() {
            let parent = tree[v].parent;
            below[v] = parent == from || nodes[q].descendant && below[parent];
        }
        let room: Vec<usize> = (0..tree.len())
            .filter(|&v| below[v] && has(at[v], q))
            .collect();
        images[q] = *prng.one_of(&room)?;
    }
    Some(images)
}
