//! Random layouts near the limits, all accepted: trials of hundreds of nodes,
//! every fourth as large as a trial can be.

use super::figures;
use super::plan::{least_length, OutlineRow, Plan, SelectionRow, Set};
use super::prng::{Prng, Seed};
use super::trees;
use crate::records::{OUTLINE_NODES, SELECTION_NODES, SET_SELECTIONS};
use crate::vectors::{Vector, LAYOUT};

pub fn layouts(seed: impl Into<Seed>, count: usize) -> Vec<Vector> {
    let mut prng = Prng::new(seed);
    (0..count).map(|index| one(&mut prng, index)).collect()
}

/// The selection laid out is the first or a member; the others ask less.
fn one(prng: &mut Prng, index: usize) -> Vector {
    let Placed {
        outline,
        mut rows,
        places,
    } = match index % 4 {
        0 => largest(prng),
        _ => large(prng),
    };
    let k = prng.between(1, rows.len().min(8));
    trees::hold_positions(prng, &mut rows, k);
    figures::ask(prng, &mut rows);
    let count = [1, 1, 2, SET_SELECTIONS][prng.below(4)];
    let mut first = trees::weaken(prng, &rows);
    let mut set: Set = (0..count).map(|_| trees::weaken(prng, &rows)).collect();
    let selection = [1, prng.between(2, 1 + count)][prng.below(2)];
    match selection {
        1 => first = rows,
        _ => set[selection - 2] = rows,
    }
    Plan {
        call: LAYOUT,
        selection: selection as u64,
        length: least_length(LAYOUT) + [0, 0, 1, 904][prng.below(4)],
        outline,
        first,
        set,
        placement: places.iter().map(|&t| t as u16).collect(),
        ..Plan::default()
    }
    .vector()
}

/// An outline, a selection without positions, and a placement of it.
struct Placed {
    outline: Vec<OutlineRow>,
    rows: Vec<SelectionRow>,
    places: Vec<usize>,
}

impl Placed {
    fn root(outline: Vec<OutlineRow>) -> Self {
        Placed {
            outline,
            rows: vec![[0, 0, 0, 0, 0]],
            places: vec![0],
        }
    }

    /// A further selection node, placed somewhere below its parent's place.
    fn hang(&mut self, prng: &mut Prng, parent: usize, place: usize) {
        let [above, label, _] = self.outline[place];
        let label = [0, label][prng.below(2)];
        let child = usize::from(above) == self.places[parent];
        let descendant = !child || prng.percent(50);
        self.rows
            .push([parent as u16, label, descendant.into(), 0, 0]);
        self.places.push(place);
    }
}

/// 1 + 15 x 63 = 946 nodes. The outline's root has one child, and all 15
/// further selection nodes hang from the root, so that each gets nodes of its
/// own on all 63 paths: down to its place by its chain, elsewhere by strong
/// edges. An edge that is above every place may be plain.
fn largest(prng: &mut Prng) -> Placed {
    let mut outline: Vec<OutlineRow> = vec![[0, 1, 0]];
    for [parent, label, _] in trees::outline(prng, OUTLINE_NODES - 1) {
        let parent = if outline.len() == 1 { 0 } else { parent + 1 };
        outline.push([parent, label, 1]);
    }
    let mut placed = Placed::root(outline);
    let above = prng.below(OUTLINE_NODES - 1);
    let mut room = trees::descendants(&placed.outline, above);
    room.push(above.max(1));
    while placed.rows.len() < SELECTION_NODES {
        let place = room[prng.below(room.len())];
        placed.hang(prng, 0, place);
    }
    for t in 1..OUTLINE_NODES {
        let below = trees::descendants(&placed.outline, t);
        let above_all = placed.places[1..]
            .iter()
            .all(|&place| place == t || below.contains(&place));
        placed.outline[t][2] = u16::from(!above_all || prng.percent(50));
    }
    placed
}

/// Most selection nodes hang from the root, and many edges are strong.
fn large(prng: &mut Prng) -> Placed {
    let size = prng.between(OUTLINE_NODES / 2, OUTLINE_NODES);
    let mut outline = trees::outline(prng, size);
    let strong = [0, 50, 80, 95, 100][prng.below(5)];
    for row in outline.iter_mut().skip(1) {
        row[2] = u16::from(prng.percent(strong));
    }
    let mut placed = Placed::root(outline);
    let size = prng.between(SELECTION_NODES / 2, SELECTION_NODES);
    while placed.rows.len() < size {
        let parent = if prng.percent(80) {
            0
        } else {
            prng.below(placed.rows.len())
        };
        let room = trees::descendants(&placed.outline, placed.places[parent]);
        if let Some(&place) = prng.one_of(&room) {
            placed.hang(prng, parent, place);
        }
    }
    placed
}

#[cfg(test)]
mod tests {
    use super::*;
    use crate::calls::{layout, NodeRecord};

    fn node_count(vector: &Vector) -> u64 {
        let mut table = vec![NodeRecord::default(); vector.length as usize];
        let got = layout(&vector.case, vector.selection, &vector.list, &mut table);
        assert_eq!(got.refused, 0);
        got.count
    }

    #[test]
    fn every_fourth_is_the_largest() {
        let counts: Vec<u64> = layouts(7, 400).iter().map(node_count).collect();
        assert!(counts.iter().step_by(4).all(|&count| count == 946));
        assert!(counts.iter().all(|&count| count <= 946));
        assert!(counts.iter().filter(|&&count| count > 200).count() >= 200);
    }
}
