//! Figures for what is drawn: few different ones, so that comparisons tie and
//! decide, and at the bounds. They come from a stream of their own, so that one
//! seed gives the same trees with figures and without.

use super::plan::{Plan, SelectionRow, VolumeRow};
use super::prng::Prng;
use crate::records::FIGURE_MOST;

/// The place of the figure in a record.
pub const OF_SELECTION: usize = 4;
pub const OF_VOLUME: usize = 2;

/// Of 5 and 256 the low bytes go the other way.
const SOME: [u16; 7] = [0, 1, 2, 5, 256, FIGURE_MOST - 1, FIGURE_MOST];

fn some(prng: &mut Prng) -> u16 {
    SOME[prng.below(SOME.len())]
}

/// A least figure for some nodes of a selection, for all of them or for none.
pub fn ask(prng: &mut Prng, rows: &mut [SelectionRow]) {
    let Some(prng) = prng.figures() else { return };
    let share = [0, 0, 25, 60, 100][prng.below(5)];
    for row in rows {
        if prng.percent(share) {
            row[OF_SELECTION] = some(prng);
        }
    }
}

/// Asks less, or the same, of some nodes.
pub fn ask_less(prng: &mut Prng, rows: &mut [SelectionRow]) {
    let Some(prng) = prng.figures() else { return };
    for row in rows {
        if prng.percent(25) {
            row[OF_SELECTION] = some(prng).min(row[OF_SELECTION]);
        }
    }
}

/// Often asks more, or the same, of a node: just one more, or any figure.
pub fn ask_more(prng: &mut Prng, rows: &mut [SelectionRow]) {
    let Some(prng) = prng.figures() else { return };
    if prng.percent(60) {
        let figure = &mut rows[prng.below(rows.len())][OF_SELECTION];
        let more = [*figure + 1, some(prng)][prng.below(2)];
        *figure = more.clamp(*figure, FIGURE_MOST);
    }
}

/// Now and then another figure for a node that is like one there is already.
pub fn alter(prng: &mut Prng, row: &mut SelectionRow) {
    let Some(prng) = prng.figures() else { return };
    if prng.percent(30) {
        row[OF_SELECTION] = some(prng);
    }
}

/// A least figure for a node of a selection that is built by hand, mostly 0.
pub fn seldom(prng: &mut Prng) -> u16 {
    let Some(prng) = prng.figures() else { return 0 };
    if prng.percent(15) {
        some(prng)
    } else {
        0
    }
}

/// What all selections of a plan ask for: nodes of the first any figures, and a
/// member's nodes mostly 0, or what one of the first of that label has, one less or
/// one more.
pub fn ask_all(prng: &mut Prng, plan: &mut Plan) {
    let Some(prng) = prng.figures() else { return };
    for row in &mut plan.first {
        row[OF_SELECTION] = some(prng);
    }
    for row in plan.set.iter_mut().flatten() {
        let alike = plan.first.iter().filter(|own| own[1] == row[1]);
        let figures: Vec<u16> = alike.map(|own| own[OF_SELECTION]).collect();
        if let Some(&figure) = prng.one_of(&figures).filter(|_| prng.percent(40)) {
            let near = [figure, figure.saturating_sub(1), figure + 1];
            row[OF_SELECTION] = near[prng.below(3)].min(FIGURE_MOST);
        }
    }
}

/// Figures of a volume: the most or the least everywhere, or any.
pub fn give(prng: &mut Prng, rows: &mut [VolumeRow]) {
    let Some(prng) = prng.figures() else { return };
    let all = [Some(FIGURE_MOST), Some(0), None, None][prng.below(4)];
    for row in rows {
        row[OF_VOLUME] = all.unwrap_or_else(|| some(prng));
    }
}

/// Now and then a figure at a bound, or past it, at any node of the volume or of any
/// selection.
pub fn at_bounds(prng: &mut Prng, plan: &mut Plan) {
    let Some(prng) = prng.figures() else { return };
    if !prng.percent(8) {
        return;
    }
    let (last, past) = (FIGURE_MOST, FIGURE_MOST + 1);
    let bounds = [0, 1, last - 1, last, past, u16::MAX];
    let bound = bounds[prng.below(bounds.len())];
    if prng.percent(40) {
        let node = prng.below(plan.volume.len());
        plan.volume[node][OF_VOLUME] = bound;
    } else {
        let chosen = prng.below(1 + plan.set.len());
        for rows in plan.selections_mut().skip(chosen).take(1) {
            let node = prng.below(rows.len());
            rows[node][OF_SELECTION] = bound;
        }
    }
}

/// Every node has more than a selection can ask for.
pub fn grant(rows: &mut [VolumeRow]) {
    for row in rows {
        row[OF_VOLUME] = u16::MAX;
    }
}

/// The volume node of each selection node has what that asks for, often just
/// that; now and then one of them has one less.
pub fn meet(prng: &mut Prng, asked: &[SelectionRow], own: &[usize], rows: &mut [VolumeRow]) {
    let Some(prng) = prng.figures() else { return };
    for (row, &v) in asked.iter().zip(own) {
        let least = row[OF_SELECTION].min(FIGURE_MOST);
        let figure = &mut rows[v][OF_VOLUME];
        if *figure < least || prng.percent(50) {
            *figure = least;
        }
    }
    if prng.percent(25) {
        let figure = &mut rows[own[prng.below(own.len())]][OF_VOLUME];
        *figure = figure.saturating_sub(1);
    }
}
