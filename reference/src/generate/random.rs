//! Random calls, accepted and nearly accepted.

use super::callers;
use super::changes::{changes, Change};
use super::figures;
use super::normals;
use super::plan::{Form, OutlineRow, Plan, SelectionRow, VolumeRow, CALLS};
use super::prng::{Prng, Seed};
use super::sets;
use super::strikes;
use super::trees::{self, Freedom};
use crate::vectors::{Vector, DOWNGRADE, LAYOUT, MINIMISE, NORMALISE, VERDICT};

/// Verdicts that would take more trials than this get a limit below it, so
/// that thousands of vectors take seconds.
const TRIALS_MOST: u64 = 2_000;

/// So many verdicts in a hundred have a caller that there is not.
const NOBODY: usize = 3;

pub fn random(seed: impl Into<Seed>, count: usize) -> Vec<Vector> {
    let seed = seed.into();
    let mut prng = Prng::new(seed);
    let mut changes = changes();
    // Those are drawn with the other callers.
    changes.retain(|change| change.question != 16);
    let drawn = (0..count).map(|_| one(&mut prng, &changes)).collect();
    callers::draw(seed, NOBODY, drawn)
}

fn one(prng: &mut Prng, changes: &[Change]) -> Vector {
    let call = CALLS[prng.below(CALLS.len())];
    let mut plan = match call {
        MINIMISE => strikes::order(prng),
        NORMALISE => normals::drawn(prng),
        _ => selections(prng),
    };
    plan = plan.given_to(call);
    plan.length += [0, 0, 1, 904][prng.below(4)];
    take_form(prng, &mut plan);
    plan.selection = prng.between(1, plan.last_selection() as usize) as u64;
    plan.position = prng.between(1, plan.positions() as usize) as u64;
    plan.volume = volume(prng, &plan);
    figures::at_bounds(prng, &mut plan);
    plan.result = result(prng, &plan);
    plan.placement = placement(prng, &plan);
    plan.tally = [0, prng.draw() % 1_000_000, prng.draw() % 999_999_000_000][prng.below(3)];
    match call {
        VERDICT => plan.limit = limit(prng, &plan),
        MINIMISE => plan.limit = strikes::limit(prng, &plan, strikes::TRIALS_MOST),
        _ => {}
    }
    if prng.percent(12) {
        let concerned: Vec<&Change> = changes.iter().filter(|c| c.concerns(call)).collect();
        if let Some(change) = prng.one_of(&concerned) {
            let limit = plan.limit;
            (change.apply)(&mut plan);
            // A greater limit could make an accepted verdict long, and 120 of them
            // are long with more placements too.
            if change.question == 0 {
                plan.limit = plan.limit.min(limit);
            }
            if change.question == 0 && call == MINIMISE {
                plan.limit = plan.limit.min(strikes::TRIALS_MOST);
            }
        }
    }
    let mut vector = plan.vector();
    if prng.percent(6) {
        spoil_bytes(prng, &mut vector);
    }
    vector
}

/// Mostly one member and no figure where the case goes back, and now and then a
/// form that is not taken.
fn take_form(prng: &mut Prng, plan: &mut Plan) {
    if prng.percent(3) {
        plan.form = match Form::of(plan.call) {
            Form::Old => Form::Today,
            _ => Form::Old,
        };
    }
    if plan.form == Form::Old || plan.call == DOWNGRADE && prng.percent(60) {
        plan.set.truncate(1);
    }
    let Some(prng) = prng.figures() else { return };
    if prng.percent(2) {
        plan.form = Form::Narrow;
    }
    plan.narrow_volume = prng.percent(2);
    if plan.call == DOWNGRADE && prng.percent(80) {
        plan.forget_figures();
    }
}

/// An outline, a first selection and a set, all with the same positions.
pub fn selections(prng: &mut Prng) -> Plan {
    let size = match prng.below(5) {
        0 => prng.between(1, 3),
        1 | 2 => prng.between(4, 12),
        3 => prng.between(13, 63),
        _ => 64,
    };
    let outline = trees::outline(prng, size);
    let size = selection_size(prng);
    let freedom = Freedom::random(prng);
    let mut first = trees::selection(prng, &outline, size, freedom);
    let k = prng.between(1, first.len().min(8));
    trees::hold_positions(prng, &mut first, k);
    let mut set = sets::set(prng, &first, &outline, |prng| {
        member(prng, &first, &outline, k)
    });
    if prng.percent(15) {
        let member = prng.below(set.len());
        std::mem::swap(&mut first, &mut set[member]);
    }
    Plan {
        outline,
        first,
        set,
        ..Plan::default()
    }
}

/// A selection drawn in one of several ways, most of them from the first.
fn member(
    prng: &mut Prng,
    first: &[SelectionRow],
    outline: &[OutlineRow],
    k: usize,
) -> Vec<SelectionRow> {
    let rows = match prng.below(5) {
        0 => {
            let size = selection_size(prng).max(k);
            let freedom = Freedom::random(prng);
            let mut rows = trees::selection(prng, outline, size, freedom);
            trees::hold_positions(prng, &mut rows, k);
            rows
        }
        1 => trees::strengthen(prng, first, outline),
        2 => {
            let weak = trees::weaken(prng, first);
            trees::strengthen(prng, &weak, outline)
        }
        _ => trees::weaken(prng, first),
    };
    if prng.percent(50) {
        trees::reorder(prng, &rows)
    } else {
        rows
    }
}

fn selection_size(prng: &mut Prng) -> usize {
    match prng.below(4) {
        0 => prng.between(1, 2),
        1 | 2 => prng.between(2, 8),
        _ => prng.between(9, 16),
    }
}

fn volume(prng: &mut Prng, plan: &Plan) -> Vec<VolumeRow> {
    let size = match prng.below(6) {
        0 => prng.between(1, 3),
        1 | 2 => prng.between(4, 20),
        3 => prng.between(21, 200),
        4 => prng.between(201, 1_023),
        _ => 1_024,
    };
    match prng.below(6) {
        0 => trees::wild_volume(prng, &plan.outline, size),
        1 => {
            let mut rows = trees::volume(prng, &plan.outline, size);
            trees::spoil_volume(prng, &plan.outline, &mut rows);
            rows
        }
        2 => trees::volume(prng, &plan.outline, size),
        _ => around_embedding(prng, plan, size),
    }
}

/// A fitting volume in which the chosen selection has results, if it has a
/// placement: a chain of new nodes per selection node, then more.
pub fn around_embedding(prng: &mut Prng, plan: &Plan, size: usize) -> Vec<VolumeRow> {
    let selection = plan.chosen();
    let Some(places) = trees::embedding(prng, selection, &trees::as_volume(&plan.outline)) else {
        return trees::volume(prng, &plan.outline, size);
    };
    let mut nodes = vec![(0, 0)];
    let mut own = vec![0];
    for q in 1..selection.len() {
        let parent = usize::from(selection[q][0]);
        let mut chain = Vec::new();
        let mut t = places[q];
        while t != places[parent] {
            chain.push(t);
            t = usize::from(plan.outline[t][0]);
        }
        let mut above = own[parent];
        for &t in chain.iter().rev() {
            nodes.push((above, t));
            above = nodes.len() - 1;
        }
        own.push(above);
    }
    let mut rows = trees::grow_volume(prng, &plan.outline, nodes, size);
    figures::meet(prng, selection, &own, &mut rows);
    rows
}

/// Often a result, often one with a node changed, sometimes any nodes; now and then
/// what would be a result but for figures.
pub fn result(prng: &mut Prng, plan: &Plan) -> Vec<u16> {
    let k = plan.positions() as usize;
    let any = |prng: &mut Prng| prng.below(plan.volume.len()) as u16;
    let mut volume = plan.volume.clone();
    if prng.figures().is_some_and(|prng| prng.percent(40)) {
        figures::grant(&mut volume);
    }
    let images = trees::embedding(prng, plan.chosen(), &volume);
    let mut list: Vec<u16> = match images.filter(|_| prng.percent(85)) {
        Some(images) => (1..=k)
            .filter_map(|p| {
                plan.chosen()
                    .iter()
                    .position(|row| usize::from(row[3]) == p)
            })
            .map(|q| images[q] as u16)
            .collect(),
        None => (0..k).map(|_| any(prng)).collect(),
    };
    if prng.percent(40) {
        // Another result's node at one position is the subtler change.
        let other = trees::embedding(prng, plan.chosen(), &volume);
        let p = prng.below(list.len());
        let holder = plan
            .chosen()
            .iter()
            .position(|row| usize::from(row[3]) == p + 1);
        list[p] = match (other, holder) {
            (Some(images), Some(q)) if prng.percent(60) => images[q] as u16,
            _ => any(prng),
        };
    }
    list
}

/// Mostly a placement, sometimes one with a number changed.
fn placement(prng: &mut Prng, plan: &Plan) -> Vec<u16> {
    let any = |prng: &mut Prng| prng.below(plan.outline.len()) as u16;
    let found = trees::embedding(prng, plan.chosen(), &trees::as_volume(&plan.outline));
    let mut list: Vec<u16> = match found {
        Some(places) => places.iter().map(|&t| t as u16).collect(),
        None => plan.chosen().iter().map(|_| any(prng)).collect(),
    };
    if prng.percent(15) {
        let q = prng.below(list.len());
        list[q] = any(prng);
    }
    list
}

/// A limit around the answer's own rank, or anything that is not too long.
fn limit(prng: &mut Prng, plan: &Plan) -> u64 {
    let got = plan.judged(TRIALS_MOST);
    let around = [got.tried, got.tried.saturating_sub(1).max(1), got.tried + 1][prng.below(3)];
    match prng.below(4) {
        0 => 1 + prng.draw() % 10,
        1 => 1 + prng.draw() % TRIALS_MOST,
        2 => around.clamp(1, TRIALS_MOST),
        _ if got.kind != crate::calls::STOPPED => 1_000_000,
        _ => TRIALS_MOST,
    }
}

/// A byte or two changed, cut or added anywhere. The limit is lowered, since
/// what is still accepted may have many more placements.
fn spoil_bytes(prng: &mut Prng, vector: &mut Vector) {
    match vector.call {
        VERDICT => vector.limit = vector.limit.min(TRIALS_MOST),
        MINIMISE => vector.limit = vector.limit.min(strikes::TRIALS_MOST),
        _ => {}
    }
    let list = vector.call == LAYOUT && prng.percent(50);
    let bytes = match prng.below(3) {
        _ if list => &mut vector.list,
        0 if !vector.volume.is_empty() => &mut vector.volume,
        1 if !vector.list.is_empty() => &mut vector.list,
        _ => &mut vector.case,
    };
    for _ in 0..prng.between(1, 2) {
        let at = prng.below(bytes.len());
        let value = [0, 1, 2, 255, prng.draw() as u8][prng.below(5)];
        match prng.below(6) {
            0 => bytes.insert(at, value),
            1 if !bytes.is_empty() => drop(bytes.remove(at)),
            2 => bytes.truncate(at),
            _ if !bytes.is_empty() => bytes[at] = value,
            _ => {}
        }
    }
}
