//! Random verdict cases near the limits: 64 outline nodes, 16 selection
//! nodes, no placement or thousands, failing first, in the middle or last.

use super::callers;
use super::figures;
use super::plan::{least_length, OutlineRow, Plan, SelectionRow, Set};
use super::prng::{Prng, Seed};
use super::sets;
use super::trees::{self, Freedom};
use crate::calls::{NOT_INCLUDED, STOPPED};
use crate::vectors::{Vector, VERDICT};

/// Most verdicts are found within this many trials, so that a thousand cases
/// take seconds.
const TRIALS_MOST: u64 = 4_000;

pub fn cases(seed: impl Into<Seed>, count: usize) -> Vec<Vector> {
    let seed = seed.into();
    let mut prng = Prng::new(seed);
    let drawn = (0..count).map(|index| one(&mut prng, index)).collect();
    callers::draw(seed, 0, drawn)
}

fn one(prng: &mut Prng, index: usize) -> Vector {
    let mut plan = match index % 8 {
        0 | 1 => large(prng),
        2 => no_placement(prng),
        3 => one_failure(prng, 0),
        4 => one_failure(prng, 50),
        5 => one_failure(prng, 100),
        _ => many(prng),
    };
    plan.call = VERDICT;
    plan.length = least_length(VERDICT) + prng.below(3) as u64;
    plan.tally = [0, prng.draw() % 999_000_000_000, 999_999_000_000][prng.below(3)];
    plan.limit = limit(prng, &plan);
    plan.vector()
}

/// The answer's own rank and its neighbours decide between the three kinds;
/// the greatest limit is taken only where the answer comes early.
fn limit(prng: &mut Prng, plan: &Plan) -> u64 {
    let got = plan.judged(TRIALS_MOST);
    match prng.below(6) {
        0 => got.tried.max(1),
        1 => got.tried.saturating_sub(1).max(1),
        2 => (got.tried + 1).min(TRIALS_MOST),
        3 => 1 + prng.draw() % TRIALS_MOST,
        _ if got.kind != STOPPED => 1_000_000,
        _ => TRIALS_MOST,
    }
}

/// 64 outline nodes and up to 16 nodes in each selection, the members weaker
/// or stronger than the first.
fn large(prng: &mut Prng) -> Plan {
    let outline = trees::outline(prng, 64);
    let freedom = Freedom {
        stray: 0,
        ..Freedom::random(prng)
    };
    let size = prng.between(12, 16);
    let first = trees::selection(prng, &outline, size, freedom);
    related(prng, outline, first)
}

/// Few enough free nodes for thousands of placements.
pub fn many(prng: &mut Prng) -> Plan {
    let size = prng.between(20, 64);
    let outline = trees::outline(prng, size);
    let fixed = Freedom {
        any_label: 10,
        descendant: 10,
        stray: 0,
    };
    let size = prng.between(1, 6);
    let mut first = trees::selection(prng, &outline, size, fixed);
    for _ in 0..prng.between(1, 3) {
        let parent = prng.below(first.len()) as u16;
        first.push([parent, 0, 1, 0, figures::seldom(prng)]);
    }
    let first = trees::reorder(prng, &first);
    related(prng, outline, first)
}

/// Positions for the first, and a set drawn from it. A set that fails the
/// first trial is mostly drawn again: later failures are rarer.
fn related(prng: &mut Prng, outline: Vec<OutlineRow>, mut first: Vec<SelectionRow>) -> Plan {
    let k = prng.between(1, first.len().min(8));
    trees::hold_positions(prng, &mut first, k);
    let mut plan = Plan {
        outline,
        first,
        ..Plan::default()
    };
    for _ in 0..prng.between(1, 8) {
        plan.set = sets::set(prng, &plan.first, &plan.outline, |prng| member(prng, &plan));
        let got = plan.judged(200);
        if got.kind == NOT_INCLUDED && got.tried > 1 {
            break;
        }
    }
    plan
}

fn member(prng: &mut Prng, plan: &Plan) -> Vec<SelectionRow> {
    let (outline, first) = (&plan.outline, &plan.first);
    let rows = match prng.below(4) {
        0 => trees::strengthen(prng, first, outline),
        1 => {
            let weak = trees::weaken(prng, first);
            trees::strengthen(prng, &weak, outline)
        }
        2 => first.clone(),
        _ => trees::weaken(prng, first),
    };
    trees::reorder(prng, &rows)
}

/// Free nodes before one that fits nowhere, deep enough that only looking
/// ahead ends.
fn no_placement(prng: &mut Prng) -> Plan {
    let size = prng.between(50, 64);
    let outline = trees::outline(prng, size);
    let mut first: Vec<SelectionRow> = vec![[0, outline[0][1], 0, 1, 0]];
    while first.len() < 15 {
        let parent = if prng.percent(80) {
            0
        } else {
            prng.below(first.len())
        };
        first.push([parent as u16, 0, 1, 0, 0]);
    }
    let parent = prng.below(first.len()) as u16;
    first.push([parent, 60_000, 1, 0, 0]);
    let set = vec![vec![[0, outline[0][1], 0, 1, 0]]; prng.between(1, 8)];
    Plan {
        outline,
        first,
        set,
        ..Plan::default()
    }
}

/// Exactly one failing trial. The root has children of which all but one have
/// a strong child x; the first selection has w free children; the set asks
/// for one child with an x. So a trial fails only where all w are at the child
/// without x, whose place among its siblings, in percent, fixes the rank.
fn one_failure(prng: &mut Prng, place: usize) -> Plan {
    const X: u16 = 500;
    let (most, w) = [(31, 1), (31, 2), (14, 3), (7, 4)][prng.below(4)];
    let width = prng.between(2, most);
    let without = (width - 1) * place / 100;
    let mut outline: Vec<OutlineRow> = vec![[0, 1, 0]];
    outline.extend((0..width).map(|child| [0, 10 + child as u16, 0]));
    outline.extend(
        (0..width)
            .filter(|&c| c != without)
            .map(|c| [1 + c as u16, X, 1]),
    );
    // More below the child without x, which no free node reaches.
    while outline.len() < 64 && prng.percent(95) {
        outline.push([
            1 + without as u16,
            600 + outline.len() as u16,
            u16::from(prng.percent(30)),
        ]);
    }
    let mut first: Vec<SelectionRow> = vec![[0, 1, 0, 1, 0]];
    first.extend(std::iter::repeat_n([0, 0, 0, 0, 0], w));
    figures::ask(prng, &mut first);
    let mut set = asking(prng, width, without, X);
    sets::rearrange(prng, &mut set);
    Plan {
        outline,
        first,
        set,
        ..Plan::default()
    }
}

/// A child of the root with an x, asked for by one member; or by one for each
/// of seven such children, and one more where there are others.
fn asking(prng: &mut Prng, width: usize, without: usize, x: u16) -> Set {
    let root = [0, [0, 1][prng.below(2)], 0, 1, 0];
    // Each trial also takes the strong children of the free nodes, so a
    // member may ask below the root as well.
    let anywhere = if prng.percent(50) {
        vec![root, [0, x, 1, 0, 0]]
    } else {
        vec![root, [0, 0, 0, 0, 0], [1, x, 0, 0, 0]]
    };
    if prng.percent(50) {
        return vec![anywhere];
    }
    let with: Vec<usize> = (0..width).filter(|&child| child != without).collect();
    let mut set: Set = with
        .iter()
        .take(7)
        .map(|&child| vec![root, [0, 10 + child as u16, 0, 0, 0], [1, x, 0, 0, 0]])
        .collect();
    if with.len() > set.len() {
        set.push(anywhere);
    }
    set
}
