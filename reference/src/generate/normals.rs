//! Cases to be written in one way: one case under many numberings, cases that
//! differ in one field far below, equal subtrees, and subtrees that are prefixes
//! of others.

use super::figures::{self, OF_SELECTION};
use super::plan::{least_length, OutlineRow, Plan, SelectionRow, Set};
use super::prng::{Prng, Seed};
use super::random::selections;
use super::trees::{self, Freedom};
use crate::records::{
    outline_row, read_case, selection_row, Case, OUTLINE_NODES, SELECTION_NODES, SET_SELECTIONS,
};
use crate::vectors::{Vector, NORMALISE};

const ROOT: u16 = 1;
const CHILD: u16 = 0;
const DESCENDANT: u16 = 1;
/// The root, which holds the only position.
const HEAD: SelectionRow = [0, ROOT, CHILD, 1, 0];

/// The cases that are always the same, and `count` random ones, of which many are
/// the one before with other numbers, or nearly so.
pub fn normals(seed: impl Into<Seed>, count: usize) -> Vec<Vector> {
    let mut prng = Prng::new(seed);
    let mut all = fixed();
    let mut plan = drawn(&mut prng);
    for _ in 0..count {
        plan = match prng.below(6) {
            0 | 1 => renumbered(&mut prng, &plan),
            2 => altered(&mut prng, &plan),
            _ => drawn(&mut prng),
        };
        plan.length = least_length(NORMALISE) + [0, 0, 1, 904][prng.below(4)];
        plan.length -= u64::from(prng.percent(4));
        all.push(plan.vector());
    }
    all
}

/// The case with its nodes numbered anew, parents before children.
pub fn renumbered_case(prng: &mut Prng, case: &Case) -> Case {
    let plan = renumbered(prng, &Plan::of(case));
    read_case(&plan.case_bytes()).expect("numbers alone do not matter")
}

/// The case with one stroke on it, if it is still accepted. It may be the same
/// one with other numbers.
pub fn altered_case(prng: &mut Prng, case: &Case) -> Option<Case> {
    let mut plan = Plan::of(case);
    stroke(prng, &mut plan);
    read_case(&plan.case_bytes()).ok()
}

/// Those that tell one reading from another, each as it is and under other
/// numbers; letters stand for 2, 3 and so on.
pub fn fixed() -> Vec<Vector> {
    const NUMBERINGS: usize = 3;
    let (r, a, b, c) = (ROOT, 2, 3, 4);
    let plans = [
        // Depth decides: r(a(b(r)), a(b,c)); and alone: r(a(b(c)), a(b,c)).
        of(&[(0, a), (1, b), (2, r), (0, a), (4, b), (4, c)]),
        of(&[(0, a), (1, b), (2, c), (0, a), (4, b), (4, c)]),
        of(&[(0, a), (1, a), (2, a), (0, a), (4, a), (4, a)]),
        // Prefixes: r(a(b(c)), a(b), a).
        of(&[(0, a), (1, b), (2, c), (0, a), (4, b), (0, a)]),
        // Ordered within first: r(a(c), a(c,b)).
        of(&[(0, a), (1, c), (0, a), (3, c), (3, b)]),
        // Labels by number, with any label first.
        of(&[(0, 256), (0, 255), (0, u16::MAX), (0, 0), (0, 1)]),
        label_edge_position(),
        figure_last(),
        figures_below(),
        // Equal ones, and all but one equal.
        of(&[(0, a), (1, b), (0, a), (3, b), (0, a), (5, b)]),
        heap(None),
        heap(Some(15)),
        heap(Some(8)),
        two_chains(),
        outline_alone(&[[0, b, 1], [0, a, 0], [2, c, 1], [1, b, 1], [1, a, 0]]),
        ordered_set(),
        whole(|t| t.saturating_sub(1)),
        whole(|_| 0),
        whole(|t| t.saturating_sub(1) / 2),
        whole(|t| t.saturating_sub(2 - t % 2)),
    ];
    let mut prng = Prng::new(106u64);
    let mut all = Vec::new();
    for plan in plans {
        all.push(plan.vector());
        all.extend((0..NUMBERINGS).map(|_| renumbered(&mut prng, &plan).vector()));
    }
    all
}

fn plan(outline: Vec<OutlineRow>, first: Vec<SelectionRow>, set: Set) -> Plan {
    Plan {
        call: NORMALISE,
        length: least_length(NORMALISE),
        outline,
        first,
        set,
        ..Plan::default()
    }
}

/// An outline of one node; the selection is the set's two members too.
fn over_root(first: Vec<SelectionRow>) -> Plan {
    plan(vec![[0, ROOT, 0]], first.clone(), vec![first; 2])
}

/// Child edges below the root, each node by its parent and label.
fn of(nodes: &[(u16, u16)]) -> Plan {
    let row = |&(parent, label): &(u16, u16)| [parent, label, CHILD, 0, 0];
    let mut rows = vec![HEAD];
    rows.extend(nodes.iter().map(row));
    over_root(rows)
}

/// The label decides before the edge, and that before the position.
fn label_edge_position() -> Plan {
    let mut rows = vec![HEAD];
    rows.extend([
        [0, 3, CHILD, 0, 0],
        [0, 2, DESCENDANT, 0, 0],
        [0, 2, CHILD, 2, 0],
        [0, 2, CHILD, 0, 0],
    ]);
    over_root(rows)
}

/// The figure decides by number, after all else.
fn figure_last() -> Plan {
    let mut rows = vec![HEAD];
    rows.extend([
        [0, 2, CHILD, 0, 256],
        [0, 2, CHILD, 2, 0],
        [0, 2, DESCENDANT, 0, 0],
        [0, 2, CHILD, 0, 2_000],
        [0, 2, CHILD, 0, 255],
        [0, 1, CHILD, 0, 2_000],
        [0, 2, CHILD, 0, 0],
    ]);
    over_root(rows)
}

/// Subtrees that are alike but for a figure, above and below.
fn figures_below() -> Plan {
    let mut rows = vec![HEAD];
    for (above, below) in [(1, 0), (0, 2), (0, 1), (1, 0), (0, 1)] {
        let number = rows.len() as u16;
        rows.extend([
            [0, 2, CHILD, 0, above],
            [number, 3, CHILD, 0, below],
            [number, 3, CHILD, 0, 1],
        ]);
    }
    over_root(rows)
}

/// The outline of these nodes below the root.
fn outline_alone(nodes: &[OutlineRow]) -> Plan {
    let outline = [&[[0, ROOT, 0]], nodes].concat();
    plan(outline, vec![HEAD], vec![vec![HEAD]])
}

/// Fifteen nodes two by two, all alike but for one of them, and the root above.
fn heap(other: Option<usize>) -> Plan {
    let mut rows = vec![HEAD];
    rows.extend((1..SELECTION_NODES as u16).map(|q| [q / 2, 2, CHILD, 0, 0]));
    if let Some(q) = other {
        rows[q][2] = DESCENDANT;
    }
    over_root(rows)
}

/// Two chains of seven from the root that differ in their last node alone.
fn two_chains() -> Plan {
    let mut rows = vec![HEAD];
    for last in [3, 2] {
        for step in 0..7 {
            let parent = if step == 0 { 0 } else { rows.len() as u16 - 1 };
            rows.push([parent, if step == 6 { last } else { 2 }, CHILD, 0, 0]);
        }
    }
    over_root(rows)
}

/// Eight members that are not in any order, the same ones among them.
fn ordered_set() -> Plan {
    let member = |labels: &[u16]| {
        let mut rows = vec![HEAD];
        rows.extend(labels.iter().map(|&label| [0, label, DESCENDANT, 0, 0]));
        rows
    };
    let labels: [&[u16]; SET_SELECTIONS] =
        [&[9, 8], &[], &[8, 9], &[7], &[9, 8], &[0, 7], &[7, 0], &[7]];
    plan(
        vec![[0, ROOT, 0]],
        member(&[5, 4]),
        labels.map(member).into(),
    )
}

/// As many nodes as there can be, in trees of one shape, with falling labels.
fn whole(parent: fn(u16) -> u16) -> Plan {
    let label = |t| if t == 0 { ROOT } else { 900 - t };
    let outline = (0..OUTLINE_NODES as u16).map(|t| [parent(t), label(t), t % 2]);
    let row = |q: u16| {
        let edge = u16::from(q % 3 == 1);
        [parent(q), label(q), edge, u16::from(q == 0), 0]
    };
    let selection: Vec<SelectionRow> = (0..SELECTION_NODES as u16).map(row).collect();
    let set = vec![selection.clone(); SET_SELECTIONS];
    plan(outline.collect(), selection, set)
}

/// A random case, mostly under numbers that are no preorder.
pub fn drawn(prng: &mut Prng) -> Plan {
    let plan = match prng.below(6) {
        0 | 1 => selections(prng),
        2 => large(prng),
        _ => repetitive(prng),
    };
    let plan = plan.given_to(NORMALISE);
    if prng.percent(70) {
        renumbered(prng, &plan)
    } else {
        plan
    }
}

/// 64 outline nodes and nine selections of 16.
fn large(prng: &mut Prng) -> Plan {
    let outline = trees::outline(prng, OUTLINE_NODES);
    let freedom = Freedom::random(prng);
    let k = prng.between(1, 8);
    let mut selection = || {
        let mut rows = trees::selection(prng, &outline, SELECTION_NODES, freedom);
        trees::hold_positions(prng, &mut rows, k);
        rows
    };
    let first = selection();
    let set = (0..SET_SELECTIONS).map(|_| selection()).collect();
    Plan {
        outline,
        first,
        set,
        ..Plan::default()
    }
}

/// Selections of few labels, in which subtrees are said again, some of them with
/// a difference far below.
fn repetitive(prng: &mut Prng) -> Plan {
    let size = prng.between(1, OUTLINE_NODES);
    let outline = trees::outline(prng, size);
    let labels = prng.between(1, 3);
    let edges = [0, 0, 50][prng.below(3)];
    let sizes: Vec<usize> = (0..=prng.between(1, SET_SELECTIONS))
        .map(|_| prng.between(1, SELECTION_NODES))
        .collect();
    let least = sizes.iter().copied().min().unwrap_or(1);
    let k = [1, prng.between(1, least.min(8))][prng.below(2)];
    let mut all: Set = Vec::new();
    for size in sizes {
        let mut rows = said_again(prng, size, labels, edges);
        trees::hold_positions(prng, &mut rows, k);
        all.push(rows);
    }
    let first = all.remove(0);
    Plan {
        outline,
        first,
        set: all,
        ..Plan::default()
    }
}

/// A tree grown by single nodes and by copies of what it has already.
fn said_again(prng: &mut Prng, size: usize, labels: usize, edges: usize) -> Vec<SelectionRow> {
    let mut rows: Vec<SelectionRow> = vec![[0, ROOT, CHILD, 0, 0]];
    let reach = [1, 2, SELECTION_NODES][prng.below(3)];
    while rows.len() < size {
        // The lower the number, the more there often is below.
        let twin = prng.below(rows.len()).min(prng.below(rows.len()));
        if twin > 0 && rows.len() > 3 && prng.percent(40) {
            copy(prng, &mut rows, twin, size);
        } else {
            let parent = rows.len() - 1 - prng.below(reach.min(rows.len()));
            let edge = u16::from(prng.percent(edges));
            let label = prng.below(labels) as u16;
            rows.push([parent as u16, label, edge, 0, figures::seldom(prng)]);
        }
    }
    rows
}

/// The subtree of a node again beside it, as far as the size goes, often with its
/// last node altered: another figure, label or edge, or one step higher, which
/// leaves all but the depths alike.
fn copy(prng: &mut Prng, rows: &mut Vec<SelectionRow>, from: usize, size: usize) {
    let mut twins = vec![None; rows.len()];
    let before = rows.len();
    for q in from..before {
        let [parent, label, edge, _, figure] = rows[q];
        let parent = if q == from {
            Some(parent)
        } else {
            twins[usize::from(parent)]
        };
        if let Some(parent) = parent.filter(|_| rows.len() < size) {
            twins[q] = Some(rows.len() as u16);
            rows.push([parent, label, edge, 0, figure]);
        }
    }
    let last = rows.len() - 1;
    figures::alter(prng, &mut rows[last]);
    let above = usize::from(rows[last][0]);
    match prng.below(5) {
        0 => rows[last][1] += 1,
        1 => rows[last][2] ^= 1,
        2 | 3 if above > before => rows[last][0] = rows[above][0],
        _ => {}
    }
}

fn renumbered(prng: &mut Prng, plan: &Plan) -> Plan {
    let member = |prng: &mut Prng, rows: &Vec<_>| trees::reorder(prng, rows);
    Plan {
        outline: trees::reorder(prng, &plan.outline),
        first: trees::reorder(prng, &plan.first),
        set: plan.set.iter().map(|rows| member(prng, rows)).collect(),
        ..plan.clone()
    }
}

/// The case with one stroke on it, after which it is accepted; as it is where
/// none such is found.
fn altered(prng: &mut Prng, plan: &Plan) -> Plan {
    for _ in 0..20 {
        let mut other = plan.clone();
        stroke(prng, &mut other);
        if read_case(&other.case_bytes()).is_ok() {
            return other;
        }
    }
    plan.clone()
}

/// One field changed, two nodes' fields exchanged, a node one step higher, or two
/// members exchanged.
fn stroke(prng: &mut Prng, plan: &mut Plan) {
    let chosen = prng.below(plan.set.len() + 2);
    match chosen {
        0 => outline_stroke(prng, &mut plan.outline),
        1 => selection_stroke(prng, &mut plan.first),
        _ if prng.percent(10) => {
            let other = prng.below(plan.set.len());
            plan.set.swap(chosen - 2, other);
        }
        _ => selection_stroke(prng, &mut plan.set[chosen - 2]),
    }
}

fn outline_stroke(prng: &mut Prng, rows: &mut [OutlineRow]) {
    let (t, other) = (low(prng, rows.len()), prng.below(rows.len()));
    match prng.below(5) {
        0 => rows[t][1] = [rows[other][1], rows[t][1] ^ 1][prng.below(2)],
        1 => exchange(rows, t, other, 1),
        2 => exchange(rows, t, other, 0),
        3 if t > 0 => rows[t][0] = prng.below(t) as u16,
        _ if t > 0 => rows[t][2] ^= 1,
        _ => rows[t][1] = rows[t][1].wrapping_add(1),
    }
}

fn selection_stroke(prng: &mut Prng, rows: &mut [SelectionRow]) {
    let (q, other) = (low(prng, rows.len()), prng.below(rows.len()));
    if prng.figures().is_some_and(|prng| prng.percent(20)) {
        match prng.percent(50) {
            true => exchange(rows, q, other, OF_SELECTION),
            false => figures::alter(prng, &mut rows[q]),
        }
        return;
    }
    match prng.below(7) {
        0 => rows[q][1] = [0, rows[other][1], rows[q][1] ^ 1][prng.below(3)],
        1 if q > 0 => rows[q][2] ^= 1,
        2 => exchange(rows, q, other, 3),
        3 => exchange(rows, q, other, 1),
        4 => exchange(rows, q, other, 0),
        5 => rows[q][0] = rows[usize::from(rows[q][0])][0],
        _ if q > 0 => rows[q][0] = prng.below(q) as u16,
        _ => exchange(rows, q, other, 3),
    }
}

/// Mostly one of the last, which often stand far below.
fn low(prng: &mut Prng, count: usize) -> usize {
    let from = [0, count / 2, count - 1][prng.below(3)];
    prng.between(from, count - 1)
}

/// Two nodes exchange a field; by the parents, the subtrees change places.
fn exchange<const N: usize>(rows: &mut [[u16; N]], one: usize, other: usize, field: usize) {
    let kept = rows[one][field];
    rows[one][field] = rows[other][field];
    rows[other][field] = kept;
}

impl Plan {
    fn of(case: &Case) -> Plan {
        let rows = |nodes: &Vec<_>| nodes.iter().map(selection_row).collect();
        plan(
            case.outline.iter().map(outline_row).collect(),
            rows(&case.first),
            case.set.iter().map(rows).collect(),
        )
    }
}
