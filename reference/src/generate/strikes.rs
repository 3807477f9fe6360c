//! Orders to be shortened: what strong edges grant, what is said twice, what has
//! no placement, and limits around the number at which a leaf goes.

use super::callers;
use super::figures;
use super::plan::{least_length, OutlineRow, Plan, SelectionRow};
use super::prng::{Prng, Seed};
use super::random::selections;
use super::sets;
use super::trees::{self, Freedom};
use crate::records::{read_case, SELECTION_NODES, SET_SELECTIONS};
use crate::striking::{candidates, without};
use crate::trials::count_placements;
use crate::vectors::{Vector, MINIMISE};

const LIMIT: u64 = 1_000_000;
/// Up to 120 verdicts of so many trials each are quick.
pub const TRIALS_MOST: u64 = 60;
/// The same where a vector may take a little longer.
const MORE_TRIALS: u64 = 1_500;

const ROOT: u16 = 1;
/// A label that no outline here has.
const NOWHERE: u16 = 60_000;
const ANY: u16 = 0;
const CHILD: u16 = 0;
const DESCENDANT: u16 = 1;
const PLAIN: u16 = 0;
const STRONG: u16 = 1;
/// The root, which holds the only position.
const HEAD: SelectionRow = [0, ROOT, CHILD, 1, 0];

/// The orders that are always the same, and `count` random ones, some of them
/// near the limits.
pub fn strikes(seed: impl Into<Seed>, count: usize) -> Vec<Vector> {
    let seed = seed.into();
    let mut prng = Prng::new(seed);
    let mut all = fixed();
    all.extend((0..count).map(|_| drawn(&mut prng)));
    callers::draw(seed, 0, all)
}

fn drawn(prng: &mut Prng) -> Vector {
    let (mut plan, most) = match prng.below(10) {
        0 => (large(prng), MORE_TRIALS),
        1 => (order(prng), MORE_TRIALS),
        _ => (order(prng), TRIALS_MOST),
    };
    plan.tally = [0, prng.draw() % 1_000_000, prng.draw() % 999_000_000_000][prng.below(3)];
    let limit = limit(prng, &plan, most);
    vector(plan, limit)
}

fn vector(plan: Plan, limit: u64) -> Vector {
    Plan {
        call: MINIMISE,
        limit,
        length: least_length(MINIMISE),
        ..plan
    }
    .vector()
}

/// One for each way in which leaves go or stay; labels are the numbers' own, and
/// letters stand for 2, 3 and so on.
pub fn fixed() -> Vec<Vector> {
    let (a, b, c) = (2, 3, 4);
    let granted = vec![[0, ROOT, 0], [0, a, STRONG], [1, b, STRONG], [0, c, STRONG]];
    let plain = vec![[0, ROOT, 0], [0, a, PLAIN], [0, b, PLAIN], [0, c, PLAIN]];
    let inner = vec![[0, ROOT, 0], [0, a, PLAIN], [1, b, STRONG]];
    let one_strong = vec![[0, ROOT, 0], [0, a, STRONG], [0, b, PLAIN], [0, c, PLAIN]];
    let of = |outline: &[OutlineRow], rows: &[SelectionRow]| plan(outline.to_vec(), headed(rows));
    let any = [0, ANY, CHILD, 0, 0];
    let below = [0, ANY, DESCENDANT, 0, 0];
    let good = |label, figure| [0, label, CHILD, 0, figure];
    let leaf = |label| good(label, 0);
    let mut all = vec![
        // All that has no position goes: 15, 14, .. of a line, 1, 2, .. of a star.
        (plan(line(64), chain(16)), LIMIT),
        (plan(star(15), headed(&fan(15))), LIMIT),
        // 2, then 1, which has become a leaf, then 3.
        (
            of(&granted, &[leaf(a), [1, b, CHILD, 0, 0], leaf(c)]),
            LIMIT,
        ),
        // 2 goes, and its parent stays.
        (of(&inner, &[leaf(a), [1, b, CHILD, 0, 0]]), LIMIT),
        // Of equal ones the lower goes, and one stays.
        (of(&plain, &[leaf(a), leaf(a)]), LIMIT),
        (of(&plain, &[leaf(a); 15]), LIMIT),
        (of(&plain, &[below, leaf(a)]), LIMIT),
        (of(&plain, &[leaf(a), below]), LIMIT),
        // Without the first there are three placements.
        (of(&plain, &[any, any]), 2),
        (of(&plain, &[any, any]), 3),
        // The first is stopped and stays, the second goes, and now the first does.
        (of(&one_strong, &[leaf(a), below]), 2),
        (of(&one_strong, &[leaf(a), below]), 3),
        // Nothing goes; nothing is asked.
        (of(&plain, &[leaf(a), leaf(b)]), LIMIT),
        (of(&plain, &[[0, a, CHILD, 2, 0]]), LIMIT),
        (of(&plain, &[]), 1),
        // No placement: what goes is free, and what has none itself stays.
        (of(&plain, &[leaf(a), leaf(NOWHERE)]), LIMIT),
        (of(&plain, &[leaf(NOWHERE), leaf(a)]), LIMIT),
        (of(&plain, &[leaf(a), leaf(NOWHERE), leaf(NOWHERE)]), 1),
        (
            of(&granted, &[leaf(b), [1, a, CHILD, 0, 0], leaf(c)]),
            LIMIT,
        ),
        (
            plan(
                granted.clone(),
                vec![[0, a, CHILD, 1, 0], leaf(b), [1, c, DESCENDANT, 0, 0]],
            ),
            LIMIT,
        ),
        // Eight stay and are asked about again after each of seven that go.
        (kept_and_granted(), LIMIT),
        (eight_positions(), LIMIT),
        // Of two the one that asks for less goes, and of equal ones the lower.
        (of(&plain, &[good(a, 5), good(a, 7)]), LIMIT),
        (of(&plain, &[good(a, 7), good(a, 5)]), LIMIT),
        (of(&plain, &[good(a, 7), good(a, 7)]), LIMIT),
        (
            of(&plain, &[good(ANY, 256), good(a, 255), good(a, 256)]),
            LIMIT,
        ),
        (of(&plain, &[good(a, 1_999), good(ANY, 2_000)]), LIMIT),
        // What is granted has 0.
        (of(&granted, &[good(a, 1), good(c, 0)]), LIMIT),
        (of(&inner, &[good(a, 9), [1, b, CHILD, 0, 1]]), LIMIT),
        (of(&inner, &[good(a, 9), [1, b, CHILD, 0, 0]]), LIMIT),
    ];
    // Sets of all sizes, which have to do with nothing; the tally at its bound.
    for members in 1..=SET_SELECTIONS {
        let mut plan = of(&granted, &[leaf(a), [1, b, CHILD, 0, 0], leaf(c)]);
        plan.set = (0..members as u16)
            .map(|m| vec![[0, m, CHILD, 1, 0]])
            .collect();
        plan.tally = 999_880_000_000;
        all.push((plan, LIMIT));
    }
    all.into_iter()
        .map(|(plan, limit)| vector(plan, limit))
        .collect()
}

/// A plan whose set is the order itself, of which only the positions matter.
fn plan(outline: Vec<OutlineRow>, first: Vec<SelectionRow>) -> Plan {
    Plan {
        outline,
        set: vec![first.clone()],
        first,
        ..Plan::default()
    }
}

fn headed(rows: &[SelectionRow]) -> Vec<SelectionRow> {
    [&[HEAD], rows].concat()
}

/// An outline in a line, all edges strong.
fn line(size: u16) -> Vec<OutlineRow> {
    let strong = |t| u16::from(t > 0);
    (0..size)
        .map(|t| [t.saturating_sub(1), ROOT + t, strong(t)])
        .collect()
}

/// The first so many nodes of it.
fn chain(size: u16) -> Vec<SelectionRow> {
    (0..size)
        .map(|q| [q.saturating_sub(1), ROOT + q, CHILD, u16::from(q == 0), 0])
        .collect()
}

/// A root with so many strong children.
fn star(children: u16) -> Vec<OutlineRow> {
    let mut rows = vec![[0, ROOT, 0]];
    rows.extend((1..=children).map(|t| [0, ROOT + t, STRONG]));
    rows
}

/// A condition for each of them.
fn fan(children: u16) -> Vec<SelectionRow> {
    (1..=children).map(|q| [0, ROOT + q, CHILD, 0, 0]).collect()
}

/// Eight leaves that the outline does not grant, before seven that it does.
fn kept_and_granted() -> Plan {
    let mut outline = star(15);
    for row in &mut outline[1..9] {
        row[2] = PLAIN;
    }
    plan(outline, headed(&fan(15)))
}

/// The even ones of fifteen leaves hold a position, the odd ones go.
fn eight_positions() -> Plan {
    let mut first = headed(&fan(15));
    for q in (2..SELECTION_NODES).step_by(2) {
        first[q][3] = 1 + q as u16 / 2;
    }
    plan(star(15), first)
}

/// An order of up to 16 nodes with much that need not be said.
pub fn order(prng: &mut Prng) -> Plan {
    if prng.percent(20) {
        return selections(prng);
    }
    let size = match prng.below(4) {
        0 => prng.between(2, 5),
        1 | 2 => prng.between(6, 20),
        _ => prng.between(21, 64),
    };
    let asked = prng.between(1, 7);
    let most = prng.between(asked, SELECTION_NODES);
    wordy(prng, size, asked, most)
}

/// One near the limits.
fn large(prng: &mut Prng) -> Plan {
    let asked = prng.between(6, 12);
    wordy(prng, 64, asked, SELECTION_NODES)
}

/// A selection of some nodes, to which others are added that strong edges grant or
/// that say again what is said.
fn wordy(prng: &mut Prng, outline: usize, asked: usize, most: usize) -> Plan {
    let outline = trees::outline(prng, outline);
    let freedom = Freedom::random(prng);
    let mut first = trees::selection(prng, &outline, asked, freedom);
    let holders = first.len().min([1, 1, 2, 8][prng.below(4)]);
    let k = prng.between(1, holders);
    if prng.percent(50) {
        first[0][3] = 1;
        trees::hold_positions(prng, &mut first[1..], k - 1);
        first[1..]
            .iter_mut()
            .filter(|row| row[3] > 0)
            .for_each(|row| row[3] += 1);
    } else {
        trees::hold_positions(prng, &mut first, k);
    }
    while first.len() < most {
        let added = if prng.percent(60) {
            granted(prng, &outline, &first)
        } else {
            None
        };
        let added = added.unwrap_or_else(|| said_again(prng, &first));
        first.push(added);
    }
    if prng.percent(60) {
        first = trees::reorder(prng, &first);
    }
    let set = sets::set(prng, &first, &outline, |prng| trees::weaken(prng, &first));
    Plan {
        outline,
        first,
        set,
        ..Plan::default()
    }
}

/// A node below one that has, at the place it takes in some placement, a strong
/// child.
fn granted(
    prng: &mut Prng,
    outline: &[OutlineRow],
    first: &[SelectionRow],
) -> Option<SelectionRow> {
    let places = trees::embedding(prng, first, &trees::as_volume(outline))?;
    let strong = |q: usize| {
        let below = trees::children(outline, places[q]).into_iter();
        below
            .filter(|&t| outline[t][2] == STRONG)
            .map(move |t| (q, t))
    };
    let all: Vec<(usize, usize)> = (0..first.len()).flat_map(strong).collect();
    let &(q, t) = prng.one_of(&all)?;
    let edge = u16::from(prng.percent(20));
    let label = if prng.percent(85) { outline[t][1] } else { ANY };
    Some([q as u16, label, edge, 0, figures::seldom(prng)])
}

/// A node like another one, its label or edge now and then wider, its figure
/// now and then another.
fn said_again(prng: &mut Prng, first: &[SelectionRow]) -> SelectionRow {
    let [parent, label, edge, _, figure] = first[prng.below(first.len())];
    let label = if prng.percent(75) { label } else { ANY };
    let edge = if prng.percent(75) { edge } else { DESCENDANT };
    let mut row = [parent, label, edge, 0, figure];
    figures::alter(prng, &mut row);
    row
}

/// A limit around the number of placements without one of the leaves, or any up
/// to the most; the greatest where no verdict is stopped, as none is where all
/// together try less than one may.
pub fn limit(prng: &mut Prng, plan: &Plan, most: u64) -> u64 {
    let decisive = decisive(prng, plan).unwrap_or(1);
    match prng.below(4) {
        0 => 1 + prng.draw() % 10,
        1 | 2 => {
            let around = [
                decisive.saturating_sub(1),
                decisive,
                decisive.saturating_add(1),
            ];
            around[prng.below(3)].clamp(1, most)
        }
        _ if plan.minimised(most).tried < most => LIMIT,
        _ => most,
    }
}

/// How many placements there are without some leaf; `None` where none is asked
/// about.
fn decisive(prng: &mut Prng, plan: &Plan) -> Option<u64> {
    let case = read_case(&plan.case_bytes()).ok()?;
    let leaf = *prng.one_of(&candidates(&case.first))?;
    Some(count_placements(&case.outline, &without(&case.first, leaf)))
}
