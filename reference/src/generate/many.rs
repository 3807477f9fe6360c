//! Verdicts over very many placements, each trial of few nodes: up to the
//! limit, exactly at it and one past it; one failing placement far down, and
//! many behind a long run that passes; all passing, at different places or
//! through different members by turns; passing by turns up to a failure at the
//! first rank, in the middle, at the limit and one past it; failing by figures
//! alone.

use super::callers;
use super::cases;
use super::figures::{self, OF_SELECTION};
use super::plan::{least_length, OutlineRow, Plan, SelectionRow};
use super::prng::{Prng, Seed};
use super::sets;
use super::trees;
use super::turns::{turns, Rank};
use crate::records::SET_SELECTIONS;
use crate::vectors::{Vector, VERDICT};

const LIMIT: u64 = 1_000_000;
const ROOT: u16 = 1;
const X: u16 = 500;
const ANY: u16 = 0;
const CHILD: u16 = 0;
const DESCENDANT: u16 = 1;

/// The cases that are always the same, six by turns for each size of a set, and
/// `count` random ones.
pub fn many(seed: impl Into<Seed>, count: usize) -> Vec<Vector> {
    let seed = seed.into();
    let mut prng = Prng::new(seed);
    let fixed = [
        // 63^15 placements, far above 10^18, all of which pass.
        (star(63, 15), LIMIT),
        (star(63, 15), 1),
        // Exactly 1,000,000 placements, and one more than the limit.
        (star(10, 6), LIMIT),
        (star(10, 6), LIMIT - 1),
        // The last of 1,000,000 fails.
        (one_without(10, 6, 9), LIMIT),
        (one_without(10, 6, 9), LIMIT - 1),
        // The first one past 1,000,000 fails.
        (two_blocks(10, 1, 6), LIMIT),
        // One fails far down; many fail behind a long run that passes.
        (one_without(31, 4, 17), LIMIT),
        (two_blocks(9, 8, 6), LIMIT),
        (two_blocks(3, 40, 12), LIMIT),
        // The first that passes through none of eight members is the 888,889th;
        // all of 800,000 pass, through eight members by turns.
        (member_each(10, 6), LIMIT),
        (alternating(9, 5), LIMIT),
        // By figures alone: the first that fails is the 800,001st, or the 9th.
        (one_figure(10, 6, 1), LIMIT),
        (one_figure(10, 6, 1), 800_000),
        (one_figure(10, 6, 6), LIMIT),
        // Those pass that have an own node at x, which is the last place of all.
        (own_node_at_x(9, 6), LIMIT),
    ];
    let fixed = fixed.into_iter().map(|(plan, limit)| verdict(plan, limit));
    let sizes = (1..=SET_SELECTIONS).flat_map(|members| at_ranks(&mut prng, members));
    let mut all: Vec<Vector> = fixed.chain(sizes).collect();
    all.extend((0..count).map(|_| drawn(&mut prng)));
    callers::draw(seed, 0, all)
}

/// With the greatest limit: failing at the first rank, in the middle, at the
/// limit, and past it, which is stopped; all passing, as many as the limit
/// allows, and more.
fn at_ranks(prng: &mut Prng, members: usize) -> Vec<Vector> {
    let ranks = [
        Rank::One(LIMIT),
        Rank::Middle(LIMIT),
        Rank::Limit,
        Rank::PastLimit,
    ];
    let mut plans: Vec<Plan> = ranks.map(|rank| turns(prng, members, rank).plan()).into();
    for rank in [Rank::Middle(300_000), Rank::PastLimit] {
        plans.push(turns(prng, members, rank).passing().plan());
    }
    plans.into_iter().map(|plan| verdict(plan, LIMIT)).collect()
}

/// By turns, with any number of members, over some thousand placements; a
/// limit at the failing rank or the number of placements, next to it, or any.
/// Every other one has leaves that overlap, or that leave something out.
fn drawn_turns(prng: &mut Prng) -> Vector {
    let members = prng.between(1, SET_SELECTIONS);
    let most = [2_000, 20_000, 100_000][prng.below(3)];
    let mut made = turns(prng, members, Rank::Middle(most));
    if prng.percent(30) {
        made = made.passing();
    }
    let decisive = made.rank().unwrap_or(made.total());
    let limit = [
        decisive - 1,
        decisive,
        decisive + 1,
        1 + prng.draw() % most,
        LIMIT,
    ];
    let limit = limit[prng.below(5)];
    if prng.percent(50) {
        for _ in 0..prng.between(1, 4) {
            made = made.widened(prng);
        }
        if prng.percent(60) {
            made = made.crossed(prng);
        }
    }
    let mut plan = made.plan();
    now_and_then(prng, &mut plan);
    verdict(plan, limit)
}

/// What all ask for drawn anew, now and then.
fn now_and_then(prng: &mut Prng, plan: &mut Plan) {
    if prng.figures().is_some_and(|prng| prng.percent(40)) {
        figures::ask_all(prng, plan);
    }
}

fn verdict(plan: Plan, limit: u64) -> Vector {
    Plan {
        call: VERDICT,
        limit,
        length: least_length(VERDICT),
        ..plan
    }
    .vector()
}

/// Some 3,000 to 1,000,000 placements in blocks or with one that fails, and a
/// limit near their number or far above it; or other cases up to a limit that
/// the reference reaches soon; every other one by turns.
fn drawn(prng: &mut Prng) -> Vector {
    let (most, nodes) = [(31, 3), (31, 4), (15, 5), (10, 6), (5, 8)][prng.below(5)];
    let width = prng.between(most * 2 / 3, most);
    let soon = 1 + prng.draw() % 30_000;
    let (mut plan, whole) = match prng.below(20) {
        0 | 1 => (one_without(width, nodes, prng.below(width)), true),
        2 | 3 => (two_blocks(width, prng.between(1, 4), nodes), true),
        4 => (star(width, nodes), true),
        5 => (vast(prng), false),
        6 => (by_turns(prng), false),
        7 => (member_each(width, nodes), true),
        8 => (alternating(width, nodes), false),
        9 => (cases::many(prng), false),
        _ => return drawn_turns(prng),
    };
    if let Some(prng) = prng.figures() {
        if whole && prng.percent(20) {
            plan = one_figure(width, nodes, prng.between(1, nodes));
        }
    }
    now_and_then(prng, &mut plan);
    if !whole {
        return verdict(plan, soon);
    }
    let all = (width as u64).pow(nodes as u32);
    let limit = [all - 1, all, all + 1, 1 + prng.draw() % all, LIMIT][prng.below(5)];
    verdict(plan, limit.clamp(1, LIMIT))
}

/// A set of one.
fn plan(outline: Vec<OutlineRow>, first: Vec<SelectionRow>, member: Vec<SelectionRow>) -> Plan {
    Plan {
        outline,
        first,
        set: vec![member],
        ..Plan::default()
    }
}

/// The root with `width` children, and `free` nodes that go to any of them.
fn star(width: usize, free: usize) -> Plan {
    let mut outline = vec![[0, ROOT, 0]];
    outline.extend((0..width).map(|child| [0, 10 + child as u16, 0]));
    let mut first = vec![[0, ROOT, CHILD, 1, 0]];
    first.extend(std::iter::repeat_n([0, ANY, DESCENDANT, 0, 0], free));
    plan(
        outline,
        first,
        vec![[0, ANY, CHILD, 1, 0], [0, ANY, CHILD, 0, 0]],
    )
}

/// A star with a member for each child, as far as eight go: a trial fails only
/// where all free nodes are at children without one.
fn member_each(width: usize, free: usize) -> Plan {
    let mut made = star(width, free);
    let asking = |child| vec![[0, ROOT, CHILD, 1, 0], [0, 10 + child as u16, CHILD, 0, 0]];
    made.set = (0..width.min(SET_SELECTIONS)).map(asking).collect();
    made
}

/// A star with a member for each child, as far as eight go, that asks for a figure
/// there; one of the free nodes alone has it, and the others one less. So a trial
/// fails where that one is at a child without a member.
fn one_figure(width: usize, free: usize, number: usize) -> Plan {
    const FIGURE: u16 = 256;
    let mut made = member_each(width, free);
    for (q, node) in made.first.iter_mut().enumerate().skip(1) {
        node[OF_SELECTION] = FIGURE - u16::from(q != number);
    }
    for member in &mut made.set {
        member[1][OF_SELECTION] = FIGURE;
    }
    made
}

/// A child x of the root with the other places below it, and free nodes that have a
/// figure, which the member asks for at x: there are as many placements as with one
/// place more, and only those fail that have no free node at x itself.
fn own_node_at_x(width: usize, free: usize) -> Plan {
    let mut made = star(width, free);
    for place in &mut made.outline[1..] {
        place[0] = 1;
    }
    made.outline.insert(1, [0, X, 0]);
    for node in &mut made.first[1..] {
        node[OF_SELECTION] = 1;
    }
    made.set = vec![vec![[0, ROOT, CHILD, 1, 0], [0, X, CHILD, 0, 1]]];
    made
}

/// A star with one more child, x, and a last node at one of eight children of
/// x. Each member asks for another of these, so all trials pass, each through
/// another member than the one before.
fn alternating(width: usize, free: usize) -> Plan {
    let mut made = star(width, free);
    let (at, last) = (made.outline.len() as u16, made.first.len() as u16);
    let below = |child: usize| 600 + child as u16;
    made.outline.push([0, X, 0]);
    made.outline
        .extend((0..SET_SELECTIONS).map(|child| [at, below(child), 0]));
    made.first
        .extend([[0, X, CHILD, 0, 0], [last, ANY, CHILD, 0, 0]]);
    for node in &mut made.first[1..] {
        node[2] = CHILD;
    }
    let asking = |child| {
        vec![
            [0, ROOT, CHILD, 1, 0],
            [0, X, CHILD, 0, 0],
            [1, below(child), CHILD, 0, 0],
        ]
    };
    made.set = (0..SET_SELECTIONS).map(asking).collect();
    made
}

/// All children but one have a strong child x, and the set's member asks for
/// one: only where all free nodes are at the child without does it fail.
fn one_without(width: usize, free: usize, without: usize) -> Plan {
    let mut made = star(width, free);
    let with = (0..width).filter(|&child| child != without);
    made.outline
        .extend(with.map(|child| [1 + child as u16, X, 1]));
    for node in &mut made.first[1..] {
        node[2] = CHILD;
    }
    made.set = vec![vec![
        [0, ROOT, CHILD, 1, 0],
        [0, ANY, CHILD, 0, 0],
        [1, X, CHILD, 0, 0],
    ]];
    made
}

/// A free node at one of two children of the root, with `free` nodes below
/// it: `passing`^free placements at the first, which pass, then `failing`^free
/// at the second, which fail.
fn two_blocks(passing: usize, failing: usize, free: usize) -> Plan {
    const FIRST: u16 = 2;
    let mut outline = vec![[0, ROOT, 0], [0, FIRST, 0], [0, FIRST + 1, 0]];
    outline.extend((0..passing).map(|child| [1, 10 + child as u16, 0]));
    outline.extend((0..failing).map(|child| [2, 10 + child as u16, 0]));
    let mut first = vec![[0, ROOT, CHILD, 1, 0], [0, ANY, CHILD, 0, 0]];
    first.extend(std::iter::repeat_n([1, ANY, CHILD, 0, 0], free));
    plan(
        outline,
        first,
        vec![[0, ROOT, CHILD, 1, 0], [0, FIRST, CHILD, 0, 0]],
    )
}

/// A first selection of 15 nodes that may stand anywhere, and members that
/// ask no more: up to 63^15 placements, all of which pass.
fn vast(prng: &mut Prng) -> Plan {
    let mut outline: Vec<OutlineRow> = vec![[0, 1, 0]];
    while outline.len() < 64 {
        let parent = prng.below(outline.len().min(8)) as u16;
        let label = 10 + outline.len() as u16;
        outline.push([parent, label, u16::from(prng.percent(10))]);
    }
    let mut first: Vec<SelectionRow> = vec![[0, 1, 0, 1, 0]];
    while first.len() <= 15 {
        let parent = if prng.percent(80) {
            0
        } else {
            prng.below(first.len()) as u16
        };
        first.push([parent, 0, 1, 0, 0]);
    }
    let weak = trees::weaken(prng, &first);
    let mut made = plan(outline, first, weak);
    sets::rearrange(prng, &mut made.set);
    made
}

/// The member asks for a b with a child c. The first has a b, then free nodes,
/// and last a c below the b, at one of the places where now this b has it as
/// its child and now a b further down. So all trials pass, but no node's
/// places have an offer in common until the c is placed; now and then the
/// lowest place is spoilt, and some fail.
fn by_turns(prng: &mut Prng) -> Plan {
    let mut outline: Vec<OutlineRow> = vec![[0, 1, 0], [0, 2, 0]];
    let turns = prng.between(2, 6);
    let mut b = 1;
    for _ in 0..turns {
        let label = if prng.percent(95) { 2 } else { 4 };
        outline.push([b, 3, 0]);
        outline.push([b, label, 0]);
        b = outline.len() as u16 - 1;
    }
    outline.push([b, 3, 0]);
    while outline.len() < prng.between(30, 64) {
        let parent = if prng.percent(70) {
            0
        } else {
            prng.below(outline.len()) as u16
        };
        outline.push([
            parent,
            100 + outline.len() as u16,
            u16::from(prng.percent(20)),
        ]);
    }
    let mut first: Vec<SelectionRow> = vec![[0, 1, 0, 1, 0], [0, 2, 0, 0, 0]];
    for _ in 0..prng.between(1, 13) {
        first.push([prng.below(2) as u16, 0, 1, 0, 0]);
    }
    first.push([1, 3, 1, 0, 0]);
    let mut member: Vec<SelectionRow> = vec![[0, 1, 0, 1, 0], [0, 2, 1, 0, 0], [1, 3, 0, 0, 0]];
    if prng.percent(30) {
        member.push([0, 0, 1, 0, 0]);
    }
    plan(outline, first, member)
}
