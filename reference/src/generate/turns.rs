//! Verdicts that pass by turns, with the first failing rank chosen.
//!
//! The nodes of the first selection stand in slots. A decider is one node with
//! places of its own, each in a class; a decision tree over these classes has a
//! leaf for each member, which asks for the classes on its path. Digits are
//! several nodes that share their places, of which all but one are good. Ways
//! are a node at which every member has what it asks for at each place, each
//! time by another of its nodes. So all trials pass, trial by trial through
//! another member or in another way. Where some leaf is to fail, its member
//! asks for a good digit besides: a trial fails only where all digits are at
//! places that are not good and the deciders are on the leaf's path.

use super::plan::{OutlineRow, Plan, SelectionRow};
use super::prng::Prng;
use crate::records::SET_SELECTIONS;

const ROOT: u16 = 1;
const ANY: u16 = 0;
const CHILD: u16 = 0;
const DESCENDANT: u16 = 1;
const STRONG: u16 = 1;

/// The place that is not good, and the topmost good one.
const BAD: u16 = 3;
const GOOD: u16 = 4;
/// The parent of the ways, and the label asked for there.
const WAYS: u16 = 5;
const KEY: u16 = 6;
/// From these on: the digits' parents, deciders, further good places, ways, what
/// is on the way from these to the label asked for, and eight classes for each
/// decider.
const DIGITS: u16 = 7;
const DECIDER: u16 = 30;
const FURTHER: u16 = 100;
const WAY: u16 = 200;
const BETWEEN: u16 = 210;
const CLASS: u16 = 300;

const OUTLINE_MOST: usize = 64;
const SELECTION_MOST: usize = 16;

/// Labels from a first one on.
fn label(from: u16, number: usize) -> u16 {
    from + number as u16
}

/// A decider and one of its classes.
type Turn = (usize, usize);

/// The label above all places of a class.
fn class_label((decider, class): Turn) -> u16 {
    label(CLASS, SET_SELECTIONS * decider + class)
}

#[derive(Clone, Debug)]
enum Slot {
    Digits {
        count: usize,
        width: usize,
        bad: usize,
    },
    /// The class of each place.
    Decider {
        number: usize,
        classes: Vec<usize>,
    },
    Ways {
        count: usize,
    },
}

impl Slot {
    /// How many placements its nodes have.
    fn placements(&self) -> u64 {
        match self {
            Slot::Digits { count, width, .. } => (*width as u64).pow(*count as u32),
            Slot::Decider { classes, .. } => classes.len() as u64,
            Slot::Ways { count } => *count as u64,
        }
    }

    /// Which of these is the earliest on the path that fails, counted from 0.
    fn failing(&self, path: &[Turn]) -> u64 {
        match self {
            Slot::Digits { count, width, bad } => {
                (0..*count).fold(0, |rank, _| rank * *width as u64 + *bad as u64)
            }
            Slot::Decider { number, classes } => {
                let turn = path.iter().find(|turn| turn.0 == *number);
                let place = turn.and_then(|turn| classes.iter().position(|&c| c == turn.1));
                place.unwrap_or(0) as u64
            }
            Slot::Ways { .. } => 0,
        }
    }
}

#[derive(Clone, Debug)]
pub struct Turns {
    /// In the first selection's table order.
    slots: Vec<Slot>,
    /// The path to each leaf.
    leaves: Vec<Vec<Turn>>,
    /// The leaf that fails without a good digit.
    fails: Option<usize>,
    /// Whether one more member has every trial with a certain good digit.
    whole: bool,
    /// How many deciders hold a position, besides the root.
    held: usize,
}

impl Turns {
    /// How many placements there are.
    pub fn total(&self) -> u64 {
        self.slots.iter().map(Slot::placements).product()
    }

    /// The rank of the first trial that fails, from 1.
    pub fn rank(&self) -> Option<u64> {
        let path = &self.leaves[self.fails?];
        let step = |rank, slot: &Slot| rank * slot.placements() + slot.failing(path);
        Some(1 + self.slots.iter().fold(0, step))
    }

    /// The same, with no trial that fails.
    pub fn passing(&self) -> Turns {
        Turns {
            fails: None,
            ..self.clone()
        }
    }

    /// A leaf asks for one class less: what passed still does, and some of it
    /// through several members.
    pub fn widened(mut self, prng: &mut Prng) -> Turns {
        let leaf = prng.below(self.leaves.len());
        let path = &mut self.leaves[leaf];
        if !path.is_empty() {
            path.remove(prng.below(path.len()));
        }
        self
    }

    /// A leaf asks for another class of a decider: where trials fail then, only
    /// judging tells.
    pub fn crossed(mut self, prng: &mut Prng) -> Turns {
        let leaf = prng.below(self.leaves.len());
        let place = prng.below(self.leaves[leaf].len());
        if let Some(turn) = self.leaves[leaf].get_mut(place) {
            let classes = self.slots.iter().filter_map(|slot| match slot {
                Slot::Decider { number, classes } if *number == turn.0 => Some(classes),
                _ => None,
            });
            let classes: Vec<usize> = classes.flatten().copied().collect();
            turn.1 = prng.one_of(&classes).copied().unwrap_or(turn.1);
        }
        self
    }

    pub fn plan(&self) -> Plan {
        let mut tables = Tables::new(self);
        for slot in &self.slots {
            tables.slot(slot);
        }
        let mut set: Vec<_> = (0..self.leaves.len())
            .map(|leaf| self.member(leaf))
            .collect();
        if self.whole {
            let mut member = Member::new(self, &[]);
            member.below(0, FURTHER, DESCENDANT);
            set.push(member.rows);
        }
        Plan {
            outline: tables.outline,
            first: tables.first,
            set,
            ..Plan::default()
        }
    }

    fn member(&self, leaf: usize) -> Vec<SelectionRow> {
        let mut member = Member::new(self, &self.leaves[leaf]);
        if self.fails == Some(leaf) {
            member.below(0, GOOD, DESCENDANT);
        }
        if self
            .slots
            .iter()
            .any(|slot| matches!(slot, Slot::Ways { .. }))
        {
            let above = member.below(0, ANY, DESCENDANT);
            member.below(above, KEY, CHILD);
        }
        member.rows
    }

    /// The position that a decider holds, or 0.
    fn position(&self, decider: usize) -> u16 {
        if decider < self.held {
            decider as u16 + 2
        } else {
            0
        }
    }

    fn fits(&self) -> bool {
        let plan = self.plan();
        let longest = plan.set.iter().map(Vec::len).max();
        plan.outline.len() <= OUTLINE_MOST
            && plan.first.len() <= SELECTION_MOST
            && longest.is_some_and(|rows| rows <= SELECTION_MOST)
            && plan.set.len() <= SET_SELECTIONS
    }
}

/// A member being built.
struct Member {
    rows: Vec<SelectionRow>,
}

impl Member {
    /// The root, the classes on the path, and the deciders that hold positions.
    fn new(turns: &Turns, path: &[Turn]) -> Member {
        let mut member = Member {
            rows: vec![[0, ROOT, CHILD, 1, 0]],
        };
        for &turn in path {
            let above = member.below(0, class_label(turn), CHILD);
            member.holder(turns, above, turn.0);
        }
        for decider in 0..turns.held {
            if path.iter().all(|turn| turn.0 != decider) {
                member.holder(turns, 0, decider);
            }
        }
        member
    }

    /// A decider that holds a position.
    fn holder(&mut self, turns: &Turns, above: u16, decider: usize) {
        let position = turns.position(decider);
        if position != 0 {
            let row = self.below(above, label(DECIDER, decider), DESCENDANT);
            self.rows[usize::from(row)][3] = position;
        }
    }

    /// One more node, and its number.
    fn below(&mut self, parent: u16, label: u16, edge: u16) -> u16 {
        self.rows.push([parent, label, edge, 0, 0]);
        self.rows.len() as u16 - 1
    }
}

/// The outline and the first selection being built.
struct Tables<'a> {
    turns: &'a Turns,
    outline: Vec<OutlineRow>,
    first: Vec<SelectionRow>,
    /// How many groups of digits there are so far.
    groups: usize,
}

impl Tables<'_> {
    fn new(turns: &Turns) -> Tables<'_> {
        Tables {
            turns,
            outline: vec![[0, ROOT, 0]],
            first: vec![[0, ROOT, CHILD, 1, 0]],
            groups: 0,
        }
    }

    fn slot(&mut self, slot: &Slot) {
        match slot {
            Slot::Digits { count, width, bad } => self.digits(*count, *width, *bad),
            Slot::Decider { number, classes } => self.decider(*number, classes),
            Slot::Ways { count } => self.ways(*count),
        }
    }

    /// A node whose child that is not good is the place numbered `bad`; the
    /// other child is good, and all below it.
    fn digits(&mut self, count: usize, width: usize, bad: usize) {
        let parent = label(DIGITS, self.groups);
        self.groups += 1;
        let at = self.place(0, parent, 0);
        let (mut top, mut further) = (None, FURTHER..);
        for place in 0..width {
            let (above, own) = match top {
                _ if place == bad => (at, BAD),
                None => (at, GOOD),
                Some(top) => (top, further.next().unwrap_or(FURTHER)),
            };
            let number = self.place(above, own, 0);
            if own == GOOD {
                top = Some(number);
            }
        }
        let above = self.first.len() as u16;
        self.first.push([0, parent, CHILD, 0, 0]);
        self.first
            .extend(std::iter::repeat_n([above, ANY, DESCENDANT, 0, 0], count));
    }

    /// Below a node for each class its places, one below another.
    fn decider(&mut self, number: usize, classes: &[usize]) {
        let own = label(DECIDER, number);
        let mut lowest: Vec<u16> = (0..SET_SELECTIONS)
            .take_while(|class| classes.contains(class))
            .map(|class| self.place(0, class_label((number, class)), 0))
            .collect();
        for &class in classes {
            lowest[class] = self.place(lowest[class], own, 0);
        }
        let position = self.turns.position(number);
        self.first.push([0, own, DESCENDANT, position, 0]);
    }

    /// Below x, first the label asked for, then places that have it further
    /// and further down by strong edges.
    fn ways(&mut self, count: usize) {
        let x = self.place(0, WAYS, 0);
        self.place(x, KEY, 0);
        let places: Vec<u16> = (1..count)
            .map(|way| self.place(x, label(WAY, way), 0))
            .collect();
        for (between, &place) in places.iter().enumerate() {
            let mut at = place;
            for step in 0..between {
                at = self.place(at, label(BETWEEN, step), STRONG);
            }
            self.place(at, KEY, STRONG);
        }
        let above = self.first.len() as u16;
        self.first
            .extend([[0, WAYS, CHILD, 0, 0], [above, ANY, CHILD, 0, 0]]);
    }

    /// One more outline node, and its number.
    fn place(&mut self, parent: u16, label: u16, strong: u16) -> u16 {
        self.outline.push([parent, label, strong]);
        self.outline.len() as u16 - 1
    }
}

/// Where the first trial that fails is to stand.
#[derive(Clone, Copy, Debug, PartialEq, Eq)]
pub enum Rank {
    /// The first of all, of at least so many.
    One(u64),
    /// Neither in the first quarter nor in the last, of at most so many and at
    /// least half as many.
    Middle(u64),
    /// Exactly there: the last of a block of 1,000,000 or the first after it.
    Limit,
    PastLimit,
}

const LIMIT: u64 = 1_000_000;

/// Most draws come out within a few hundred tries.
const TRIES: usize = 100_000;

/// A decision tree with so many members, and the rank that fails.
pub fn turns(prng: &mut Prng, members: usize, rank: Rank) -> Turns {
    let mut drawn = || {
        let tree = Tree::drawn(prng, members);
        let turns = match rank {
            Rank::Limit | Rank::PastLimit => tree.at_limit(prng, rank == Rank::PastLimit)?,
            Rank::One(_) => tree.anywhere(prng, true),
            Rank::Middle(_) => tree.anywhere(prng, false),
        };
        (suits(&turns, rank) && turns.fits()).then_some(turns)
    };
    (0..TRIES)
        .find_map(|_| drawn())
        .expect("some draw comes out")
}

fn suits(turns: &Turns, rank: Rank) -> bool {
    let total = turns.total();
    let first = turns.rank().unwrap_or(0);
    match rank {
        Rank::One(least) => total >= least && first == 1,
        Rank::Middle(most) => {
            let middle = total / 4..total - total / 4;
            (most / 2..=most).contains(&total) && middle.contains(&first)
        }
        Rank::Limit => first == LIMIT,
        Rank::PastLimit => first == LIMIT + 1,
    }
}

/// A decision tree, and which of its leaves fails.
struct Tree {
    /// How many classes each decider has.
    deciders: Vec<usize>,
    leaves: Vec<Vec<Turn>>,
    fails: usize,
    whole: bool,
}

impl Tree {
    fn drawn(prng: &mut Prng, members: usize) -> Tree {
        let whole = members > 2 && prng.percent(25);
        let wanted = members - usize::from(whole);
        let mut tree = Tree {
            deciders: Vec::new(),
            leaves: vec![Vec::new()],
            fails: 0,
            whole,
        };
        let (flat, list) = (prng.percent(25), prng.percent(25));
        while tree.leaves.len() < wanted {
            let missing = wanted - tree.leaves.len();
            let leaf = if list {
                tree.leaves.len() - 1
            } else {
                prng.below(tree.leaves.len())
            };
            let classes = if flat { missing + 1 } else { 2 + prng.below(2) };
            tree.split(prng, leaf, classes.min(missing + 1));
        }
        prng.shuffle(&mut tree.leaves);
        tree.fails = prng.below(wanted);
        tree
    }

    /// Decides at a leaf, by a decider that is not on its path; now and then
    /// by one that decides elsewhere too.
    fn split(&mut self, prng: &mut Prng, leaf: usize, classes: usize) {
        let path = self.leaves.remove(leaf);
        let free = |&number: &usize| {
            self.deciders[number] == classes && path.iter().all(|turn| turn.0 != number)
        };
        let known: Vec<usize> = (0..self.deciders.len()).filter(free).collect();
        let chosen = if prng.percent(60) {
            prng.one_of(&known).copied()
        } else {
            None
        };
        let number = chosen.unwrap_or_else(|| {
            self.deciders.push(classes);
            self.deciders.len() - 1
        });
        for class in 0..classes {
            let mut longer = path.clone();
            longer.push((number, class));
            self.leaves.push(longer);
        }
    }

    /// The class of a decider on the failing leaf's path.
    fn failing_class(&self, number: usize) -> Option<usize> {
        let path = &self.leaves[self.fails];
        path.iter().find(|turn| turn.0 == number).map(|turn| turn.1)
    }

    /// A decider with so many places; where it is on the failing path, the one
    /// numbered `failing` has that class, and no other.
    fn decider(&self, prng: &mut Prng, number: usize, places: usize, failing: usize) -> Slot {
        let on_path = self.failing_class(number);
        let others: Vec<usize> = (0..self.deciders[number])
            .filter(|&class| Some(class) != on_path)
            .collect();
        let count = places - usize::from(on_path.is_some());
        let mut classes: Vec<usize> = others.iter().copied().cycle().take(count).collect();
        prng.shuffle(&mut classes);
        if let Some(class) = on_path {
            classes.insert(failing, class);
        }
        Slot::Decider { number, classes }
    }

    /// Deciders that are not on the failing path, with few places.
    fn idle(&self, prng: &mut Prng) -> Vec<Slot> {
        let idle = (0..self.deciders.len()).filter(|&number| self.failing_class(number).is_none());
        idle.map(|number| self.decider(prng, number, self.deciders[number], 0))
            .collect()
    }

    /// The deciders on the failing path.
    fn busy(&self) -> Vec<usize> {
        let path = &self.leaves[self.fails];
        path.iter().map(|turn| turn.0).collect()
    }

    fn turns(self, prng: &mut Prng, slots: Vec<Slot>) -> Turns {
        let held = prng.below(self.deciders.len().min(7) + 1);
        Turns {
            slots,
            leaves: self.leaves,
            fails: Some(self.fails),
            whole: self.whole,
            held: if prng.percent(50) { held } else { 0 },
        }
    }

    /// Slots in any order with few places each.
    fn anywhere(self, prng: &mut Prng, first: bool) -> Turns {
        let failing = |prng: &mut Prng, places| if first { 0 } else { prng.below(places) };
        let mut slots = self.idle(prng);
        for number in self.busy() {
            let places = self.deciders[number] + prng.below(4);
            let place = failing(prng, places);
            slots.push(self.decider(prng, number, places, place));
        }
        let (count, width) = (prng.between(2, 6), prng.between(2, 10));
        let bad = failing(prng, width);
        slots.push(Slot::Digits { count, width, bad });
        if self.has_ways(prng) {
            let count = prng.between(2, 3);
            slots.push(Slot::Ways { count });
        }
        prng.shuffle(&mut slots);
        self.turns(prng, slots)
    }

    /// A single member can't pass by turns otherwise.
    fn has_ways(&self, prng: &mut Prng) -> bool {
        self.leaves.len() == 1 || prng.percent(20)
    }

    /// What leads has e places before its failing one, and so many times as
    /// many placements follow each that e times these are 1,000,000. At the
    /// place before, the last of these fails; at this one the first. What is
    /// always at its first place stands before all that. `None` where the
    /// numbers drawn don't come out.
    fn at_limit(self, prng: &mut Prng, past: bool) -> Option<Turns> {
        let &(width, count) = prng.one_of(&SHARED)?;
        let ways = self.has_ways(prng).then_some(Slot::Ways { count: 2 });
        let ways_follow = past && ways.is_some() && prng.percent(50);
        let follow = (width as u64).pow(count as u32) * if ways_follow { 2 } else { 1 };
        let busy = self.busy();
        let factors = factors(prng, LIMIT, follow, busy.len().max(1))?;
        let mut before = self.idle(prng);
        let bad = if past { 0 } else { width - 1 };
        let mut after = vec![Slot::Digits { count, width, bad }];
        for (&number, &places) in busy.iter().zip(&factors).skip(1) {
            let failing = if past { 0 } else { places - 1 };
            if places < self.deciders[number] {
                return None;
            }
            after.push(self.decider(prng, number, places, failing));
        }
        if ways_follow { &mut after } else { &mut before }.extend(ways);
        prng.shuffle(&mut before);
        prng.shuffle(&mut after);
        let failing = factors[0] - usize::from(!past);
        before.push(self.leading(prng, failing));
        before.extend(after);
        Some(self.turns(prng, before))
    }

    /// The first decider on the failing path, or a digit, failing at one place.
    fn leading(&self, prng: &mut Prng, failing: usize) -> Slot {
        let width = failing + 1 + prng.below(3);
        match self.busy().first() {
            Some(&number) => self.decider(prng, number, width.max(self.deciders[number]), failing),
            None => Slot::Digits {
                count: 1,
                width: width.max(2),
                bad: failing,
            },
        }
    }
}

/// Digits that share places, how many places and digits: their placements
/// divide 1,000,000.
const SHARED: [(usize, usize); 12] = [
    (10, 5),
    (50, 3),
    (25, 3),
    (20, 3),
    (10, 4),
    (10, 3),
    (5, 6),
    (5, 5),
    (5, 4),
    (25, 2),
    (4, 3),
    (8, 2),
];

/// So many factors, from 2 to 25, of one number divided by another.
fn factors(prng: &mut Prng, number: u64, by: u64, count: usize) -> Option<Vec<usize>> {
    let allowed = 2..=25u64;
    let mut left = number / by;
    if left * by != number {
        return None;
    }
    let mut drawn = Vec::new();
    for _ in 1..count {
        let divisors: Vec<u64> = allowed.clone().filter(|d| left % d == 0).collect();
        let &divisor = prng.one_of(&divisors)?;
        left /= divisor;
        drawn.push(divisor as usize);
    }
    drawn.push(left as usize);
    allowed.contains(&left).then_some(drawn)
}

#[cfg(test)]
mod tests {
    use super::*;
    use crate::calls::{INCLUDED, NOT_INCLUDED, STOPPED};

    fn judged(plan: &Plan, limit: u64) -> (u64, u64) {
        let got = plan.judged(limit);
        assert_eq!(got.refused, 0);
        (got.kind, got.tried)
    }

    fn each(rank: Rank, mut test: impl FnMut(usize, Turns)) {
        let mut prng = Prng::new(7);
        for members in (1..=SET_SELECTIONS).cycle().take(64) {
            test(members, turns(&mut prng, members, rank));
        }
    }

    #[test]
    fn the_first_failure_has_the_rank_that_was_chosen() {
        each(Rank::Middle(600), |members, turns| {
            let plan = turns.plan();
            let rank = turns.rank().unwrap();
            assert_eq!(plan.set.len(), members);
            assert_eq!(judged(&plan, LIMIT), (NOT_INCLUDED, rank));
            assert_eq!(judged(&plan, rank), (NOT_INCLUDED, rank));
            assert_eq!(judged(&plan, rank - 1), (STOPPED, rank - 1));
        });
        each(Rank::One(10_000), |_, turns| {
            assert_eq!(judged(&turns.plan(), LIMIT), (NOT_INCLUDED, 1));
        });
    }

    #[test]
    fn without_a_failure_all_pass_and_through_no_fewer_members() {
        each(Rank::Middle(600), |_, turns| {
            let passing = turns.passing();
            let (total, mut plan) = (passing.total(), passing.plan());
            assert_eq!(judged(&plan, total), (INCLUDED, total));
            assert_eq!(judged(&plan, total - 1), (STOPPED, total - 1));
            plan.set.truncate(passing.leaves.len());
            for leaf in 0..plan.set.len() {
                let mut fewer = plan.clone();
                fewer.set.remove(leaf);
                let kind = if fewer.set.is_empty() {
                    None
                } else {
                    Some(judged(&fewer, LIMIT).0)
                };
                assert_eq!(kind.unwrap_or(NOT_INCLUDED), NOT_INCLUDED);
            }
        });
    }

    #[test]
    fn wider_leaves_pass_what_passed() {
        let mut prng = Prng::new(8);
        each(Rank::Middle(600), |_, turns| {
            let wider = turns.passing().widened(&mut prng);
            let total = wider.total();
            assert_eq!(judged(&wider.plan(), total), (INCLUDED, total));
        });
    }

    #[test]
    fn crossed_leaves_fail_now_and_then() {
        let mut prng = Prng::new(9);
        let mut failed = 0;
        each(Rank::Middle(600), |_, turns| {
            let crossed = turns.passing().crossed(&mut prng);
            let (kind, _) = judged(&crossed.plan(), LIMIT);
            failed += u32::from(kind == NOT_INCLUDED);
        });
        assert!((10..60).contains(&failed), "{failed}");
    }

    /// Judging these takes too long here; `tests/compare` does.
    #[test]
    fn the_limit_is_met_exactly() {
        each(Rank::Limit, |members, turns| {
            assert_eq!(turns.rank(), Some(LIMIT));
            assert_eq!(turns.plan().set.len(), members);
        });
        each(Rank::PastLimit, |members, turns| {
            assert!(turns.total() > LIMIT);
            assert_eq!(turns.rank(), Some(LIMIT + 1));
            assert_eq!(turns.plan().set.len(), members);
        });
    }
}
