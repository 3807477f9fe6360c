//! Changes to a plan: those that break one question, and those that move a
//! number to a bound where it is still accepted.

use super::callers;
use super::figures::{OF_SELECTION, OF_VOLUME};
use super::plan::{least_length, questions, Form, Plan, SelectionRow, VOLUME_FIGURE};
use crate::calls::TALLY_MOST;
use crate::records::{
    CASE_BYTES, FIGURE_MOST, OUTLINE_NODES, SELECTION_NODES, SET_SELECTIONS, VOLUME_NODES,
};
use crate::vectors::{IS_RESULT, LAYOUT, NODES_AT, UPGRADE};

/// `question` is the one that the change breaks, 0 where it breaks none. A
/// change that does not find what it would alter leaves the plan alone.
pub struct Change {
    pub question: u64,
    calls: Calls,
    pub apply: Box<dyn Fn(&mut Plan)>,
}

/// The calls that a change is for, of those that ask its question.
#[derive(Clone, Copy)]
enum Calls {
    All,
    /// Those on cases with a set: all but `upgrade`, which takes the old form.
    WithSet,
    Only(u32),
}

impl Change {
    /// Whether the call asks the question, or takes what is altered.
    pub fn concerns(&self, call: u32) -> bool {
        let asked = self.question == 0 || questions(call).contains(&self.question);
        let meant = match self.calls {
            Calls::All => true,
            Calls::WithSet => call != UPGRADE,
            Calls::Only(only) => only == call,
        };
        asked && meant
    }

    fn with_set(self) -> Change {
        Change {
            calls: Calls::WithSet,
            ..self
        }
    }
}

fn change(question: u64, apply: impl Fn(&mut Plan) + 'static) -> Change {
    Change {
        question,
        calls: Calls::All,
        apply: Box::new(apply),
    }
}

fn change_of(call: u32, question: u64, apply: impl Fn(&mut Plan) + 'static) -> Change {
    Change {
        calls: Calls::Only(call),
        ..change(question, apply)
    }
}

/// The first selection; any other number is that member's.
const FIRST: usize = 0;
/// The last member, or the last record, so that a check that ends early is
/// caught.
const LAST: usize = usize::MAX;

/// The first selection or a member; a set that is too short for it is filled up.
fn selection_mut(plan: &mut Plan, which: usize) -> &mut Vec<SelectionRow> {
    if which == FIRST {
        return &mut plan.first;
    }
    let number = if which == LAST {
        plan.set.len().max(1)
    } else {
        which
    };
    if plan.set.len() < number {
        plan.resize_set(number);
    }
    &mut plan.set[number - 1]
}

/// The changes that are also made in pairs, small ones only: each vector stays
/// short.
pub fn changes() -> Vec<Change> {
    let mut all = numbers();
    all.extend(case_bytes());
    all.extend(counts());
    all.extend(sets().into_iter().map(Change::with_set));
    all.extend(old_sections());
    all.extend(outline_records());
    for which in [FIRST, LAST] {
        all.extend(selection_counts(which));
        all.extend(selection_records(which));
        all.extend(selection_figures(which).into_iter().map(Change::with_set));
        all.extend(positions(which));
    }
    all.extend(common_positions());
    all.extend(volumes());
    all.extend(volume_figures());
    all.extend(lists());
    all.extend(callers());
    all
}

/// Small changes that are made singly only: they are much like others.
pub fn lone_changes() -> Vec<Change> {
    const MIDDLE: usize = 2;
    let mut all = more_sets();
    all.extend(selection_counts(MIDDLE));
    all.extend(selection_records(MIDDLE));
    all.extend(positions(MIDDLE));
    for which in FIRST..=SET_SELECTIONS {
        all.extend(more_broken_figures(which));
    }
    for which in [FIRST, MIDDLE, LAST] {
        all.extend(accepted_figures(which));
    }
    let mut all: Vec<Change> = all.into_iter().map(Change::with_set).collect();
    all.extend(more_volume_figures());
    all.push(change(2, |plan| plan.length = 1));
    // As much as was enough before there were figures.
    all.push(change(2, |plan| plan.length = least_length(plan.call) / 2));
    all.push(change(3, |plan| plan.form = Form::Narrow).with_set());
    all.push(change(10, |plan| plan.narrow_volume = true));
    all
}

/// Questions 1, 2, 9 and 12: limits, lengths, tallies, selections, positions.
fn numbers() -> Vec<Change> {
    let mut all = Vec::new();
    for limit in [0, 1_000_001, 1 << 32, (1 << 32) + 1, u64::MAX] {
        all.push(change(1, move |plan| plan.limit = limit));
    }
    for limit in [1, 2, 999_999, 1_000_000] {
        all.push(change(0, move |plan| plan.limit = limit));
    }
    all.push(change(2, |plan| plan.length = least_length(plan.call) - 1));
    all.push(change(2, |plan| plan.length = 0));
    all.push(change(0, |plan| plan.length += 1));
    all.push(change(0, |plan| plan.length *= 2));
    all.extend(tallies());
    for selection in [0, 257, 65_537, (1 << 32) + 1, u64::MAX] {
        all.push(change(12, move |plan| plan.selection = selection));
    }
    all.push(change(12, |plan| {
        plan.selection = plan.last_selection() + 1
    }));
    for position in [0, 9, 257, 65_537, (1 << 32) + 1, u64::MAX] {
        all.push(change_of(NODES_AT, 12, move |plan| {
            plan.position = position
        }));
    }
    all.push(change_of(NODES_AT, 12, |plan| {
        plan.position = plan.positions() + 1
    }));
    all.push(change_of(NODES_AT, 0, |plan| plan.position = 1));
    all.push(change_of(NODES_AT, 0, |plan| {
        plan.position = plan.positions()
    }));
    for selection in [1, 2] {
        all.push(change(0, move |plan| plan.selection = selection));
    }
    all.push(change(0, |plan| plan.selection = plan.last_selection()));
    all
}

/// Question 9, and the greatest tallies that it lets pass.
pub fn tallies() -> Vec<Change> {
    let mut all = Vec::new();
    for over in [1, 2, 1_000_000] {
        all.push(change(9, move |plan| {
            plan.tally = TALLY_MOST.saturating_sub(plan.room_asked()) + over
        }));
    }
    all.push(change(9, |plan| plan.tally = u64::MAX));
    all.push(change(9, |plan| plan.tally = u64::MAX - plan.room_asked()));
    // The sum, cut to 64 bits, is 0.
    all.push(change(9, |plan| {
        plan.tally = (u64::MAX - plan.room_asked()).wrapping_add(1)
    }));
    for under in [0, 1] {
        all.push(change(0, move |plan| {
            plan.tally = TALLY_MOST.saturating_sub(plan.room_asked().saturating_add(under))
        }));
    }
    all
}

/// Question 16.
fn callers() -> Vec<Change> {
    let one = |caller| change(16, move |plan| plan.caller = caller);
    callers::REFUSED.map(one).into()
}

/// Question 3.
fn case_bytes() -> Vec<Change> {
    vec![
        change(3, |plan| plan.case_ending.cut = usize::MAX),
        change(3, |plan| plan.case_ending.cut = 1),
        change(3, |plan| plan.case_ending.cut = 2),
        change(3, |plan| plan.case_ending.cut = plan.record_bytes()),
        change(3, |plan| plan.case_ending.after = vec![0]),
        change(3, |plan| plan.case_ending.after = vec![0, 0]),
        change(3, |plan| {
            plan.case_ending.after = vec![1; plan.record_bytes()]
        }),
        change(3, |plan| announce_last(plan, 1)),
        change(3, |plan| announce_last(plan, u16::MAX)),
        change(3, |plan| plan.excess.outline = 40_000),
        change(3, |plan| plan.excess.first = 40_000),
        change(3, |plan| plan.excess.set = 1).with_set(),
    ]
}

/// Question 3 in the old form, which has a second selection and nothing after.
fn old_sections() -> Vec<Change> {
    vec![
        change_of(UPGRADE, 3, |plan| plan.set.clear()),
        change_of(UPGRADE, 3, |plan| plan.resize_set(2)),
        change_of(UPGRADE, 3, |plan| plan.set.push(vec![])),
        change_of(UPGRADE, 3, |plan| plan.form = Form::Narrow),
        change_of(UPGRADE, 3, |plan| plan.form = Form::Today),
    ]
}

/// Another count at the last member, where one is put if there is none.
fn announce_last(plan: &mut Plan, more: u16) {
    selection_mut(plan, LAST);
    plan.excess.last_member = more;
}

/// Questions 3, 4 and 14 at 65,536 bytes: long vectors, so kept apart.
pub fn long_changes() -> Vec<Change> {
    vec![
        // Whole and not too long.
        change(4, |plan| long_case(plan, 0)),
        change(3, |plan| {
            long_case(plan, 0);
            plan.case_ending.after = vec![0];
        }),
        // Whole but two bytes too long.
        change(3, |plan| long_case(plan, 2)),
        // As many empty members as there is room for.
        change(4, |plan| fill_set(plan, 2, &[])).with_set(),
        change(3, |plan| {
            fill_set(plan, 2, &[]);
            plan.set.push(vec![]);
        })
        .with_set(),
        change(3, |plan| {
            fill_set(plan, 2, &[]);
            plan.excess.set = 1;
        })
        .with_set(),
        // As many members of one node; a low byte of 1 is not a set of one.
        change(14, |plan| fill_set(plan, 12, &[[0, 0, 0, 1, 0]])),
        change(14, |plan| plan.set = vec![vec![[0, 0, 0, 1, 0]]; 257]),
        change(3, |plan| fill_case(plan, CASE_BYTES)),
        change(3, |plan| fill_case(plan, CASE_BYTES + 1)),
        // The second selection is the long one.
        change_of(UPGRADE, 4, long_second),
        change_of(UPGRADE, 3, |plan| {
            long_second(plan);
            plan.case_ending.after = vec![0];
        }),
    ]
}

/// An old case of 65,536 bytes, most of them the second selection's.
fn long_second(plan: &mut Plan) {
    long_case(plan, 0);
    plan.set = vec![std::mem::take(&mut plan.first)];
}

/// Members all alike, of so many bytes each, as far as 65,536 bytes go.
fn fill_set(plan: &mut Plan, bytes: usize, member: &[SelectionRow]) {
    let first = plan.record_bytes() * plan.first.len();
    let room = CASE_BYTES - 6 - 6 * plan.outline.len() - first;
    plan.set = vec![member.to_vec(); room / bytes];
}

/// A case of 65,536 bytes and so many more: three counts, a few outline records,
/// and a first selection that fills it up.
fn long_case(plan: &mut Plan, more: usize) {
    let room = CASE_BYTES + more - 6;
    let rest = |outline: &usize| (room - 6 * outline) % plan.record_bytes();
    let outline = (2..).find(|outline| rest(outline) == 0).unwrap_or(2);
    let first = (room - 6 * outline) / plan.record_bytes();
    plan.outline.resize(outline, [0, 77, 0]);
    plan.first.resize(first, [0, 0, 0, 0, 0]);
    end_in_0(plan);
}

/// The count 0 is the last: the set's or, in the old form, the second
/// selection's.
fn end_in_0(plan: &mut Plan) {
    plan.set.clear();
    if plan.form == Form::Old {
        plan.set.push(vec![]);
    }
}

/// The case as it is, with zeros after it up to a length.
fn fill_case(plan: &mut Plan, length: usize) {
    plan.case_ending = Default::default();
    let more = length.saturating_sub(plan.case_bytes().len());
    plan.case_ending.after = vec![0; more];
}

/// Question 4 about the outline and about all sections.
fn counts() -> Vec<Change> {
    vec![
        change(4, |plan| plan.outline.clear()),
        change(4, |plan| grow_outline(plan, OUTLINE_NODES + 1)),
        change(4, |plan| {
            plan.outline.clear();
            plan.first.clear();
            end_in_0(plan);
        }),
        change(0, |plan| grow_outline(plan, OUTLINE_NODES)),
    ]
}

/// Question 4 about one selection.
fn selection_counts(which: usize) -> Vec<Change> {
    vec![
        change(4, move |plan| selection_mut(plan, which).clear()),
        change(4, move |plan| {
            grow_selection(plan, which, SELECTION_NODES + 1)
        }),
        change(0, move |plan| grow_selection(plan, which, SELECTION_NODES)),
    ]
}

/// Questions 14 and 15, as far as they are about the set, and the questions 3 and 4
/// that come before 14.
fn sets() -> Vec<Change> {
    vec![
        change(14, |plan| plan.set.clear()),
        change(14, |plan| plan.resize_set(SET_SELECTIONS + 1)),
        change(15, |plan| plan.resize_set(2)),
        change(15, |plan| plan.set.push(plan.first.clone())),
        change(15, |plan| plan.resize_set(SET_SELECTIONS)),
        change(15, |plan| ask_one(plan, FIRST)),
        change(15, |plan| ask_one(plan, LAST)),
        change(4, |plan| {
            plan.resize_set(SET_SELECTIONS);
            plan.set.push(vec![]);
        }),
        change(4, |plan| {
            plan.set.clear();
            grow_outline(plan, OUTLINE_NODES + 1);
        }),
        // Nine announced and eight whole; eight announced and nine whole.
        change(3, |plan| {
            plan.resize_set(SET_SELECTIONS);
            plan.excess.set = 1;
        }),
        change(3, |plan| {
            plan.resize_set(SET_SELECTIONS + 1);
            plan.excess.set = u16::MAX;
        }),
        change(0, |plan| plan.resize_set(SET_SELECTIONS)),
    ]
}

/// The last node asks for the figure 1.
fn ask_one(plan: &mut Plan, which: usize) {
    if let Some(row) = selection_mut(plan, which).last_mut() {
        row[OF_SELECTION] = 1;
    }
}

/// The same with other counts, and sets that are accepted.
fn more_sets() -> Vec<Change> {
    let mut all = vec![
        change(14, |plan| plan.resize_set(2 * SET_SELECTIONS)),
        change(4, |plan| {
            plan.set.clear();
            plan.first.clear();
        }),
        change(4, |plan| {
            plan.resize_set(SET_SELECTIONS + 1);
            plan.set[0].clear();
        }),
        change(4, |plan| {
            plan.resize_set(SET_SELECTIONS + 1);
            grow_selection(plan, LAST, SELECTION_NODES + 1);
        }),
        change(4, |plan| {
            plan.resize_set(SET_SELECTIONS);
            grow_selection(plan, LAST, SELECTION_NODES + 1);
        }),
        // None is announced, and all are there.
        change(3, |plan| {
            plan.excess.set = (plan.set.len() as u16).wrapping_neg()
        }),
        change(3, |plan| plan.excess.set = 40_000),
        change(3, |plan| plan.excess.set = 256),
        change(0, |plan| plan.set.reverse()),
    ];
    for count in [1, 2, SET_SELECTIONS - 1] {
        all.push(change(0, move |plan| plan.resize_set(count)));
    }
    // The numbers on both sides of a set's greatest end.
    all.push(change(0, |plan| {
        plan.resize_set(SET_SELECTIONS);
        plan.selection = plan.last_selection();
    }));
    all.push(change(12, |plan| {
        plan.resize_set(SET_SELECTIONS);
        plan.selection = plan.last_selection() + 1;
    }));
    all
}

/// More children of the root, with labels that none of the plans use there.
fn grow_outline(plan: &mut Plan, size: usize) {
    for number in plan.outline.len()..size {
        plan.outline.push([0, 40_000 + number as u16, 0]);
    }
}

/// More nodes that fit wherever the root does, so that a placement of the
/// selection goes on, all of them at the first child of the outline's root.
fn grow_selection(plan: &mut Plan, which: usize, size: usize) {
    let rows = selection_mut(plan, which);
    let more = size.saturating_sub(rows.len());
    rows.extend(std::iter::repeat_n::<SelectionRow>([0, 0, 0, 0, 0], more));
    let number = if which == LAST {
        plan.last_selection()
    } else {
        which as u64 + 1
    };
    if plan.selection == number {
        let child = (1..plan.outline.len())
            .find(|&t| plan.outline[t][0] == 0)
            .unwrap_or(0);
        plan.placement
            .extend(std::iter::repeat_n(child as u16, more));
    }
}

/// One field of one record gets another value, for each (record, field,
/// value).
fn fields<const N: usize>(
    question: u64,
    rows: impl Fn(&mut Plan) -> &mut Vec<[u16; N]> + Copy + 'static,
    values: &[(usize, usize, u16)],
) -> Vec<Change> {
    let one = |&(record, field, value): &(usize, usize, u16)| {
        change(question, move |plan: &mut Plan| {
            let rows = rows(plan);
            let row = match record {
                LAST => rows.last_mut(),
                number => rows.get_mut(number),
            };
            if let Some(row) = row {
                row[field] = value;
            }
        })
    };
    values.iter().map(one).collect()
}

/// Question 5 and 6.
fn outline_records() -> Vec<Change> {
    let values = [
        (0, 0, 1),
        (0, 0, u16::MAX),
        (0, 1, 0),
        (0, 2, 1),
        (0, 2, 2),
        (1, 0, 1),
        (1, 0, 2),
        (2, 0, 2),
        (2, 0, u16::MAX),
        (1, 1, 0),
        (1, 2, 2),
        (2, 2, 256),
        (2, 2, u16::MAX),
        (LAST, 0, u16::MAX),
        (LAST, 1, 0),
        (LAST, 2, 2),
    ];
    let mut all = fields(5, |plan| &mut plan.outline, &values);
    all.push(change(6, |plan| {
        if let Some(&row) = plan.outline.get(1) {
            plan.outline.push(row);
        }
    }));
    all.push(change(6, |plan| {
        if let Some(&[parent, label, _]) = plan.outline.last() {
            plan.outline.push([parent, label, 1]);
        }
    }));
    all.push(change(0, |plan| {
        if let Some(row) = plan.outline.last_mut() {
            row[1] = u16::MAX;
        }
    }));
    all.push(change(0, |plan| {
        for row in plan.outline.iter_mut().skip(1) {
            row[2] = 1;
        }
    }));
    all
}

/// Question 7 in one selection. Labels there are free.
fn selection_records(which: usize) -> Vec<Change> {
    let broken = [
        (0, 0, 1),
        (0, 0, u16::MAX),
        (0, 2, 1),
        (0, 2, 2),
        (0, 3, 9),
        (1, 0, 1),
        (1, 0, 2),
        (1, 0, u16::MAX),
        (1, 2, 2),
        (1, 2, 256),
        (1, 3, 9),
        (1, 3, 256),
        (1, 3, u16::MAX),
    ];
    let last = [(LAST, 0, u16::MAX), (LAST, 2, 2), (LAST, 3, 9)];
    let all = [(7, &broken[..]), (0, &[(0, 1, 0)]), (7, &last)];
    all.into_iter()
        .flat_map(|(question, values)| {
            fields(question, move |plan| selection_mut(plan, which), values)
        })
        .collect()
}

/// Question 17 in one selection.
fn selection_figures(which: usize) -> Vec<Change> {
    let values = [(0, FIGURE_MOST + 1), (1, u16::MAX), (LAST, FIGURE_MOST + 1)];
    figures_of_selection(17, which, &values)
}

/// The same in other records and with other bits.
fn more_broken_figures(which: usize) -> Vec<Change> {
    let broken = [
        (0, u16::MAX),
        (1, FIGURE_MOST + 1),
        (1, FIGURE_MOST + 256),
        (2, 1 << 15),
        (LAST, u16::MAX),
    ];
    figures_of_selection(17, which, &broken)
}

/// Figures that are accepted, and question 15, which no figure but 0 passes.
fn accepted_figures(which: usize) -> Vec<Change> {
    let mut all = Vec::new();
    for question in [0, 15] {
        for figure in [1, 255, 256, FIGURE_MOST - 1, FIGURE_MOST] {
            let values = [(0, figure), (1, figure), (LAST, figure)];
            all.extend(figures_of_selection(question, which, &values));
        }
    }
    all.extend(figures_of_selection(0, which, &[(1, 0), (LAST, 0)]));
    all
}

/// For each (record, figure) a change.
fn figures_of_selection(question: u64, which: usize, values: &[(usize, u16)]) -> Vec<Change> {
    let values: Vec<(usize, usize, u16)> = values
        .iter()
        .map(|&(record, figure)| (record, OF_SELECTION, figure))
        .collect();
    fields(question, move |plan| selection_mut(plan, which), &values)
}

/// Question 8, broken in one selection.
fn positions(which: usize) -> Vec<Change> {
    let each = |question, renumber: fn(u16) -> u16| {
        change(question, move |plan: &mut Plan| {
            for row in selection_mut(plan, which) {
                row[3] = renumber(row[3]);
            }
        })
    };
    let mut all = vec![
        each(8, |_| 0),
        each(8, |p| if p == 1 { 0 } else { p }),
        each(8, |p| if p == 1 { 8 } else { p }),
        each(8, |p| if p == 2 || p == 1 { p + 1 } else { p }),
        each(8, |p| if p > 0 { 1 } else { 2 }),
        each(8, |p| {
            if p == 2 {
                1
            } else if p == 1 {
                3
            } else {
                p
            }
        }),
    ];
    // One more, or one fewer, than the other selections have.
    all.push(change(8, move |plan| {
        let rows = selection_mut(plan, which);
        let most = most_position(rows);
        match rows.iter_mut().find(|row| row[3] == 0) {
            Some(row) if most < 8 => row[3] = most + 1,
            _ => rows.iter_mut().for_each(|row| row[3] = 0),
        }
    }));
    all.push(change(8, move |plan| {
        let rows = selection_mut(plan, which);
        let most = most_position(rows);
        for row in rows.iter_mut().filter(|row| row[3] == most) {
            row[3] = 0;
        }
    }));
    all
}

fn most_position(rows: &[SelectionRow]) -> u16 {
    rows.iter().map(|row| row[3]).max().unwrap_or(0)
}

/// Question 8, broken alike in all selections.
fn common_positions() -> Vec<Change> {
    let each = |renumber: fn(u16) -> u16| {
        change(8, move |plan: &mut Plan| {
            let members = plan.set.iter_mut().flatten();
            for row in plan.first.iter_mut().chain(members) {
                row[3] = renumber(row[3]);
            }
        })
    };
    vec![
        each(|_| 0),
        each(|p| if p == 1 { 8 } else { p }),
        each(|p| if p == 1 { 2 } else { p }),
    ]
}

/// Question 10.
fn volumes() -> Vec<Change> {
    let field = |row: usize, field: usize, value: u16| {
        change(10, move |plan: &mut Plan| match plan.volume.get_mut(row) {
            Some(found) => found[field] = value,
            None => plan.volume.clear(),
        })
    };
    vec![
        change(10, |plan| plan.volume_ending.cut = usize::MAX),
        change(10, |plan| plan.volume_ending.cut = 1),
        change(10, |plan| plan.volume_ending.cut = 2),
        change(10, |plan| plan.volume_ending.cut = 6),
        change(10, |plan| plan.volume_ending.after = vec![0]),
        change(10, |plan| plan.volume_ending.after = vec![0, 0]),
        change(10, |plan| plan.volume_ending.after = vec![1; 6]),
        change(10, |plan| plan.excess.volume = 1),
        change(10, |plan| plan.excess.volume = u16::MAX),
        change(10, |plan| plan.volume.clear()),
        change(10, |plan| plan.volume.resize(VOLUME_NODES + 1, [0, 2, 0])),
        change(0, |plan| plan.volume.resize(VOLUME_NODES, [0, 2, 0])),
        field(0, 0, 1),
        field(0, 1, 0),
        field(1, 0, 1),
        field(1, 0, 2),
        field(1, 0, u16::MAX),
        field(2, 1, 0),
        change(10, |plan| {
            if let Some(row) = plan.volume.last_mut() {
                row[1] = 0;
            }
        }),
        change(10, |plan| {
            let count = plan.volume.len() as u16;
            if let Some(row) = plan.volume.last_mut() {
                row[0] = count;
            }
        }),
        change(0, |plan| {
            if let Some(row) = plan.volume.last_mut() {
                row[1] = u16::MAX;
            }
        }),
    ]
}

/// Question 17 about the volume.
fn volume_figures() -> Vec<Change> {
    let values = [(0, FIGURE_MOST + 1), (1, u16::MAX), (LAST, FIGURE_MOST + 1)];
    figures_of_volume(VOLUME_FIGURE, &values)
}

/// The same in other records and with other bits, and figures that are accepted.
fn more_volume_figures() -> Vec<Change> {
    let broken = [
        (0, u16::MAX),
        (1, FIGURE_MOST + 1),
        (2, FIGURE_MOST + 256),
        (2, 1 << 15),
        (LAST, u16::MAX),
    ];
    let mut all = figures_of_volume(VOLUME_FIGURE, &broken);
    for figure in [0, 1, 255, 256, FIGURE_MOST - 1, FIGURE_MOST] {
        let values = [(0, figure), (1, figure), (LAST, figure)];
        all.extend(figures_of_volume(0, &values));
        all.push(change(0, move |plan| {
            for row in &mut plan.volume {
                row[OF_VOLUME] = figure;
            }
        }));
    }
    all
}

/// For each (record, figure) a change.
fn figures_of_volume(question: u64, values: &[(usize, u16)]) -> Vec<Change> {
    let values: Vec<(usize, usize, u16)> = values
        .iter()
        .map(|&(record, figure)| (record, OF_VOLUME, figure))
        .collect();
    fields(question, |plan| &mut plan.volume, &values)
}

/// Question 11 or 13, as the call's list is a result or a placement.
fn lists() -> Vec<Change> {
    let mut all = Vec::new();
    for (question, call) in [(11, IS_RESULT), (13, LAYOUT)] {
        let on = move |apply: fn(&mut Plan)| change_of(call, question, apply);
        all.push(on(|plan| plan.list_mut().clear()));
        all.push(on(|plan| {
            plan.list_mut().pop();
        }));
        all.push(on(|plan| plan.list_mut().push(0)));
        all.push(on(|plan| plan.list_ending.cut = 1));
        all.push(on(|plan| plan.list_ending.after = vec![0]));
        all.push(on(|plan| {
            plan.list_mut()
                .iter_mut()
                .for_each(|field| *field = u16::MAX)
        }));
        all.push(on(|plan| {
            let bound = if plan.call == LAYOUT {
                plan.outline.len()
            } else {
                plan.volume.len()
            };
            if let Some(field) = plan.list_mut().last_mut() {
                *field = bound as u16;
            }
        }));
        all.push(on(|plan| {
            if let Some(field) = plan.list_mut().first_mut() {
                *field = 1_024;
            }
        }));
    }
    all.push(change(0, |plan| {
        let last = plan.volume.len().saturating_sub(1) as u16;
        plan.result.iter_mut().for_each(|field| *field = last);
    }));
    // A number that is a node's, but not where this selection node may go.
    all.push(change(13, |plan| {
        plan.placement.iter_mut().for_each(|field| *field = 1)
    }));
    all.push(change(13, |plan| {
        if let Some(field) = plan.placement.last_mut().filter(|field| **field != 0) {
            *field = 0;
        } else {
            plan.placement.push(0);
        }
    }));
    all
}
