//! Every boundary of every question, through all ten calls.

use super::callers;
use super::changes::{changes, lone_changes, long_changes, tallies, Change};
use super::layouts::layouts;
use super::normals;
use super::plan::{questions, Form, OutlineRow, Plan, SelectionRow, CALLS, MOVES, TALLIED};
use super::strikes;
use crate::calls::CALLERS;
use crate::records::{read_case, SET_SELECTIONS};
use crate::trials::each_placement;
use crate::vectors::{Vector, FITS, IS_RESULT, LAYOUT, NODES_AT};

pub fn boundaries() -> Vec<Vector> {
    let (small, lone, long) = (changes(), lone_changes(), long_changes());
    let mut out = Vec::new();
    for call in CALLS {
        out.extend(unbroken(call));
        for plan in [rich(), alone(), example(), most()] {
            out.extend(singly(call, &plan, &small));
            out.extend(singly(call, &plan, &lone));
        }
        out.extend(singly(call, &rich(), &long));
        out.extend(pairs(call, &small));
        out.extend(long_pairs(call, &small, &long));
        for plan in [rich(), example()] {
            out.extend(cut_everywhere(&plan.for_call(call)));
        }
    }
    let mut out = callers::by_turns(out);
    out.extend(tallies_of_each());
    out
}

/// Few and short enough to be stored: what is not broken or broken singly,
/// some pairs and cuts, a few layouts, orders to be shortened, and cases to be
/// written in one way.
pub fn stored() -> Vec<Vector> {
    const BYTES: usize = 900;
    const PAIRS: usize = 63;
    const CUTS: usize = 4;
    let (small, lone) = (changes(), lone_changes());
    let mut out = Vec::new();
    for call in CALLS {
        out.extend(unbroken(call));
        out.extend(singly(call, &rich(), &small));
        out.extend(singly(call, &rich(), &lone));
        out.extend(pairs(call, &small).into_iter().step_by(PAIRS));
        let cuts = cut_everywhere(&rich().for_call(call));
        out.extend(cuts.into_iter().step_by(CUTS));
    }
    out.retain(|vector| vector.case.len() + vector.volume.len() < BYTES);
    out.extend(layouts(1, 20));
    out.extend(strikes::fixed());
    out.extend(normals::fixed());
    let mut out = callers::by_turns(out);
    out.extend(tallies_of_each());
    out
}

/// Each caller's tally at every bound.
fn tallies_of_each() -> Vec<Vector> {
    let mut out = Vec::new();
    for call in TALLIED {
        for caller in 0..CALLERS as u64 {
            let plan = Plan { caller, ..rich() };
            out.extend(singly(call, &plan, &tallies()));
        }
    }
    out
}

/// Every plan as it is and in the forms that the call does not take.
fn unbroken(call: u32) -> Vec<Vector> {
    let mut out = Vec::new();
    let plans = [
        rich(),
        alone(),
        example(),
        least(),
        most(),
        no_placement(),
        crossed(),
        in_turn(),
        old_and_whole(),
        narrow_and_whole(),
    ];
    for whole in plans {
        out.extend(other_forms(&whole.given_to(call)));
        out.extend(about_each(&whole, call));
    }
    for plan in decided_by_figures() {
        out.extend(about_each(&plan, call));
    }
    out
}

/// About each of its selections; one that is moved comes with the whole of its set and
/// its figures too.
fn about_each(whole: &Plan, call: u32) -> Vec<Vector> {
    let plan = whole.for_call(call);
    if MOVES.contains(&call) {
        vec![plan.vector(), whole.given_to(call).vector()]
    } else {
        let numbers = 1..=plan.last_selection();
        numbers.map(|number| about(&plan, number)).collect()
    }
}

/// The call about another selection, with that one's first placement if it
/// has one.
fn about(plan: &Plan, selection: u64) -> Vector {
    let mut plan = Plan {
        selection,
        ..plan.clone()
    };
    if let Ok(case) = read_case(&plan.case_bytes()) {
        let nodes = case.selection(selection).unwrap_or(&case.first);
        each_placement(&case.outline, nodes, |places| {
            plan.placement = places.iter().map(|&t| t as u16).collect();
            false
        });
    }
    plan.vector()
}

/// The forms that the call does not take.
fn other_forms(plan: &Plan) -> impl Iterator<Item = Vector> + '_ {
    let others = Form::ALL.into_iter().filter(|&form| form != plan.form);
    others.map(|form| in_form(plan, form))
}

/// The old form has the first member alone, the others have all members.
fn in_form(plan: &Plan, form: Form) -> Vector {
    let mut other = Plan {
        form,
        ..plan.clone()
    };
    if form == Form::Old {
        other.set.truncate(1);
    }
    other.vector()
}

fn singly(call: u32, plan: &Plan, changes: &[Change]) -> Vec<Vector> {
    changes
        .iter()
        .filter(|c| c.concerns(call))
        .map(|c| changed(plan, call, &[c]))
        .collect()
}

fn changed(plan: &Plan, call: u32, changes: &[&Change]) -> Vector {
    let mut plan = plan.for_call(call);
    for change in changes {
        (change.apply)(&mut plan);
    }
    plan.vector()
}

/// Two questions broken at once, for every pair of changes. The one that is
/// asked first is broken last, so that the other cannot undo it.
fn pairs(call: u32, small: &[Change]) -> Vec<Vector> {
    let mut out = Vec::new();
    for (place, &first) in questions(call).iter().enumerate() {
        for &second in &questions(call)[place + 1..] {
            for a in small
                .iter()
                .filter(|c| c.question == first && c.concerns(call))
            {
                for b in small
                    .iter()
                    .filter(|c| c.question == second && c.concerns(call))
                {
                    out.push(changed(&rich(), call, &[b, a]));
                }
            }
        }
    }
    out
}

/// The long changes with one change of each question.
fn long_pairs(call: u32, small: &[Change], long: &[Change]) -> Vec<Vector> {
    let mut out = Vec::new();
    for &question in questions(call) {
        let other = small
            .iter()
            .find(|c| c.question == question && c.concerns(call));
        if let Some(other) = other {
            for long in long[..4].iter().filter(|c| c.concerns(call)) {
                out.push(changed(&rich(), call, &[other, long]));
            }
        }
    }
    out
}

/// Case, volume and list cut at every byte, and with a byte more.
fn cut_everywhere(plan: &Plan) -> Vec<Vector> {
    let mut out = Vec::new();
    let whole = plan.vector();
    for length in 0..whole.case.len() {
        out.push(Vector {
            case: whole.case[..length].to_vec(),
            ..whole.clone()
        });
    }
    for length in 0..whole.volume.len() {
        out.push(Vector {
            volume: whole.volume[..length].to_vec(),
            ..whole.clone()
        });
    }
    for length in 0..whole.list.len() {
        out.push(Vector {
            list: whole.list[..length].to_vec(),
            ..whole.clone()
        });
    }
    for more in [0, 1, 255] {
        out.push(Vector {
            case: [&whole.case[..], &[more]].concat(),
            ..whole.clone()
        });
        if [FITS, IS_RESULT, NODES_AT].contains(&plan.call) {
            out.push(Vector {
                volume: [&whole.volume[..], &[more]].concat(),
                ..whole.clone()
            });
        }
        if [IS_RESULT, LAYOUT].contains(&plan.call) {
            out.push(Vector {
                list: [&whole.list[..], &[more]].concat(),
                ..whole.clone()
            });
        }
    }
    out
}

/// A plan with something for every question to be about: three positions, a
/// set of three, strong edges, siblings, wildcards, descendants and figures, which
/// the volume's just meet.
pub fn rich() -> Plan {
    Plan {
        limit: 1_000,
        tally: 12,
        selection: 1,
        position: 2,
        outline: vec![
            [0, 1, 0],
            [0, 2, 0],
            [1, 3, 1],
            [1, 4, 0],
            [0, 5, 1],
            [2, 2, 0],
            [4, 2, 1],
        ],
        first: vec![
            [0, 1, 0, 0, 3],
            [0, 2, 0, 1, 1_999],
            [1, 0, 1, 2, 0],
            [0, 0, 1, 3, 2_000],
            [1, 3, 0, 0, 1],
        ],
        set: vec![
            vec![
                [0, 1, 0, 0, 0],
                [0, 2, 0, 1, 0],
                [1, 4, 0, 2, 0],
                [0, 5, 1, 3, 2_000],
            ],
            vec![
                [0, 0, 0, 0, 1],
                [0, 0, 1, 3, 1_999],
                [0, 2, 0, 1, 2],
                [2, 0, 0, 2, 0],
                [2, 3, 0, 0, 1],
            ],
            vec![
                [0, 1, 0, 0, 3],
                [0, 0, 0, 1, 1_999],
                [0, 0, 1, 3, 2_000],
                [1, 0, 1, 2, 0],
            ],
        ],
        volume: vec![
            [0, 1, 3],
            [0, 2, 1_999],
            [0, 5, 2_000],
            [1, 3, 1],
            [2, 2, 2_000],
            [1, 4, 0],
            [3, 2, 0],
            [0, 2, 2],
            [7, 3, 1],
        ],
        result: vec![1, 6, 4],
        placement: vec![0, 1, 5, 6, 2],
        ..Plan::default()
    }
}

/// The same with its last member alone.
fn alone() -> Plan {
    let mut plan = rich();
    plan.set.drain(..2);
    plan
}

/// E6.
fn example() -> Plan {
    Plan {
        limit: 1_000_000,
        selection: 1,
        position: 1,
        outline: vec![[0, 1, 0], [0, 2, 0], [1, 3, 0]],
        first: vec![[0, 1, 0, 0, 0], [0, 0, 1, 1, 0]],
        set: vec![vec![[0, 1, 0, 0, 0], [0, 0, 0, 1, 0]]],
        volume: vec![[0, 1, 0], [0, 2, 0], [1, 3, 0]],
        result: vec![2],
        placement: vec![0, 2],
        ..Plan::default()
    }
}

/// One node everywhere.
fn least() -> Plan {
    Plan {
        limit: 1,
        selection: 1,
        position: 1,
        outline: vec![[0, u16::MAX, 0]],
        first: vec![[0, u16::MAX, 0, 1, 0]],
        set: vec![vec![[0, 0, 0, 1, 0]]],
        volume: vec![[0, u16::MAX, 0]],
        result: vec![0],
        placement: vec![0],
        ..Plan::default()
    }
}

/// The greatest counts accepted: 64 outline nodes in a chain, 16 selection
/// nodes that all reach its end, eight members, eight positions, 1,024 volume
/// nodes. The placement given lays out 1 + 15 x 63 = 946 nodes.
fn most() -> Plan {
    let selection = |position: &dyn Fn(u16) -> u16| -> Vec<SelectionRow> {
        (0..16)
            .map(|q| [0, 0, u16::from(q > 0), position(q), q])
            .collect()
    };
    // The eight positions stand further on in each member.
    let member = |index: usize| {
        let from = index as u16 + 1;
        selection(&|q| {
            if (from..from + 8).contains(&q) {
                from + 8 - q
            } else {
                0
            }
        })
    };
    let placement: Vec<u16> = std::iter::once(0).chain([63; 15]).collect();
    Plan {
        limit: 300,
        tally: 999_999_000_000,
        selection: 1,
        position: 8,
        outline: chain(|t| if t == 0 { u16::MAX } else { 1 + t % 2 }),
        first: selection(&|q| if q < 8 { q + 1 } else { 0 }),
        set: (0..SET_SELECTIONS).map(member).collect(),
        volume: (0..1_024u16)
            .map(|v| {
                [
                    v.saturating_sub(1 + v % 3),
                    if v == 0 { u16::MAX } else { 1 + v % 2 },
                    2_000 - v,
                ]
            })
            .collect(),
        result: vec![0, 1_023, 5, 6, 7, 8, 9, 10],
        placement,
        ..Plan::default()
    }
}

/// Fourteen free nodes before one that fits nowhere: 63^14 partial placements
/// and no whole one.
fn no_placement() -> Plan {
    let mut first: Vec<SelectionRow> = vec![[0, 1, 0, 1, 0]];
    first.extend([[0, 0, 1, 0, 0]; 14]);
    first.push([0, 9, 1, 0, 0]);
    Plan {
        limit: 1_000_000,
        selection: 1,
        position: 1,
        outline: chain(|_| 1),
        first,
        set: vec![vec![[0, 1, 0, 1, 0], [0, 9, 1, 0, 0]]],
        volume: vec![[0, 1, 0], [0, 1, 0], [1, 1, 0]],
        result: vec![0],
        placement: vec![0; 16],
        ..Plan::default()
    }
}

/// Each position of the second trial is right in some member, and no member
/// has both.
fn crossed() -> Plan {
    let pair = |one, other| vec![[0, 1, 0, 0, 0], [0, one, 0, 1, 0], [0, other, 0, 2, 0]];
    Plan {
        limit: 1_000,
        selection: 1,
        position: 1,
        outline: vec![[0, 1, 0], [0, 2, 0], [0, 3, 0]],
        first: pair(0, 0),
        set: vec![pair(2, 2), pair(3, 3)],
        volume: vec![[0, 1, 0], [0, 2, 0], [0, 3, 0]],
        result: vec![1, 2],
        placement: vec![0, 1, 2],
        ..Plan::default()
    }
}

/// Each of eight trials passes through a member of its own.
fn in_turn() -> Plan {
    const LABELS: std::ops::RangeInclusive<u16> = 2..=9;
    let child = |label| vec![[0, 1, 0, 0, 0], [0, label, 0, 1, 0]];
    let mut outline = vec![[0, 1, 0]];
    outline.extend(LABELS.map(|label| [0, label, 0]));
    Plan {
        limit: 1_000,
        selection: 1,
        position: 1,
        outline,
        first: child(0),
        // The last member is that of a trial in the middle.
        set: LABELS.map(|label| child((label + 2) % 8 + 2)).collect(),
        volume: vec![[0, 1, 0], [0, 2, 0], [0, 4, 0]],
        result: vec![2],
        placement: vec![0, 3],
        ..Plan::default()
    }
}

/// A plan whose old form is whole when it is read as it is written today: five
/// members, of 0, 1, 0, 0 and 0 records.
fn old_and_whole() -> Plan {
    Plan {
        limit: 1,
        selection: 1,
        position: 1,
        outline: vec![[0, 5, 0], [0, 1, 0]],
        first: vec![[0, 5, 0, 1, 0], [0, 1, 0, 0, 0]],
        set: vec![vec![[0, 5, 0, 1, 0], [0, 1, 0, 0, 0], [0, 0, 0, 0, 0]]],
        volume: vec![[0, 5, 0], [0, 1, 0]],
        result: vec![0],
        placement: vec![0, 1],
        ..Plan::default()
    }
}

/// A plan whose form before figures is whole when it is read as it is written
/// today: five members, of 0, 1, 0, 0 and 2 records.
fn narrow_and_whole() -> Plan {
    let child = |label| [0, label, 0, 0, 0];
    Plan {
        limit: 1,
        selection: 1,
        position: 1,
        outline: vec![[0, 1, 0], [0, 1, 0], [0, 2, 0]],
        first: vec![[0, 1, 0, 1, 0]],
        set: vec![vec![
            [0, 1, 0, 1, 0],
            child(1),
            child(2),
            child(1),
            child(1),
        ]],
        volume: vec![[0, 1, 0], [0, 2, 0]],
        result: vec![0],
        placement: vec![0],
        ..Plan::default()
    }
}

/// Plans that are alike but for two figures, what there is and what is asked for:
/// equal or not, in both bytes and at the bounds. What is asked about is a node of
/// the first selection itself, the root or another, or one that a descendant edge or
/// a strong edge brings, which has 0.
fn decided_by_figures() -> Vec<Plan> {
    let figures = [
        (0, 1),
        (1, 0),
        (1, 1),
        (255, 256),
        (256, 255),
        (1_999, 2_000),
        (2_000, 2_000),
    ];
    let each = |(own, asked)| {
        let of_node = |figure| vec![[0, 1, 0, 0, 0], [0, 2, 0, 1, figure]];
        let of_root = |figure| vec![[0, 1, 0, 1, figure], [0, 2, 0, 0, 0]];
        let below = vec![[0, 1, 0, 0, own], [0, 3, 1, 1, own]];
        let inside = vec![[0, 1, 0, 0, 0], [0, 2, 0, 0, asked], [1, 3, 0, 1, 0]];
        let alone = vec![[0, 1, 0, 1, own]];
        let granted = vec![[0, 1, 0, 1, 0], [0, 2, 0, 0, asked]];
        let plan = |first, member, held| Plan {
            limit: 1_000,
            selection: 2,
            position: 1,
            outline: vec![[0, 1, 0], [0, 2, 1], [1, 3, 0]],
            first,
            set: vec![member],
            volume: vec![[0, 1, own], [0, 2, own], [1, 3, own]],
            result: vec![held],
            ..Plan::default()
        };
        [
            plan(of_node(own), of_node(asked), 1),
            plan(of_root(own), of_root(asked), 0),
            plan(below, inside, 2),
            plan(alone, granted, 0),
        ]
    };
    figures.into_iter().flat_map(each).collect()
}

fn chain(label: fn(u16) -> u16) -> Vec<OutlineRow> {
    (0..64)
        .map(|t: u16| [t.saturating_sub(1), label(t), 0])
        .collect()
}

#[cfg(test)]
mod tests {
    use super::*;
    use crate::calls::{is_result, INCLUDED, NOT_INCLUDED};
    use crate::generate::plan::refusal_of;
    use crate::vectors::{DOWNGRADE, UPGRADE};

    #[test]
    fn plans_are_accepted() {
        for call in CALLS {
            for plan in [
                rich(),
                alone(),
                example(),
                least(),
                most(),
                crossed(),
                in_turn(),
                old_and_whole(),
                narrow_and_whole(),
            ] {
                let plan = plan.for_call(call);
                assert_eq!(plan.vector().refusal(), 0, "call {call}");
                for selection in 1..=plan.last_selection() {
                    assert_eq!(about(&plan, selection).refusal(), 0, "call {call}");
                }
            }
        }
        assert_eq!(no_placement().for_call(1).vector().refusal(), 0);
    }

    #[test]
    fn earlier_forms_are_not_taken() {
        for call in CALLS.into_iter().filter(|&call| call != UPGRADE) {
            for form in [Form::Old, Form::Narrow] {
                for plan in [rich(), example(), least(), most(), no_placement()] {
                    assert_eq!(in_form(&plan.given_to(call), form).refusal(), 3);
                }
            }
            let whole = in_form(&old_and_whole().given_to(call), Form::Old);
            assert_eq!(whole.refusal(), 4);
            let whole = in_form(&narrow_and_whole().given_to(call), Form::Narrow);
            assert_eq!(whole.refusal(), 4);
        }
    }

    #[test]
    fn later_forms_are_not_moved_over() {
        for form in [Form::Today, Form::Narrow] {
            for plan in [rich(), alone(), example(), most(), old_and_whole()] {
                assert_eq!(in_form(&plan.given_to(UPGRADE), form).refusal(), 3);
            }
        }
    }

    #[test]
    fn a_volume_without_figures_is_not_taken() {
        for call in [FITS, IS_RESULT, NODES_AT] {
            for plan in [rich(), example(), least(), most()] {
                let plan = Plan {
                    narrow_volume: true,
                    ..plan.for_call(call)
                };
                assert_eq!(plan.vector().refusal(), 10);
            }
        }
    }

    /// Each of the four kinds is included, and its list a result, where what there
    /// is comes up to what is asked for.
    #[test]
    fn figures_decide() {
        for (index, plan) in decided_by_figures().iter().enumerate() {
            let asked = plan.set[0].iter().map(|row| row[4]).max();
            let there = match index % 4 {
                0 => plan.first[1][4],
                1 => plan.first[0][4],
                _ => 0,
            };
            let kind = if Some(there) >= asked {
                INCLUDED
            } else {
                NOT_INCLUDED
            };
            assert_eq!((plan.judged(1).kind, plan.judged(1).tried), (kind, 1));
            let given = plan.for_call(IS_RESULT);
            let (case, volume) = (given.case_bytes(), given.volume_bytes());
            let list = given.vector().list;
            let holds = is_result(&case, 2, &volume, &list).holds;
            assert_eq!(holds, Some(plan.volume[0][2]) >= asked);
        }
    }

    #[test]
    fn a_set_of_one_alone_is_moved_back() {
        for plan in [rich(), alone(), example(), least(), most(), crossed()] {
            for (count, refused) in [(0, 14), (1, 0), (2, 15), (8, 15), (9, 14)] {
                let mut plan = plan.for_call(DOWNGRADE);
                plan.resize_set(count);
                assert_eq!(plan.vector().refusal(), refused);
            }
        }
    }

    #[test]
    fn figures_of_0_alone_are_moved_back() {
        for call in CALLS {
            for (figure, refused) in [(0, 0), (1, 15), (2_000, 15), (2_001, 17), (u16::MAX, 17)] {
                for which in 0..2 {
                    let mut plan = example().for_call(call);
                    for rows in plan.selections_mut().skip(which).take(1) {
                        rows[1][4] = figure;
                    }
                    let expected = match call {
                        UPGRADE => 0,
                        DOWNGRADE => refused,
                        _ if refused == 15 => 0,
                        _ => refused,
                    };
                    assert_eq!(plan.vector().refusal(), expected, "call {call}");
                }
            }
        }
    }

    #[test]
    fn each_change_breaks_its_question() {
        let all = [changes(), lone_changes(), long_changes()];
        for call in CALLS {
            for change in all.iter().flatten().filter(|c| c.concerns(call)) {
                for plan in [rich(), alone()] {
                    let mut plan = plan.for_call(call);
                    (change.apply)(&mut plan);
                    let refused = plan.vector().refusal();
                    // A change meant to be accepted may leave no placement, or
                    // more members or figures than are moved back.
                    let stays = plan.set.len() > 1 || plan.asks_figures();
                    if call == DOWNGRADE && change.question == 0 && stays {
                        assert_eq!(refused, 15);
                    } else if change.question != 0 || ![IS_RESULT, LAYOUT].contains(&call) {
                        assert_eq!(refused, refusal_of(change.question), "call {call}");
                    }
                }
            }
        }
    }

    #[test]
    fn the_first_question_decides_each_pair() {
        for call in CALLS {
            let order = questions(call);
            let all = changes();
            for a in all.iter().filter(|c| c.question != 0 && c.concerns(call)) {
                for b in all.iter().filter(|c| c.question != 0 && c.concerns(call)) {
                    let place = |c: &Change| order.iter().position(|&q| q == c.question);
                    if place(a) < place(b) {
                        let refused = changed(&rich(), call, &[b, a]).refusal();
                        let expected = refusal_of(a.question);
                        assert_eq!(refused, expected, "call {call} with {}", b.question);
                    }
                }
            }
        }
    }

    #[test]
    fn each_caller_is_refused_and_accepted_at_every_bound() {
        let all = tallies_of_each();
        for (call, caller) in TALLIED
            .into_iter()
            .flat_map(|call| (0..8).map(move |c| (call, c)))
        {
            let own = all.iter().filter(|v| (v.call, v.caller) == (call, caller));
            let refusals: Vec<u64> = own.map(Vector::refusal).collect();
            assert_eq!(refusals, [9, 9, 9, 9, 9, 9, 0, 0]);
        }
    }

    #[test]
    fn every_question_is_among_those_stored() {
        let stored = stored();
        for call in CALLS {
            let of_call = || stored.iter().filter(|vector| vector.call == call);
            for &question in questions(call).iter().chain(&[0]) {
                assert!(of_call().any(|vector| vector.refusal() == refusal_of(question)));
            }
        }
    }
}
