//! What the answers mean, tried on random plans: a verdict's answer against
//! fitting volumes, and the calls against each other.

use super::alike::alike;
use super::cases;
use super::normals::{self, altered_case, normals, renumbered_case};
use super::plan::{put_fields, put_section, Form, Plan, SelectionRow, Set, VolumeRow};
use super::prng::Prng;
use super::random::{around_embedding, random, result, selections};
use super::sets::rearrange;
use super::strikes;
use super::trees;
use crate::calls::{ANSWER_BYTES, INCLUDED, NOT_INCLUDED, STOPPED};
use crate::old::read_old_case;
use crate::records::{holder, read_case, Case};
use crate::trials::{count_placements, each_placement, lay_out, Trial, TrialNode};
use crate::vectors::UPGRADE;
use crate::*;

fn volume_bytes(rows: &[VolumeRow]) -> Vec<u8> {
    let mut bytes = Vec::new();
    put_section(&mut bytes, rows, 0);
    bytes
}

fn list_bytes(fields: &[u16]) -> Vec<u8> {
    let mut bytes = Vec::new();
    put_fields(&mut bytes, fields);
    bytes
}

/// The volume and the list that "not included" wrote.
fn shown(answer: &[u8]) -> (&[u8], &[u8]) {
    let field = |at: usize| usize::from(u16::from_le_bytes([answer[at], answer[at + 1]]));
    let end = 2 + 6 * field(0);
    (&answer[..end], &answer[end + 2..end + 2 + 2 * field(end)])
}

/// Whether the list is a result of at least one member.
fn in_union(plan: &Plan, volume: &[u8], list: &[u8]) -> bool {
    (2..=plan.last_selection()).any(|member| {
        let got = is_result(&plan.case_bytes(), member, volume, list);
        assert_eq!(got.refused, 0);
        got.holds
    })
}

#[test]
fn a_shown_volume_fits_and_tells_the_selections_apart() {
    let mut prng = Prng::new(11u64);
    let mut seen = 0;
    for _ in 0..600 {
        let plan = selections(&mut prng);
        let case = plan.case_bytes();
        let mut answer = [0; ANSWER_BYTES];
        if verdict(&case, 500, 0, &mut [0; CALLERS], &mut answer).kind == NOT_INCLUDED {
            let (volume, list) = shown(&answer);
            assert!(fits(&case, volume).holds);
            assert!(is_result(&case, 1, volume, list).holds);
            assert!(!in_union(&plan, volume, list));
            seen += 1;
        }
    }
    assert!(seen > 100);
}

#[test]
fn included_holds_in_fitting_volumes() {
    let mut prng = Prng::new(12u64);
    let mut seen = 0;
    for _ in 0..400 {
        let mut plan = Plan {
            selection: 1,
            ..selections(&mut prng)
        };
        let case = plan.case_bytes();
        if verdict(&case, 500, 0, &mut [0; CALLERS], &mut [0; ANSWER_BYTES]).kind != INCLUDED {
            continue;
        }
        for _ in 0..10 {
            plan.volume = around_embedding(&mut prng, &plan, 60);
            let volume = volume_bytes(&plan.volume);
            let list = list_bytes(&result(&mut prng, &plan));
            if fits(&case, &volume).holds && is_result(&case, 1, &volume, &list).holds {
                assert!(in_union(&plan, &volume, &list));
                seen += 1;
            }
        }
    }
    assert!(seen > 500);
}

/// A trial's records, with the figures put on node by node: a node that ends the
/// chain of a selection node has what that asks for, and every other 0.
fn figured(case: &Case, placement: &[usize], trial: &Trial) -> Vec<VolumeRow> {
    let label = |node: &TrialNode| case.outline[node.outline].label;
    let mut rows: Vec<VolumeRow> = trial
        .nodes
        .iter()
        .map(|node| [node.parent as u16, label(node), 0])
        .collect();
    rows[0][2] = case.first[0].figure;
    let depth = |mut t: usize| {
        let mut steps = 0;
        while t != 0 {
            t = case.outline[t].parent;
            steps += 1;
        }
        steps
    };
    let mut last = 0;
    for (q, node) in case.first.iter().enumerate().skip(1) {
        last += depth(placement[q]) - depth(placement[node.parent]);
        rows[last][2] = node.figure;
    }
    rows
}

/// Kind and tried worked out from each trial and each member by itself.
fn worked_out(plan: &Plan, limit: u64) -> (u64, u64) {
    let case = read_case(&plan.case_bytes()).expect("the plan is accepted");
    let holders = (1..=case.positions).filter_map(|position| holder(&case.first, position));
    let holders: Vec<usize> = holders.collect();
    let (mut kind, mut tried) = (INCLUDED, 0);
    each_placement(&case.outline, &case.first, |placement| {
        if tried == limit {
            kind = STOPPED;
            return false;
        }
        tried += 1;
        let trial = lay_out(&case.outline, &case.first, placement);
        let rows = figured(&case, placement, &trial);
        let list: Vec<u16> = holders.iter().map(|&q| trial.own[q] as u16).collect();
        let passes = in_union(plan, &volume_bytes(&rows), &list_bytes(&list));
        if !passes {
            kind = NOT_INCLUDED;
        }
        passes
    });
    (kind, tried)
}

#[test]
fn a_trial_passes_through_any_member() {
    let mut prng = Prng::new(15u64);
    let mut together = 0;
    for _ in 0..800 {
        let plan = selections(&mut prng);
        let judged = |set: Set| {
            let plan = Plan {
                set,
                ..plan.clone()
            };
            let mut answer = [0xAA; ANSWER_BYTES];
            let got = verdict(&plan.case_bytes(), 100, 0, &mut [0; CALLERS], &mut answer);
            ((got.kind, got.tried), answer)
        };
        let whole = judged(plan.set.clone());
        assert_eq!(whole.0, worked_out(&plan, 100));
        let mut set = plan.set.clone();
        set.reverse();
        rearrange(&mut prng, &mut set);
        assert_eq!(judged(set), whole);
        let alone = |member: &Vec<_>| judged(vec![member.clone()]).0 .0 == INCLUDED;
        together += u32::from(whole.0 .0 == INCLUDED && !plan.set.iter().any(alone));
    }
    assert!(together > 20, "{together} included through the union alone");
}

#[test]
fn layouts_fit() {
    let mut prng = Prng::new(13u64);
    let (mut seen, mut figured) = (0, 0);
    for _ in 0..600 {
        let plan = selections(&mut prng);
        let tree = trees::as_volume(&plan.outline);
        let Some(places) = trees::embedding(&mut prng, &plan.first, &tree) else {
            continue;
        };
        let places: Vec<u16> = places.iter().map(|&t| t as u16).collect();
        let mut table = [NodeRecord::default(); 1_024];
        let case = plan.case_bytes();
        let got = layout(&case, 1, &list_bytes(&places), &mut table);
        assert!(got.refused == 0 && (1..=1_009).contains(&got.count));
        let rows: Vec<VolumeRow> = table[..got.count as usize]
            .iter()
            .map(|node| [node.parent, node.label, node.figure])
            .collect();
        assert!(fits(&case, &volume_bytes(&rows)).holds);
        let asked: Vec<u16> = plan
            .first
            .iter()
            .map(|row| row[4])
            .filter(|&f| f > 0)
            .collect();
        let given = rows.iter().map(|row| row[2]).filter(|&f| f > 0);
        assert_eq!(given.collect::<Vec<_>>(), asked);
        figured += u32::from(!asked.is_empty());
        for (node, path) in places.iter().enumerate() {
            assert_eq!(paths(&case, 1).masks[node] >> path & 1, 1);
        }
        seen += 1;
    }
    assert!(
        seen > 300 && figured > 100,
        "{seen} seen, {figured} with figures"
    );
}

#[test]
fn with_one_position_the_nodes_are_the_results() {
    let mut prng = Prng::new(14u64);
    let mut seen = 0;
    for _ in 0..1_000 {
        let mut plan = Plan {
            selection: 2,
            ..selections(&mut prng)
        };
        if plan.positions() != 1 {
            continue;
        }
        plan.volume = around_embedding(&mut prng, &plan, 30);
        let (case, volume) = (plan.case_bytes(), volume_bytes(&plan.volume));
        let nodes: Vec<u16> = (0..plan.volume.len() as u16)
            .filter(|&v| is_result(&case, 2, &volume, &list_bytes(&[v])).holds)
            .collect();
        let mut answer = [0xAA; ANSWER_BYTES];
        assert_eq!(
            nodes_at(&case, 2, &volume, 1, &mut answer).count,
            nodes.len() as u64
        );
        let wanted = [list_bytes(&[nodes.len() as u16]), list_bytes(&nodes)].concat();
        assert_eq!(&answer[..wanted.len()], wanted);
        assert!(answer[wanted.len()..].iter().all(|&byte| byte == 0xAA));
        seen += 1;
    }
    assert!(seen > 100);
}

/// What a call that writes a case writes, or its refusal.
fn written(call: fn(&[u8], &mut [u8]) -> CountAnswer, case: &[u8]) -> Result<Vec<u8>, u64> {
    let mut answer = [0xAA; ANSWER_BYTES];
    let got = call(case, &mut answer);
    let (bytes, rest) = answer.split_at(got.count as usize);
    assert!(rest.iter().all(|&byte| byte == 0xAA));
    match got.refused {
        0 => Ok(bytes.to_vec()),
        refused => Err(refused),
    }
}

/// "Old to new to old gives the same bytes, and so does the other way round, for
/// every accepted case": vectors of both calls, many of them damaged.
#[test]
fn there_and_back_gives_the_same_bytes() {
    let (mut over, mut back) = (0, 0);
    for vector in random(16, 8_000) {
        let case = vector.case;
        if let Ok(new) = written(upgrade, &case) {
            assert_eq!(written(downgrade, &new), Ok(case.clone()));
            let read = read_old_case(&case).map(|old| old.with_set_of_one());
            let nodes = read.as_ref().map_or(0, |c| c.first.len() + c.set[0].len());
            assert_eq!(new.len(), case.len() + 2 + 2 * nodes);
            assert_eq!(read_case(&new), read);
            over += 1;
        }
        if let Ok(old) = written(downgrade, &case) {
            assert_eq!(written(upgrade, &old), Ok(case.clone()));
            back += 1;
        }
    }
    assert!(over > 500 && back > 500, "{over} over, {back} back");
}

/// "A set of one gives the old verdicts": document 01's verdict asks one second
/// selection.
#[test]
fn an_old_case_moved_over_is_judged_by_its_second_selection() {
    let mut prng = Prng::new(17u64);
    let mut seen = 0;
    for _ in 0..300 {
        let mut plan = selections(&mut prng).for_call(UPGRADE);
        let new = written(upgrade, &plan.case_bytes()).expect("the plan is accepted");
        plan.form = Form::Today;
        assert_eq!(new, plan.case_bytes());
        let got = verdict(&new, 100, 0, &mut [0; CALLERS], &mut [0; ANSWER_BYTES]);
        assert_eq!((got.kind, got.tried), worked_out(&plan, 100));
        seen += u32::from(got.tried > 0);
    }
    assert!(seen > 100);
}

/// An order of the generator, and what striking out with a limit leaves of it.
struct Struck {
    plan: Plan,
    limit: u64,
    left: Vec<SelectionRow>,
    numbers: Vec<u16>,
    tried: u64,
}

impl Struck {
    fn drawn(prng: &mut Prng) -> Struck {
        let plan = strikes::order(prng);
        let limit = strikes::limit(prng, &plan, strikes::TRIALS_MOST);
        let mut answer = [0xAA; ANSWER_BYTES];
        let mut tallies = [0; CALLERS];
        let got = minimise(&plan.case_bytes(), limit, 0, &mut tallies, &mut answer);
        assert_eq!((got.refused, tallies[0]), (0, got.tried));
        let fields: Vec<u16> = answer
            .chunks(2)
            .map(|field| u16::from_le_bytes([field[0], field[1]]))
            .collect();
        let (rows, rest) = fields[1..].split_at(5 * usize::from(fields[0]));
        let left = rows
            .chunks(5)
            .map(|row| [row[0], row[1], row[2], row[3], row[4]]);
        assert_eq!(u64::from(rest[0]), got.struck);
        Struck {
            left: left.collect(),
            numbers: rest[1..=got.struck as usize].to_vec(),
            tried: got.tried,
            plan,
            limit,
        }
    }

    /// A plan over the same outline, with a set of one.
    fn with(&self, first: &[SelectionRow], member: &[SelectionRow]) -> Plan {
        Plan {
            first: first.to_vec(),
            set: vec![member.to_vec()],
            ..self.plan.clone()
        }
    }
}

/// "its leaves without a position, root excepted, lowest number first"
fn leaves(rows: &[SelectionRow]) -> Vec<usize> {
    let has_child = |q: usize| rows[1..].iter().any(|row| usize::from(row[0]) == q);
    (1..rows.len())
        .filter(|&q| rows[q][3] == 0 && !has_child(q))
        .collect()
}

fn without(rows: &[SelectionRow], leaf: usize) -> Vec<SelectionRow> {
    let mut rows = rows.to_vec();
    trees::remove(&mut rows, leaf);
    rows
}

/// "The two selections have the same results in every fitting volume": by verdicts
/// both ways round, and in fitting volumes.
#[test]
fn a_shortened_order_has_the_same_results() {
    const MOST: u64 = 400;
    let mut prng = Prng::new(18u64);
    let (mut shorter, mut whole, mut seen) = (0, 0, 0);
    for _ in 0..250 {
        let struck = Struck::drawn(&mut prng);
        shorter += u32::from(!struck.numbers.is_empty());
        let (old, new) = (&struck.plan.first, &struck.left);
        for (first, member) in [(old, new), (new, old)] {
            let mut plan = struck.with(first, member);
            let case = read_case(&plan.case_bytes()).expect("the plan is accepted");
            let all = count_placements(&case.outline, &case.first);
            let expected = if all <= MOST { INCLUDED } else { STOPPED };
            let got = plan.judged(MOST);
            assert_eq!((got.kind, got.tried), (expected, all.min(MOST)));
            whole += u32::from(all <= MOST);
            plan.selection = 1;
            plan.volume = around_embedding(&mut prng, &plan, 40);
            let (case, volume) = (plan.case_bytes(), volume_bytes(&plan.volume));
            let list = list_bytes(&result(&mut prng, &plan));
            if fits(&case, &volume).holds {
                let holds = |number| is_result(&case, number, &volume, &list).holds;
                assert_eq!(holds(1), holds(2));
                seen += u32::from(holds(1));
            }
        }
    }
    assert!(
        shorter > 100 && whole > 300,
        "{shorter} shorter, {whole} whole"
    );
    assert!(seen > 150, "{seen} results");
}

/// The tool worked out from verdicts alone, on cases of bytes: what goes, in which
/// order, what all of it takes, and that "no remaining such leaf would be struck".
#[test]
fn leaves_are_struck_by_verdicts_on_cases() {
    let mut prng = Prng::new(19u64);
    let (mut not_ascending, mut paid_again, mut stopped) = (0, 0, 0);
    for _ in 0..250 {
        let struck = Struck::drawn(&mut prng);
        let mut rows = struck.plan.first.clone();
        let mut numbers: Vec<u16> = (0..rows.len() as u16).collect();
        let (mut order, mut tried, mut from) = (Vec::new(), 0, 0);
        while let Some(&leaf) = leaves(&rows).get(from) {
            let got = struck
                .with(&without(&rows, leaf), &rows)
                .judged(struck.limit);
            assert_eq!(got.refused, 0);
            tried += got.tried;
            if got.kind == INCLUDED {
                order.push(numbers.remove(leaf));
                rows = without(&rows, leaf);
                paid_again += from;
                from = 0;
            } else {
                stopped += u32::from(got.kind == STOPPED);
                from += 1;
            }
        }
        assert_eq!(
            (&rows, &order, tried),
            (&struck.left, &struck.numbers, struck.tried)
        );
        not_ascending += u32::from(!order.is_sorted());
    }
    assert!(not_ascending > 25, "{not_ascending} not ascending");
    assert!(
        paid_again > 25,
        "{paid_again} leaves kept before one that goes"
    );
    assert!(stopped > 25, "{stopped} stopped");
}

#[test]
fn the_set_does_not_matter_to_striking_out() {
    let mut prng = Prng::new(20u64);
    for _ in 0..100 {
        let mut struck = Struck::drawn(&mut prng);
        let before = struck.plan.minimised(struck.limit);
        let member = struck.plan.first.clone();
        struck.plan.set = (0..prng.between(1, 8))
            .map(|_| trees::weaken(&mut prng, &member))
            .collect();
        assert_eq!(struck.plan.minimised(struck.limit), before);
    }
}

/// The normal form of a case of the generator; the case is accepted.
fn normal(case: &Case) -> Vec<u8> {
    written(normalise, &case.bytes()).expect("the case is accepted")
}

fn drawn_case(prng: &mut Prng) -> Case {
    read_case(&normals::drawn(prng).case_bytes()).expect("the plan is accepted")
}

/// "Two accepted cases are written alike exactly when renumbering nodes turns one into the other.
/// Writing twice changes nothing".
#[test]
fn written_alike_exactly_where_numbers_alone_differ() {
    let mut prng = Prng::new(21u64);
    let (mut moved, mut same, mut other) = (0, 0, 0);
    for _ in 0..1_500 {
        let case = drawn_case(&mut prng);
        let bytes = normal(&case);
        assert_eq!(bytes.len(), case.bytes().len());
        let read = read_case(&bytes).expect("what is written is accepted");
        assert!(alike(&read, &case));
        assert_eq!(normal(&read), bytes);
        moved += u32::from(bytes != case.bytes());
        let again = renumbered_case(&mut prng, &case);
        assert!(alike(&again, &case));
        assert_eq!(normal(&again), bytes);
        for _ in 0..4 {
            let Some(altered) = altered_case(&mut prng, &again) else {
                continue;
            };
            let numbers_alone = alike(&altered, &case);
            assert_eq!(normal(&altered) == bytes, numbers_alone);
            same += u32::from(numbers_alone);
            other += u32::from(!numbers_alone);
        }
    }
    assert!(moved > 800, "{moved} not in order");
    assert!(
        same > 300 && other > 2_000,
        "{same} the same, {other} others"
    );
}

/// "every tree in preorder": a node's parent is the one before it or above that.
#[test]
fn what_is_written_is_in_preorder() {
    let mut prng = Prng::new(22u64);
    for _ in 0..300 {
        let read = read_case(&normal(&drawn_case(&mut prng))).expect("it is accepted");
        let outline: Vec<usize> = read.outline.iter().map(|node| node.parent).collect();
        let mut all = vec![outline];
        for nodes in read.set.iter().chain([&read.first]) {
            all.push(nodes.iter().map(|node| node.parent).collect());
        }
        for parents in all {
            for t in 1..parents.len() {
                let mut above = t - 1;
                while above != parents[t] && above > 0 {
                    above = parents[above];
                }
                assert_eq!(above, parents[t]);
            }
        }
        let labels = |t: usize| (read.outline[t].parent, read.outline[t].label);
        for t in 1..read.outline.len() {
            for earlier in 1..t {
                let ((parent, label), (other, before)) = (labels(t), labels(earlier));
                assert!(parent != other || before < label);
            }
        }
    }
}

/// "the kind of verdict with a limit of at least the number of placements stays."
#[test]
fn the_kind_of_verdict_stays() {
    const MOST: u64 = 300;
    let mut prng = Prng::new(23u64);
    let (mut included, mut not, mut elsewhere) = (0, 0, 0);
    for _ in 0..400 {
        // Of few free nodes, so that the first failure is often not the first trial.
        let plan = match prng.below(2) {
            0 => cases::many(&mut prng),
            _ => normals::drawn(&mut prng),
        };
        let case = read_case(&plan.case_bytes()).expect("the plan is accepted");
        let all = count_placements(&case.outline, &case.first);
        if all > MOST {
            continue;
        }
        let judged = |bytes: &[u8]| {
            let got = verdict(bytes, MOST, 0, &mut [0; CALLERS], &mut [0; ANSWER_BYTES]);
            (got.kind, got.tried)
        };
        let (before, after) = (judged(&case.bytes()), judged(&normal(&case)));
        assert_eq!(before.0, after.0);
        match before.0 {
            INCLUDED => assert_eq!((before.1, after.1), (all, all)),
            _ => elsewhere += u32::from(before.1 != after.1),
        }
        included += u32::from(before == (INCLUDED, all) && all > 0);
        not += u32::from(before.0 == NOT_INCLUDED);
    }
    assert!(
        included > 20 && not > 50,
        "{included} included, {not} not included"
    );
    assert!(elsewhere > 5, "{elsewhere} at another rank");
}

#[test]
fn the_cases_to_be_written_are_of_all_kinds() {
    let all = normals(1, 2_000);
    let accepted: Vec<Case> = all
        .iter()
        .filter_map(|vector| read_case(&vector.case).ok())
        .collect();
    assert_eq!(accepted.len(), all.len());
    let of = |kind: &dyn Fn(&Case) -> bool| accepted.iter().filter(|case| kind(case)).count();
    let whole = |case: &Case| case.outline.len() == 64 && case.bytes().len() == 1_846;
    let again = |case: &Case| normal(case) == case.bytes();
    assert!(of(&whole) > 200 && of(&again) > 50 && of(&|case| !again(case)) > 1_000);
    assert!(all.iter().filter(|vector| vector.refusal() == 2).count() > 20);
}

/// The same without figures.
fn plain(plan: &Plan) -> Plan {
    let mut plan = plan.clone();
    plan.forget_figures();
    for row in &mut plan.volume {
        row[2] = 0;
    }
    plan
}

/// Figures only take results away: verdicts and results that hold with them hold
/// without them, and each way it is often the figure alone that decides.
#[test]
fn figures_decide_either_way() {
    let mut prng = Prng::new(24u64);
    let (mut within, mut outside, mut result_in, mut result_out) = (0, 0, 0, 0);
    for _ in 0..1_500 {
        let mut plan = selections(&mut prng);
        plan.selection = prng.between(1, plan.last_selection() as usize) as u64;
        plan.volume = around_embedding(&mut prng, &plan, 30);
        let (with, without) = (plan.judged(60), plain(&plan).judged(60));
        assert!(with.kind == without.kind || with.kind == NOT_INCLUDED);
        assert!(with.tried <= without.tried);
        let asks = |rows: &Vec<SelectionRow>| rows.iter().any(|row| row[4] > 0);
        within += u32::from(with.kind == INCLUDED && plan.set.iter().all(asks));
        outside += u32::from(with != without);
        let list = list_bytes(&result(&mut prng, &plan));
        let holds = |plan: &Plan| {
            let (case, volume) = (plan.case_bytes(), volume_bytes(&plan.volume));
            is_result(&case, plan.selection, &volume, &list).holds
        };
        let (with, without) = (holds(&plan), holds(&plain(&plan)));
        assert!(without || !with);
        result_in += u32::from(with && asks(&plan.chosen().to_vec()));
        result_out += u32::from(without && !with);
    }
    assert!(within > 150 && outside > 100, "{within} in, {outside} out");
    assert!(
        result_in > 150 && result_out > 50,
        "{result_in} results, {result_out} none by figures"
    );
}
