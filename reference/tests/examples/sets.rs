//! Request #101: a case's second selection is a set, and each reading of the
//! request that an answer can tell.

use super::notation::{case, list, old_case, set_case, volume};
use super::{judged, shown, LIMIT};
use reference::calls::{INCLUDED, NOT_INCLUDED, STOPPED};
use reference::*;

/// The verdict's refusal with nothing else to refuse.
fn refused(case: &[u8]) -> u64 {
    verdict_refusal(case, LIMIT, 0, &[0; CALLERS], 8_192)
}

/// A case of r alone, with a set announced so and these sections after it.
fn announced(count: u16, sections: &[&[u16]]) -> Vec<u8> {
    let mut bytes = case("r", "r^", "r^");
    bytes.truncate(2 + 6 + 2 + 10);
    bytes.extend(list(&[count]));
    bytes.extend(list(&sections.concat()));
    bytes
}

/// A selection's section, whole and right; and one of no nodes.
const GOOD: &[u16] = &[1, 0, 1, 0, 1, 0];
const EMPTY: &[u16] = &[0];

#[test]
fn as_many_sections_are_read_as_announced() {
    assert_eq!(refused(&announced(1, &[GOOD])), 0);
    assert_eq!(refused(&announced(8, &[GOOD; 8])), 0);
    // Nine announced and eight whole; eight announced and a ninth behind.
    assert_eq!(refused(&announced(9, &[GOOD; 8])), 3);
    assert_eq!(refused(&announced(8, &[GOOD; 9])), 3);
    assert_eq!(refused(&announced(0, &[GOOD])), 3);
    assert_eq!(refused(&announced(u16::MAX, &[GOOD; 8])), 3);
    // The low byte alone would make 257 a set of one.
    assert_eq!(refused(&announced(257, &[GOOD])), 3);
    assert_eq!(refused(&announced(257, &[GOOD; 257])), 14);
}

#[test]
fn some_32000_empty_sections_are_whole() {
    let mut long = announced(32_757, &vec![EMPTY; 32_757]);
    assert_eq!((long.len(), refused(&long)), (65_536, 4));
    long.pop();
    assert_eq!(refused(&long), 3);
}

#[test]
fn the_counts_of_all_sections_come_before_the_sets() {
    assert_eq!(refused(&announced(9, &[GOOD; 9])), 14);
    let empty_ninth = [&[GOOD; 8][..], &[EMPTY]].concat();
    assert_eq!(refused(&announced(9, &empty_ninth)), 4);
    let seventeen = [&[17][..], &[0, 1, 0, 1, 0], &[0; 80]].concat();
    assert_eq!(
        refused(&announced(9, &[&[GOOD; 8][..], &[&seventeen]].concat())),
        4
    );
    assert_eq!(refused(&announced(2, &[GOOD, EMPTY])), 4);
}

#[test]
fn a_set_of_none_is_whole() {
    assert_eq!(refused(&announced(0, &[])), 14);
    let mut wide = list(&[65]);
    wide.extend(list(&[0; 3 * 65]));
    wide.extend(&announced(0, &[])[8..]);
    assert_eq!(refused(&wide), 4);
}

#[test]
fn the_sets_count_comes_before_every_record() {
    // A label 0 in the outline, then a position 9 in the ninth member.
    let mut broken = announced(9, &[&[GOOD; 8][..], &[&[1, 0, 1, 0, 9, 0]]].concat());
    assert_eq!(refused(&broken), 14);
    broken[4] = 0;
    assert_eq!(refused(&broken), 14);
    let mut broken = announced(2, &[GOOD, &[1, 0, 1, 0, 9, 0]]);
    assert_eq!(refused(&broken), 7);
    broken[4] = 0;
    assert_eq!(refused(&broken), 5);
}

#[test]
fn the_positions_are_the_same_in_all() {
    let judged = |set: &[&str]| refused(&set_case("r(a)", "r(a^,a^2)", set));
    assert_eq!(judged(&["r^(a^2)", "r^2(a^)"]), 0);
    assert_eq!(judged(&["r^(a^2)", "r(a^)"]), 8);
    assert_eq!(judged(&["r^(a^2,a^3)", "r^(a^2)"]), 8);
    assert_eq!(judged(&["r^(a^2)", "r^2(a^3)"]), 8);
    assert_eq!(judged(&["r^(a^2)", "r^2(a^2)"]), 8);
    // 7 in the last member comes before 8 in the first selection.
    assert_eq!(refused(&set_case("r", "r", &["r^", "r^9"])), 7);
    assert_eq!(refused(&set_case("r", "r", &["r^", "r^8"])), 8);
}

#[test]
fn selections_are_numbered_from_the_first_on() {
    let three = set_case("r(a,b,c)", "r(0^)", &["r(b^)", "r(c^)"]);
    let masks = |number| paths(&three, number).masks[1];
    assert_eq!([1, 2, 3].map(masks), [14, 4, 8]);
    let refusal = |number| paths_refusal(&three, number);
    assert_eq!([0, 1, 2, 3, 4, 10].map(refusal), [12, 0, 0, 0, 12, 12]);

    let eight = set_case("r(a)", "r(0^)", &["r(a^)"; 8]);
    let found = volume("r(a)");
    for (number, answer) in [(9, 0), (10, 12)] {
        assert_eq!(paths_refusal(&eight, number), answer);
        assert_eq!(result_refusal(&eight, number, &found, &list(&[1])), answer);
        assert_eq!(nodes_refusal(&eight, number, &found, 1, 8_192), answer);
        assert_eq!(
            layout_refusal(&eight, number, &list(&[0, 1]), 1_024),
            answer
        );
    }
}

#[test]
fn each_call_is_about_the_member_that_it_names() {
    let three = set_case("r(a,b,c)", "r(0^)", &["r(b^)", "r(c^)"]);
    let found = volume("r(a,b,c,b)");
    let holds = |number, node| is_result(&three, number, &found, &list(&[node])).holds;
    assert_eq!(
        [1, 2, 3, 4].map(|node| holds(2, node)),
        [false, true, false, true]
    );
    assert_eq!(
        [1, 2, 3, 4].map(|node| holds(3, node)),
        [false, false, true, false]
    );
    let count = |number| nodes_at(&three, number, &found, 1, &mut [0; 8_192]).count;
    assert_eq!([1, 2, 3].map(count), [4, 2, 1]);
    let placed = |number, place| layout_refusal(&three, number, &list(&[0, place]), 1_024);
    assert_eq!([1, 2, 3].map(|place| placed(3, place)), [13, 13, 0]);
}

#[test]
fn a_list_is_one_members_whole() {
    // Position 1 is right in the first member, position 2 in the second.
    let crossed = set_case("r(a,b)", "r(0^,0^2)", &["r(a^,a^2)", "r(b^,b^2)"]);
    assert_eq!(
        judged(&crossed, LIMIT, &shown("r(a,b)", &[1, 2])),
        (NOT_INCLUDED, 2)
    );
    let all = ["r(a^,a^2)", "r(b^,b^2)", "r(a^,b^2)", "r(b^,a^2)"];
    let whole = set_case("r(a,b)", "r(0^,0^2)", &all);
    assert_eq!(judged(&whole, LIMIT, &[]), (INCLUDED, 4));
}

#[test]
fn trials_pass_through_different_members() {
    let by_turns = set_case("r(a,b)", "r(0^)", &["r(a^)", "r(b^)"]);
    assert_eq!(judged(&by_turns, LIMIT, &[]), (INCLUDED, 2));
    assert_eq!(judged(&by_turns, 1, &[]), (STOPPED, 1));
    let alone = |member| judged(&case("r(a,b)", "r(0^)", member), 1, &[]);
    assert_eq!(alone("r(a^)"), (STOPPED, 1));
    let only = |member, trial, tried| {
        let case = case("r(a,b)", "r(0^)", member);
        assert_eq!(
            judged(&case, LIMIT, &shown(trial, &[1])),
            (NOT_INCLUDED, tried)
        );
    };
    only("r(a^)", "r(b)", 2);
    only("r(b^)", "r(a)", 1);
}

#[test]
fn the_earliest_trial_that_passes_through_none_is_shown() {
    // The first member misses b and c, the second a and b.
    let gap = set_case("r(a,b,c)", "r(0^)", &["r(a^)", "r(c^)"]);
    assert_eq!(judged(&gap, LIMIT, &shown("r(b)", &[1])), (NOT_INCLUDED, 2));
    assert_eq!(judged(&gap, 1, &[]), (STOPPED, 1));
    // Nor do the number and order of trials depend on the set.
    let none = set_case("r", "a^", &["a^", "r^", "b^"]);
    assert_eq!(judged(&none, LIMIT, &[]), (INCLUDED, 0));
}

#[test]
fn order_and_repetition_change_nothing() {
    let members = ["r(a^)", "r(c^)", "r(b^(c))"];
    let orders = [
        [0, 1, 2],
        [0, 2, 1],
        [1, 0, 2],
        [1, 2, 0],
        [2, 0, 1],
        [2, 1, 0],
    ];
    let written = shown("r(b)", &[1]);
    for order in orders {
        let mut set = order.map(|member| members[member]).to_vec();
        for _ in 0..3 {
            let case = set_case("r(a,b(c),c)", "r(0^)", &set);
            assert_eq!(judged(&case, LIMIT, &written), (NOT_INCLUDED, 2));
            set.push(set[0]);
        }
    }
}

#[test]
fn an_old_case_is_read_as_a_new_one() {
    let old = old_case("r(a(b))", "r//0^", "r(0^)");
    assert_eq!(old.len(), 56);
    let found = volume("r");
    assert_eq!(refused(&old), 3);
    assert_eq!(fits_refusal(&old, &found), 3);
    assert_eq!(result_refusal(&old, 1, &found, &list(&[0])), 3);
    assert_eq!(nodes_refusal(&old, 1, &found, 1, 8_192), 3);
    assert_eq!(paths_refusal(&old, 1), 3);
    assert_eq!(layout_refusal(&old, 1, &list(&[0, 1]), 1_024), 3);
    // Whole, by chance: members of 0, 1, 0, 0 and 0 records.
    let outline_and_first = [1, 0, 5, 0, 2, 0, 5, 0, 1, 0, 1, 0, 0];
    let second = [3, 0, 5, 0, 1, 0, 1, 0, 0, 0, 0, 0, 0];
    let whole = list(&[outline_and_first, second].concat());
    assert_eq!(upgrade_refusal(&whole, 8_192), 0);
    assert_eq!(refused(&whole), 4);
}
