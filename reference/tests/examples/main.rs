//! E1 to E10 with sets of one, the misreadings to catch, and the readings where
//! two differ; those about sets are in `sets`, those about the old form in
//! `moving`, those about callers in `callers`, those about striking out in
//! `striking`, those about one way of writing a case in `normal`, those about figures
//! in `figures`.

mod callers;
mod figures;
mod moving;
mod normal;
mod notation;
mod sets;
mod striking;

use notation::{case, list, volume};
use reference::calls::{INCLUDED, NOT_INCLUDED, STOPPED};
use reference::*;

const LIMIT: u64 = 1_000_000;

/// Kind and tried, with what was written checked against the expectation.
fn judged(case: &[u8], limit: u64, written: &[u8]) -> (u64, u64) {
    let mut answer = [0xAA; 8_192];
    let mut tallies = [5; CALLERS];
    let got = verdict(case, limit, 0, &mut tallies, &mut answer);
    assert_eq!(got.refused, 0);
    assert_eq!(tallies, [5 + got.tried, 5, 5, 5, 5, 5, 5, 5]);
    assert_eq!(&answer[..written.len()], written);
    assert!(answer[written.len()..].iter().all(|&byte| byte == 0xAA));
    (got.kind, got.tried)
}

/// The bytes "not included" writes: the volume's section, then the result.
fn shown(trial: &str, result: &[u16]) -> Vec<u8> {
    let mut bytes = volume(trial);
    bytes.extend(list(&[result.len() as u16]));
    bytes.extend(list(result));
    bytes
}

#[test]
fn e1() {
    let e1 = case("r(a(b,c))", "r^(a(b),a(c))", "r^(a(b,c))");
    assert_eq!(
        judged(&e1, LIMIT, &shown("r(a(b),a(c))", &[0])),
        (NOT_INCLUDED, 1)
    );
}

#[test]
fn e2() {
    let e2 = case("r(a(b,!c))", "r^(a(b),a(c))", "r^(a(b,c))");
    assert_eq!(judged(&e2, LIMIT, &[]), (INCLUDED, 1));
}

#[test]
fn e3_and_e4() {
    let e3 = case("r(a,b)", "r(a^)", "r(a^,b)");
    assert_eq!(judged(&e3, LIMIT, &shown("r(a)", &[1])), (NOT_INCLUDED, 1));
    let e4 = case("r(a,!b)", "r(a^)", "r(a^,b)");
    assert_eq!(judged(&e4, LIMIT, &[]), (INCLUDED, 1));
}

#[test]
fn e5() {
    let e5 = case("r(a(b))", "r//b^", "r(a(b^))");
    assert_eq!(judged(&e5, LIMIT, &[]), (INCLUDED, 1));
}

fn e6() -> Vec<u8> {
    case("r(a(b))", "r//0^", "r(0^)")
}

#[test]
fn e6_by_limit() {
    assert_eq!(e6().len(), 66);
    assert_eq!(judged(&e6(), 1, &[]), (STOPPED, 1));
    assert_eq!(judged(&e6(), 2, &shown("r(a(b))", &[2])), (NOT_INCLUDED, 2));
    assert_eq!(
        judged(&e6(), LIMIT, &shown("r(a(b))", &[2])),
        (NOT_INCLUDED, 2)
    );
}

#[test]
fn e7() {
    let e7 = case("r(a(b))", "r(0^)", "r//0^");
    assert_eq!(judged(&e7, 1, &[]), (INCLUDED, 1));
}

#[test]
fn e8() {
    assert_eq!(judged(&case("r", "r^", "r^"), LIMIT, &[]), (INCLUDED, 1));
    assert_eq!(
        judged(&case("r", "r^", "a^"), LIMIT, &shown("r", &[0])),
        (NOT_INCLUDED, 1)
    );
}

#[test]
fn e9() {
    assert_eq!(judged(&case("r", "a^", "r^"), LIMIT, &[]), (INCLUDED, 0));
}

#[test]
fn e10() {
    let got = paths(&e6(), 1);
    assert_eq!((got.refused, got.masks[1], got.counts[1]), (0, 6, 2));
    assert_eq!((got.masks[0], got.counts[0]), (1, 1));
    assert_eq!(
        (&got.masks[2..], &got.counts[2..]),
        (&[0; 14][..], &[0; 14][..])
    );
}

#[test]
fn strong_children_are_added_at_every_level() {
    let deep = case("r(a(!b(!c)))", "r^(a)", "r^(a(b(c)))");
    assert_eq!(judged(&deep, LIMIT, &[]), (INCLUDED, 1));
    let missing = case("r(a(!b(!c)))", "r^(a)", "r^(a(b,c))");
    assert_eq!(
        judged(&missing, LIMIT, &shown("r(a(b(c)))", &[0])),
        (NOT_INCLUDED, 1)
    );
}

#[test]
fn strong_children_are_numbered_by_visit() {
    // Node 0 misses its strong b; nodes 1 and 2 are the selection's own.
    let layered = case("r(a(!c),!b(!a))", "r(a^,a)", "r(a^)");
    let mut table = [NodeRecord::default(); 1_024];
    let got = layout(&layered, 1, &list(&[0, 1, 1]), &mut table);
    assert_eq!((got.refused, got.count), (0, 7));
    let node = |parent, outline, label| NodeRecord {
        parent,
        outline,
        label,
        figure: 0,
    };
    let wanted = [
        node(0, 0, 1),
        node(0, 1, 2),
        node(0, 1, 2),
        node(0, 3, 3),
        node(1, 2, 4),
        node(2, 2, 4),
        node(3, 4, 2),
    ];
    assert_eq!(table[..7], wanted);
    assert!(table[7..]
        .iter()
        .all(|record| *record == NodeRecord::default()));
}

#[test]
fn positions_are_tested_as_one_list() {
    // Each position is right by itself in another embedding of the member.
    let crossed = case("r(a(!b,!c))", "r(a(b^),a(c^2))", "r(a(b^,c^2))");
    let trial = shown("r(a(b),a(c))", &[2, 4]);
    let mut answer = [0xAA; 8_192];
    let got = verdict(&crossed, LIMIT, 0, &mut [0; CALLERS], &mut answer);
    assert_eq!((got.kind, got.tried), (NOT_INCLUDED, 1));
    // Seven nodes: the missing c and b are appended as nodes 5 and 6.
    let mut wanted = list(&[7]);
    wanted.extend(&trial[2..2 + 5 * 6]);
    wanted.extend(list(&[1, 4, 0, 3, 3, 0, 2, 2, 4]));
    assert_eq!(&answer[..wanted.len()], wanted);

    let two = volume("r(a(b,c),a(b,c))");
    assert!(is_result(&crossed, 2, &two, &list(&[2, 3])).holds);
    assert!(is_result(&crossed, 2, &two, &list(&[5, 6])).holds);
    assert!(!is_result(&crossed, 2, &two, &list(&[2, 6])).holds);
    assert!(is_result(&crossed, 1, &two, &list(&[2, 6])).holds);
}

#[test]
fn a_descendant_is_not_the_node_itself() {
    let under = case("r(a)", "r(a^)", "r//a^//a");
    assert_eq!(
        judged(&under, LIMIT, &shown("r(a)", &[1])),
        (NOT_INCLUDED, 1)
    );
    assert_eq!(judged(&case("r", "r//r^", "r^"), LIMIT, &[]), (INCLUDED, 0));
    assert_eq!(layout_refusal(&e6(), 1, &list(&[0, 0]), 1_024), 13);
}

#[test]
fn exactly_the_limit_is_included() {
    let wide = case("r(a,b,c)", "r(0^)", "r//0^");
    assert_eq!(judged(&wide, 2, &[]), (STOPPED, 2));
    assert_eq!(judged(&wide, 3, &[]), (INCLUDED, 3));
    assert_eq!(judged(&wide, 4, &[]), (INCLUDED, 3));
}

#[test]
fn without_placements_every_mask_is_0() {
    let none = case("r(a(b))", "r(a^,c)", "r(a^)");
    assert_eq!(paths(&none, 1), PathsAnswer::default());
    assert_eq!(paths(&none, 2).masks[..2], [1, 2]);
}

#[test]
fn no_placement_behind_many_partial_ones_is_found_at_once() {
    // A chain of 64 nodes; fourteen free nodes before one that fits nowhere.
    let mut bytes = list(&[64, 0, 1, 0]);
    for node in 1..64 {
        bytes.extend(list(&[node - 1, 1, 0]));
    }
    bytes.extend(list(&[16, 0, 1, 0, 1, 0]));
    for _ in 0..14 {
        bytes.extend(list(&[0, 0, 1, 0, 0]));
    }
    bytes.extend(list(&[0, 2, 1, 0, 0]));
    bytes.extend(list(&[1, 1, 0, 1, 0, 1, 0]));
    assert_eq!(judged(&bytes, LIMIT, &[]), (INCLUDED, 0));
}

#[test]
fn fitting() {
    let strong = case("r(a(!b,c),b)", "r^", "r^");
    let holds = |text| fits(&strong, &volume(text)).holds;
    assert!(holds("r"));
    assert!(holds("r(a(b,b),a(c,b),b)"));
    assert!(!holds("a"));
    assert!(!holds("r(a)"));
    assert!(!holds("r(a(c))"));
    assert!(!holds("r(a(b),c)"));
    assert!(!holds("r(b(c))"));
    assert_eq!(
        fits(&strong, &[]),
        TestAnswer {
            refused: 10,
            holds: false
        }
    );
}

#[test]
fn nodes_are_written_ascending_after_their_count() {
    let case = case("r(a(b))", "r//b^", "r(b^)");
    // The volume need not fit.
    let found = volume("r(a(b),b,c(a(b)))");
    let mut answer = [0xAA; 8_192];
    let got = nodes_at(&case, 1, &found, 1, &mut answer);
    assert_eq!((got.refused, got.count), (0, 3));
    assert_eq!(answer[..8], list(&[3, 2, 3, 6])[..]);
    assert_eq!(answer[8..], [0xAA; 8_184]);

    let mut answer = [0xAA; 8_192];
    let got = nodes_at(&case, 2, &volume("r(a)"), 1, &mut answer);
    assert_eq!((got.refused, got.count), (0, 0));
    assert_eq!(
        (&answer[..2], &answer[2..]),
        (&[0, 0][..], &[0xAA; 8_190][..])
    );
}

#[test]
fn a_refusal_alters_nothing() {
    let mut answer = [0xAA; 8_191];
    let mut tallies = [7; CALLERS];
    let refused = |refused| VerdictAnswer {
        refused,
        kind: 0,
        tried: 0,
    };
    assert_eq!(verdict(&e6(), 0, 0, &mut tallies, &mut answer), refused(1));
    assert_eq!(verdict(&e6(), 1, 0, &mut tallies, &mut answer), refused(2));
    assert_eq!((tallies, answer), ([7; CALLERS], [0xAA; 8_191]));
}

#[test]
fn the_tally_never_wraps() {
    let most = 1_000_000_000_000;
    let refusal = |limit, tally| verdict_refusal(&e6(), limit, 0, &[tally; CALLERS], 8_192);
    assert_eq!(refusal(1, most - 1), 0);
    assert_eq!(refusal(1, most), 9);
    assert_eq!(refusal(2, u64::MAX), 9);
    assert_eq!(refusal(LIMIT + 1, u64::MAX), 1);
}

#[test]
fn question_12_comes_before_question_11() {
    let found = volume("r(a)");
    assert_eq!(result_refusal(&e6(), 3, &found, &[1]), 12);
    assert_eq!(result_refusal(&e6(), 1, &found, &[1]), 11);
    assert_eq!(result_refusal(&e6(), 1, &found, &list(&[2])), 11);
    assert_eq!(result_refusal(&e6(), 1, &found, &list(&[1])), 0);
    assert_eq!(nodes_refusal(&e6(), 1, &found, 2, 8_192), 12);
}
