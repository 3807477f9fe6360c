//! Request #107: figures on nodes, and each reading of the request that an answer
//! can tell. `@5` is a figure, of a selection's node the least that it accepts.

use super::notation::{case, list, section, set_case, volume};
use super::{judged, shown, LIMIT};
use reference::calls::{INCLUDED, NOT_INCLUDED};
use reference::*;

/// Refusals of the verdict, and of a call that takes a volume.
fn refused(case: &[u8]) -> u64 {
    verdict_refusal(case, LIMIT, 0, &[0; CALLERS], 8_192)
}

#[test]
fn a_figure_is_at_least_what_is_asked_for() {
    let asking = case("r(a)", "r(a^@5)", "r@1(a^)");
    let holds = |selection, text| is_result(&asking, selection, &volume(text), &list(&[1])).holds;
    assert!(holds(1, "r(a@5)"));
    assert!(holds(1, "r(a@6)"));
    assert!(holds(1, "r(a@2000)"));
    assert!(!holds(1, "r(a@4)"));
    assert!(!holds(1, "r(a)"));
    // The root is asked too.
    assert!(holds(2, "r@1(a)"));
    assert!(!holds(2, "r(a@2000)"));
    // By number: of 255 and 256 the bytes would go the other way.
    let wide = case("r(a)", "r(a^@256)", "r(a^@255)");
    let holds = |selection, text| is_result(&wide, selection, &volume(text), &list(&[1])).holds;
    assert!(!holds(1, "r(a@255)"));
    assert!(holds(2, "r(a@256)"));
}

#[test]
fn every_node_of_the_selection_is_asked() {
    let asking = case("r(a(b))", "r^(a@2(b@3))", "r^(//b@3)");
    let holds = |selection, text| is_result(&asking, selection, &volume(text), &list(&[0])).holds;
    assert!(holds(1, "r(a@2(b@3))"));
    assert!(!holds(1, "r(a@1(b@3))"));
    // No node below a good one is good here, and none above the other is.
    assert!(!holds(1, "r(a@2(b@2),a@1(b@3))"));
    assert!(holds(2, "r(a@2(b@2),a@1(b@3))"));
}

#[test]
fn nodes_at_a_position_have_figures_enough() {
    let asking = case("r(a)", "r(a^@5)", "r(a^)");
    let found = volume("r(a@4,a@5,a@2000,a)");
    let mut answer = [0xAA; 8_192];
    assert_eq!(nodes_at(&asking, 1, &found, 1, &mut answer).count, 2);
    assert_eq!(answer[..6], list(&[2, 2, 3]));
    assert_eq!(nodes_at(&asking, 2, &found, 1, &mut answer).count, 4);
}

#[test]
fn own_nodes_have_just_their_least_figure() {
    let judged = |first, member| judged_kind("r(a(!b))", first, member);
    assert_eq!(judged("r(a^@5)", "r(a^@5)"), INCLUDED);
    assert_eq!(judged("r(a^@5)", "r(a^@4)"), INCLUDED);
    assert_eq!(judged("r(a^@5)", "r(a^@6)"), NOT_INCLUDED);
    assert_eq!(judged("r(a^)", "r(a^@1)"), NOT_INCLUDED);
    assert_eq!(judged("r(a^@2000)", "r(a^@1999)"), INCLUDED);
    // The root is one of them.
    assert_eq!(judged("r^@5", "r^@5"), INCLUDED);
    assert_eq!(judged("r^@5", "r^@6"), NOT_INCLUDED);
    // What strong edges bring has 0, and so has the inside of a descendant edge.
    assert_eq!(judged("r(a^@5)", "r(a^(b))"), INCLUDED);
    assert_eq!(judged("r(a^@5)", "r(a^(b@1))"), NOT_INCLUDED);
    assert_eq!(judged("r@5//b^@5", "r(a(b^@5))"), INCLUDED);
    assert_eq!(judged("r@5//b^@5", "r(a@1(b^))"), NOT_INCLUDED);
}

fn judged_kind(outline: &str, first: &str, member: &str) -> u64 {
    let mut answer = [0; 8_192];
    let case = case(outline, first, member);
    let got = verdict(&case, LIMIT, 0, &mut [0; CALLERS], &mut answer);
    assert_eq!((got.refused, got.tried), (0, 1));
    got.kind
}

#[test]
fn the_volume_shown_has_figures_and_the_result_none() {
    let e1 = case("r(a(!b,c))", "r^@3(//b@4,a@5(c))", "r^(a@5(b@1))");
    let written = shown("r@3(a(b@4),a@5(c,b))", &[0]);
    assert_eq!(written.len(), 2 + 6 * 6 + 4);
    assert_eq!(judged(&e1, LIMIT, &written), (NOT_INCLUDED, 1));
}

#[test]
fn a_member_of_the_union_is_asked_as_it_stands() {
    // Neither the label nor the figure is right in both.
    let none = set_case("r(a,b)", "r(a^@5)", &["r(a^@6)", "r(b^)"]);
    assert_eq!(
        judged(&none, LIMIT, &shown("r(a@5)", &[1])),
        (NOT_INCLUDED, 1)
    );
    let one = set_case("r(a,b)", "r(a^@5)", &["r(a^@6)", "r(0^@5)"]);
    assert_eq!(judged(&one, LIMIT, &[]), (INCLUDED, 1));
}

#[test]
fn a_layout_has_the_figures_of_its_selection() {
    let two = case("r(a(b,!c))", "r@1(//b^@2)", "r@3(a@4(b^@5),a@6)");
    let laid = |selection, places: &[u16]| {
        let mut table = [NodeRecord::default(); 1_024];
        let got = layout(&two, selection, &list(places), &mut table);
        assert_eq!(got.refused, 0);
        let figures = table[..got.count as usize].iter();
        figures.map(|record| record.figure).collect::<Vec<_>>()
    };
    // Root, chain, its end; then what the chain's a lacks.
    assert_eq!(laid(1, &[0, 2]), [1, 0, 2, 0]);
    assert_eq!(laid(2, &[0, 1, 2, 1]), [3, 4, 5, 6, 0, 0]);
}

#[test]
fn fit_and_placements_disregard_figures() {
    let asking = case("r(a(!b),c)", "r@2000(a^@2000,0@1)", "r(a^@2000)");
    assert_eq!(paths(&asking, 1).masks[..3], [1, 2, 10]);
    assert_eq!(layout_refusal(&asking, 1, &list(&[0, 1, 3]), 1_024), 0);
    assert_eq!(layout_refusal(&asking, 1, &list(&[0, 3, 1]), 1_024), 13);
    for text in ["r(a(b))", "r@2000(a@7(b))", "r(a(b@2000),c@1)"] {
        assert!(fits(&asking, &volume(text)).holds);
    }
    assert!(!fits(&asking, &volume("r@2000(a@2000)")).holds);
    let trials = |case: &[u8]| {
        let got = verdict(case, LIMIT, 0, &mut [0; CALLERS], &mut [0; 8_192]);
        (got.kind, got.tried)
    };
    assert_eq!(trials(&asking), (INCLUDED, 2));
    // The second of two trials alone has c: their number and order stay.
    let second = set_case("r(a(!b),c)", "r(a^,0@1)", &["r(a^,a@1)"]);
    assert_eq!(trials(&second), (NOT_INCLUDED, 2));
}

#[test]
fn a_figure_is_at_most_2000() {
    for (text, answer) in [("r^@2000", 0), ("r^@2001", 17), ("r^@65535", 17)] {
        assert_eq!(refused(&case("r", text, "r^")), answer);
        assert_eq!(refused(&set_case("r", "r^", &["r^", text])), answer);
        assert_eq!(
            paths_refusal(&set_case("r", "r^", &[text, "r^"]), 1),
            answer
        );
    }
    let good = case("r", "r^", "r^");
    for (text, answer) in [("r@2000", 0), ("r@2001", 17), ("r(r@65535)", 17)] {
        let found = volume(text);
        assert_eq!(fits_refusal(&good, &found), answer);
        assert_eq!(result_refusal(&good, 1, &found, &list(&[0])), answer);
        assert_eq!(nodes_refusal(&good, 1, &found, 1, 8_192), answer);
    }
}

#[test]
fn question_17_comes_after_7_of_all_and_before_8_of_any() {
    let judged = |first, set: &[&str]| refused(&set_case("r", first, set));
    assert_eq!(judged("r^@2001", &["r^", "r^9"]), 7);
    assert_eq!(judged("r", &["r^", "r^@2001"]), 17);
    assert_eq!(judged("r@2001", &["r^"]), 17);
    assert_eq!(judged("r", &["r^", "r^@2000"]), 8);
    // With a bad caller and a full tally.
    let high = case("r", "r^@2001", "r^");
    let full = [u64::MAX; CALLERS];
    assert_eq!(verdict_refusal(&high, 1, 8, &full, 8_192), 17);
    assert_eq!(minimise_refusal(&high, 1, 8, &full, 8_192), 17);
    assert_eq!(verdict_refusal(&high, 1, 8, &full, 8_191), 2);
}

#[test]
fn question_17_about_a_volume_comes_right_after_10() {
    let good = case("r(a)", "r^", "r^");
    let high = volume("r@2001");
    assert_eq!(result_refusal(&good, 9, &high, &[1]), 17);
    assert_eq!(nodes_refusal(&good, 9, &high, 9, 8_192), 17);
    // 8 about the case comes before, and 10 about the last node too.
    assert_eq!(fits_refusal(&case("r", "r^", "r"), &high), 8);
    assert_eq!(fits_refusal(&case("r", "r^@2001", "r^"), &high), 17);
    assert_eq!(fits_refusal(&good, &volume("r@2001(0)")), 10);
    let mut cut = volume("r@2001(a)");
    cut.pop();
    assert_eq!(fits_refusal(&good, &cut), 10);
}

#[test]
fn records_of_the_old_width_are_mostly_refused() {
    let good = case("r(a)", "r(a^)", "r(a^)");
    for fields in [&[1, 0, 1][..], &[2, 0, 1, 0, 2], &[3, 0, 1, 0, 2, 0, 2]] {
        assert_eq!(fits_refusal(&good, &list(fields)), 10);
    }
    // A case whose selection records have four fields.
    let narrow = list(&[1, 0, 1, 0, 1, 0, 1, 0, 1, 1, 1, 0, 1, 0, 1]);
    assert_eq!(refused(&narrow), 3);
}

#[test]
fn of_two_leaves_the_one_that_asks_less_goes() {
    let order = |first, left: &str, struck: &[u16]| {
        let (mut tallies, mut answer) = ([0; CALLERS], [0xAA; 8_192]);
        let case = case("r(!a)", first, first);
        let got = minimise(&case, LIMIT, 0, &mut tallies, &mut answer);
        assert_eq!((got.refused, got.struck), (0, struck.len() as u64));
        let mut written = section(left);
        written.extend(list(&[struck.len() as u16]));
        written.extend(list(struck));
        assert_eq!(answer[..written.len()], written);
        assert!(answer[written.len()..].iter().all(|&byte| byte == 0xAA));
    };
    order("r^(a@5,a@7)", "r^(a@7)", &[1]);
    order("r^(a@7,a@5)", "r^(a@7)", &[2]);
    order("r^(a@7,a@7)", "r^(a@7)", &[1]);
    order("r^(0@7,a@5,a@7)", "r^(a@7)", &[1, 2]);
    // What the outline grants has 0.
    order("r^@9(a)", "r^@9", &[1]);
    order("r^@9(a@1)", "r^@9(a@1)", &[]);
}
