//! The readings of request #105: which leaves are tried, in which order, what is
//! paid for them, and what is written.

use super::notation::{case, list, section, set_case};
use super::LIMIT;
use reference::calls::{TALLY_MOST, VERDICTS_MOST};
use reference::*;

/// What is left, what was struck in striking order, and tried; the rest of the
/// buffer and the other tallies are as they were.
fn shortened(case: &[u8], limit: u64) -> (Vec<u8>, Vec<u16>, u64) {
    let (mut tallies, mut answer) = ([5; CALLERS], [0xAA; 8_192]);
    let got = minimise(case, limit, 3, &mut tallies, &mut answer);
    assert_eq!(got.refused, 0);
    assert_eq!(tallies, [5, 5, 5, 5 + got.tried, 5, 5, 5, 5]);
    let field = |at: usize| u16::from_le_bytes([answer[at], answer[at + 1]]);
    let end = 2 + 10 * usize::from(field(0));
    let struck: Vec<u16> = (0..field(end))
        .map(|index| field(end + 2 + 2 * usize::from(index)))
        .collect();
    assert_eq!(struck.len() as u64, got.struck);
    let written = end + 2 + 2 * struck.len();
    assert!(answer[written..].iter().all(|&byte| byte == 0xAA));
    (answer[..end].to_vec(), struck, got.tried)
}

/// The same of an order whose set is itself.
fn order(outline: &str, first: &str, limit: u64) -> (Vec<u8>, Vec<u16>, u64) {
    shortened(&case(outline, first, first), limit)
}

fn left(selection: &str, struck: &[u16], tried: u64) -> (Vec<u8>, Vec<u16>, u64) {
    (section(selection), struck.to_vec(), tried)
}

#[test]
fn what_strong_edges_grant_goes() {
    assert_eq!(order("r(a,!b)", "r(a^,b)", LIMIT), left("r(a^)", &[2], 1));
    assert_eq!(order("r(!b,a)", "r(b,a^)", LIMIT), left("r(a^)", &[1], 1));
    // Not where the edge is plain; not further than it goes.
    assert_eq!(order("r(a,b)", "r(a^,b)", LIMIT), left("r(a^,b)", &[], 1));
    assert_eq!(
        order("r(!a(b))", "r^(a(b))", LIMIT),
        left("r^(a(b))", &[], 1)
    );
    assert_eq!(order("r(!a(!b))", "r^//b", LIMIT), left("r^", &[1], 1));
}

#[test]
fn an_inner_node_becomes_a_leaf() {
    assert_eq!(
        order("r(!a(!b(!c)))", "r^(a(b(c)))", LIMIT),
        left("r^", &[3, 2, 1], 3)
    );
    assert_eq!(order("r(a(!b))", "r^(a(b))", LIMIT), left("r^(a)", &[2], 2));
}

#[test]
fn numbers_are_those_of_the_case_in_striking_order() {
    // a is no leaf before b is struck, and comes before c then.
    assert_eq!(
        order("r(!a(!b),!c)", "r^(a(b),c)", LIMIT),
        left("r^", &[2, 1, 3], 3)
    );
    // What stays is renumbered: c and b below it were 3 and 4.
    assert_eq!(
        order("r(!a(!b),c(b))", "r^(a(b),c(b))", LIMIT),
        left("r^(c(b))", &[2, 1], 3)
    );
}

#[test]
fn of_equal_leaves_the_lower_goes() {
    assert_eq!(order("r(a)", "r^(a,a)", LIMIT), left("r^(a)", &[1], 2));
    assert_eq!(
        order("r(a,b)", "r^(a,b,a)", LIMIT),
        // 1 goes; then neither 2 nor 3 does.
        left("r^(b,a)", &[1], 3)
    );
    // Equal children with something below one of them: the bare one says nothing.
    assert_eq!(
        order("r(a(b))", "r^(a(b),a)", LIMIT),
        left("r^(a(b))", &[3], 3)
    );
}

#[test]
fn the_root_and_what_holds_a_position_stay() {
    for first in ["r^", "r(a^)", "r^(a^2)", "r(a^,a^2)"] {
        assert_eq!(order("r(!a)", first, LIMIT), left(first, &[], 0));
    }
    // A root without a position and without children, as far as it can be.
    assert_eq!(order("r(!a)", "r(a^,a)", LIMIT), left("r(a^)", &[2], 1));
}

#[test]
fn a_leaf_goes_within_the_limit_or_stays() {
    // Without one of the two there are three placements.
    let (outline, first) = ("r(a,b,c)", "r^(0,0)");
    assert_eq!(order(outline, first, 2), left(first, &[], 4));
    assert_eq!(order(outline, first, 3), left("r^(0)", &[1], 4));
    assert_eq!(order(outline, first, LIMIT), left("r^(0)", &[1], 4));
}

#[test]
fn after_a_strike_it_starts_over_with_what_was_kept() {
    // Without a there are three placements, without the other one there is one.
    let (outline, first) = ("r(!a,b,c)", "r^(a,//0)");
    assert_eq!(order(outline, first, 2), left("r^", &[2, 1], 2 + 1 + 1));
    assert_eq!(order(outline, first, 3), left("r^", &[1, 2], 3 + 1));
    // Kept leaves are paid again: b by one trial in each of three rounds.
    assert_eq!(
        order("r(!a,b,!c)", "r^(b,a,c)", LIMIT),
        left("r^(b)", &[2, 3], 1 + 1 + 1 + 1 + 1)
    );
}

#[test]
fn without_placements_a_leaf_goes_free_of_charge() {
    // No other label than the outline's at the root: nothing has a placement.
    assert_eq!(
        order("r(a)", "b^(a,a(c))", LIMIT),
        left("b^", &[1, 3, 2], 0)
    );
    // c is nowhere: it stays, and all else goes.
    assert_eq!(order("r(a)", "r^(a,c)", LIMIT), left("r^(c)", &[1], 1));
    assert_eq!(order("r(a)", "r^(c,a)", LIMIT), left("r^(c)", &[2], 2));
    assert_eq!(
        order("r(a(b))", "r^(a(b),b(a))", LIMIT),
        left("r^(b)", &[2, 1, 4], 1)
    );
}

#[test]
fn the_set_is_asked_about_and_not_used() {
    let (outline, first) = ("r(!a(!b),c)", "r^(a(b),c)");
    let wanted = left("r^(c)", &[2, 1], 3);
    for members in [&["r^"][..], &["b^", "0^(c,c,c)"], &["r^(a(b),c)"; 8]] {
        assert_eq!(shortened(&set_case(outline, first, members), LIMIT), wanted);
    }
    let refused = |case: &[u8]| minimise_refusal(case, 1, 0, &[0; CALLERS], 8_192);
    assert_eq!(refused(&set_case(outline, first, &[])), 14);
    assert_eq!(refused(&set_case(outline, first, &["r^"; 9])), 14);
    assert_eq!(refused(&set_case(outline, first, &["r^", "r"])), 8);
    assert_eq!(refused(&set_case(outline, first, &["r^", "r(a^)"])), 0);
}

#[test]
fn question_9_asks_room_for_120_verdicts() {
    let order = case("r(!a)", "r^(a)", "r^");
    for limit in [1, 7, LIMIT] {
        let most = TALLY_MOST - VERDICTS_MOST * limit;
        for (tally, refused) in [
            (most, 0),
            (most + 1, 9),
            (TALLY_MOST - limit, 9),
            (u64::MAX - VERDICTS_MOST * limit + 1, 9),
            (u64::MAX - limit + 1, 9),
            (u64::MAX, 9),
        ] {
            let mut tallies = [u64::MAX; CALLERS];
            tallies[6] = tally;
            let (mut after, mut answer) = (tallies, [0xAA; 8_192]);
            let got = minimise(&order, limit, 6, &mut after, &mut answer);
            assert_eq!(got.refused, refused);
            if refused == 0 {
                tallies[6] += 1;
                assert_eq!((got.struck, got.tried), (1, 1));
            } else {
                assert_eq!((got.struck, got.tried), (0, 0));
                assert_eq!(answer, [0xAA; 8_192]);
            }
            assert_eq!(after, tallies);
        }
    }
}

#[test]
fn the_other_questions_are_the_verdicts() {
    let order = case("r(!a)", "r^(a)", "r^");
    let full = [u64::MAX; CALLERS];
    let refusal = |limit, caller, length| minimise_refusal(&order, limit, caller, &full, length);
    assert_eq!(refusal(0, 8, 8_191), 1);
    assert_eq!(refusal(LIMIT + 1, 8, 8_191), 1);
    assert_eq!(refusal(1, 8, 8_191), 2);
    assert_eq!(refusal(1, 8, 8_192), 16);
    assert_eq!(refusal(1, 7, 8_192), 9);
    let unheld = case("r(!a)", "r(a)", "r");
    assert_eq!(minimise_refusal(&unheld, 1, 8, &full, 8_192), 8);
}

#[test]
fn an_order_as_a_client_writes_it() {
    // The set's bytes are no part of what is written, nor is any trial.
    let bytes = case("r(!a(!b),c)", "r^(a(b),c)", "r^");
    let mut answer = [0xAA; 8_192];
    minimise(&bytes, LIMIT, 0, &mut [0; CALLERS], &mut answer);
    let wanted = [2, 0, 1, 0, 1, 0, 0, 4, 0, 0, 0, 2, 2, 1];
    assert_eq!(answer[..28], list(&wanted));
}
