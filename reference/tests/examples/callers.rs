//! The readings of request #104: eight tallies, of which a verdict reads and
//! raises its caller's alone.

use super::{e6, LIMIT};
use crate::notation::case;
use reference::calls::TALLY_MOST;
use reference::*;

/// E6 has two trials.
const TRIED: u64 = 2;

/// Numbers that no caller but their own has to do with.
const ANYTHING: Tallies = [
    0,
    u64::MAX,
    TALLY_MOST,
    TALLY_MOST + 1,
    3,
    u64::MAX - 1,
    1 << 32,
    TALLY_MOST - 1,
];

/// `ANYTHING` with another tally for one caller.
fn holding(caller: usize, tally: u64) -> Tallies {
    let mut tallies = ANYTHING;
    tallies[caller] = tally;
    tallies
}

/// What a verdict on E6 answers, and the tallies after it; a refusal leaves
/// these and the buffer as they were.
fn called(limit: u64, caller: u64, mut tallies: Tallies) -> (VerdictAnswer, Tallies) {
    let (before, mut answer) = (tallies, [0xAA; 8_192]);
    let got = verdict(&e6(), limit, caller, &mut tallies, &mut answer);
    if got.refused != 0 {
        assert_eq!((got.kind, got.tried), (0, 0));
        assert_eq!((tallies, answer), (before, [0xAA; 8_192]));
    }
    (got, tallies)
}

fn refusal(limit: u64, caller: u64, tallies: &Tallies) -> u64 {
    verdict_refusal(&e6(), limit, caller, tallies, 8_192)
}

#[test]
fn the_callers_tally_grows_and_no_other() {
    for caller in 0..CALLERS {
        for tally in [0, 5, TALLY_MOST - LIMIT] {
            let (got, tallies) = called(LIMIT, caller as u64, holding(caller, tally));
            assert_eq!((got.refused, got.tried), (0, TRIED));
            assert_eq!(tallies, holding(caller, tally + TRIED));
        }
    }
}

#[test]
fn question_9_is_about_the_callers_tally() {
    for caller in 0..CALLERS {
        for (tally, refused) in [
            (TALLY_MOST - LIMIT, 0),
            (TALLY_MOST - LIMIT + 1, 9),
            (u64::MAX - LIMIT + 1, 9),
            (u64::MAX, 9),
        ] {
            let (got, _) = called(LIMIT, caller as u64, holding(caller, tally));
            assert_eq!(got.refused, refused);
        }
    }
}

#[test]
fn all_at_the_bound_and_the_caller_one_below() {
    let bound = [TALLY_MOST; CALLERS];
    for caller in 0..CALLERS {
        let named = caller as u64;
        assert_eq!(called(1, named, bound).0.refused, 9);
        let mut below = bound;
        below[caller] -= 1;
        let (got, tallies) = called(1, named, below);
        assert_eq!((got.refused, got.tried, tallies), (0, 1, bound));
    }
}

#[test]
fn callers_are_0_to_7() {
    for tallies in [[0; CALLERS], [TALLY_MOST; CALLERS], ANYTHING] {
        for nobody in [8, 9, 255, 256, 1 << 32, 1 << 63, u64::MAX] {
            assert_eq!(called(1, nobody, tallies).0.refused, 16);
        }
        for low in 0..8 {
            assert_eq!(called(1, (1 << 32) + low, tallies).0.refused, 16);
        }
    }
    assert_eq!(refusal(1, 7, &[0; CALLERS]), 0);
}

#[test]
fn question_16_comes_after_8_and_before_9() {
    let full = [u64::MAX; CALLERS];
    let unheld = case("r", "r", "r");
    assert_eq!(verdict_refusal(&unheld, 1, 8, &full, 8_192), 8);
    assert_eq!(refusal(1, 8, &full), 16);
    assert_eq!(refusal(1, 7, &full), 9);
    assert_eq!(refusal(0, 8, &full), 1);
    assert_eq!(verdict_refusal(&e6(), 1, 8, &full, 8_191), 2);
}

/// Two runs with the same calls of caller 2 in the same order: alone, and with
/// other calls between them and other tallies of the others.
#[test]
fn a_caller_receives_the_same_whatever_the_others_do() {
    let start = TALLY_MOST - 5;
    let mut alone = holding(2, start);
    let mut among = [start; CALLERS];
    let mut sum = 0;
    for limit in [1, 2, 3, 2, 1] {
        for other in [0, 8, 7, 3, 7] {
            sum += called_on(&mut among, 1, other).tried;
        }
        let got = called_on(&mut among, limit, 2);
        assert_eq!(got, called_on(&mut alone, limit, 2));
        assert_eq!(among[2], alone[2]);
        sum += got.tried;
    }
    assert_eq!(alone, holding(2, start + 1 + 2 + 2));
    // "The eight together equal their start plus the sum of tried".
    assert_eq!(among.iter().sum::<u64>(), CALLERS as u64 * start + sum);
}

fn called_on(tallies: &mut Tallies, limit: u64, caller: u64) -> VerdictAnswer {
    let (got, after) = called(limit, caller, *tallies);
    *tallies = after;
    got
}
