//! Whose a verdict or a striking out is. It is drawn apart from everything else, so that one seed
//! gives the same cases, limits and tallies whoever calls.

use super::plan::TALLIED;
use super::prng::{Prng, Seed};
use crate::calls::CALLERS;
use crate::vectors::Vector;

const WIDE: u64 = 1 << 32;

/// Callers that question 16 refuses: just past the last, and those of which
/// fewer bits would be 0 to 7.
pub const REFUSED: [u64; 15] = [
    CALLERS as u64,
    9,
    255,
    256,
    65_536,
    WIDE,
    WIDE + 1,
    WIDE + 2,
    WIDE + 3,
    WIDE + 4,
    WIDE + 5,
    WIDE + 6,
    WIDE + 7,
    1 << 63,
    u64::MAX,
];

/// A caller for each call that has one; so many in a hundred have one that is
/// refused.
pub fn draw(seed: Seed, refused: usize, mut vectors: Vec<Vector>) -> Vec<Vector> {
    let mut prng = Prng::new(!seed.number());
    for vector in tallied(&mut vectors) {
        vector.caller = match prng.one_of(&REFUSED) {
            Some(&caller) if prng.percent(refused) => caller,
            _ => prng.below(CALLERS) as u64,
        };
    }
    vectors
}

/// The eight callers by turns, where a call's own is one of them.
pub fn by_turns(mut vectors: Vec<Vector>) -> Vec<Vector> {
    let accepted = tallied(&mut vectors).filter(|vector| vector.caller < CALLERS as u64);
    for (turn, vector) in accepted.enumerate() {
        vector.caller = (turn % CALLERS) as u64;
    }
    vectors
}

fn tallied(vectors: &mut [Vector]) -> impl Iterator<Item = &mut Vector> {
    vectors
        .iter_mut()
        .filter(|vector| TALLIED.contains(&vector.call))
}
