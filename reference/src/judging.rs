//! The verdict on a case: its trials, in order and up to a limit.

use crate::embedding::Shape;
use crate::records::{holder, Case};
use crate::trials::{each_placement, lay_out, Trial};

pub const NONE: u64 = 0;
pub const INCLUDED: u64 = 1;
pub const NOT_INCLUDED: u64 = 2;
pub const STOPPED: u64 = 3;

/// The kind, how many were tried, and the earliest trial that does not pass.
pub fn judge(case: &Case, limit: u64) -> (u64, u64, Option<Trial>) {
    let set: Vec<Shape> = case.set.iter().map(|member| Shape::new(member)).collect();
    let (mut kind, mut tried, mut failed) = (INCLUDED, 0, None);
    each_placement(&case.outline, &case.first, |placement| {
        if tried == limit {
            // "the first L all pass and there are more"
            kind = STOPPED;
            return false;
        }
        tried += 1;
        let trial = lay_out(&case.outline, &case.first, placement);
        if passes(case, &trial, &set) {
            return true;
        }
        kind = NOT_INCLUDED;
        failed = Some(trial);
        false
    });
    (kind, tried, failed)
}

/// "A trial passes if its result is a result of at least one of them": the
/// first selection's own nodes at positions 1 to k, as one list.
fn passes(case: &Case, trial: &Trial, set: &[Shape]) -> bool {
    let volume = trial.volume(&case.outline);
    let result = own_result(case, trial);
    set.iter().any(|member| member.is_result(&volume, &result))
}

/// The first selection's own nodes at positions 1 to k.
pub fn own_result(case: &Case, trial: &Trial) -> Vec<usize> {
    (1..=case.positions)
        .filter_map(|position| holder(&case.first, position))
        .map(|q| trial.own[q])
        .collect()
}
