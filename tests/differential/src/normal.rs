//! What a case that is written in one way means, by the library's calls: "Two accepted cases are written
//! alike exactly when renumbering nodes turns one into the other. Writing twice changes nothing, and the kind
//! of verdict with a limit of at least the number of placements stays." Whether numbers alone differ is told
//! by matching node with node, and by no order.

use crate::compare::{hold, Difference};
use crate::lent::Loans;
use cadwezin::{ffi, Tallies, ANSWER_BYTES, LIMIT_MOST};
use reference::generate::{alike, altered_case, renumbered_case, Prng};
use reference::records::{read_case, Case};
use reference::trials::count_placements;
use reference::vectors::fnv1a;

/// How many cases with one stroke on them are written beside each.
const NEARLY: usize = 2;

/// Holds what was written to the case.
pub fn holds(case: &[u8], normal: &[u8], loans: &mut Loans) -> Result<(), Difference> {
    let old = read(case)?;
    hold(alike(&read(normal)?, &old), || {
        "what is written is another case".to_string()
    })?;
    let mut prng = Prng::new(fnv1a(case));
    let renumbered = renumbered_case(&mut prng, &old);
    for (bytes, what) in [
        (normal, "written again, it"),
        (&renumbered.bytes(), "the case under other numbers"),
    ] {
        let again = written(bytes, loans)?;
        hold(again == normal, || {
            let shown: String = bytes.iter().map(|byte| format!("{byte:02x}")).collect();
            format!("{what} is written otherwise: {shown}")
        })?;
    }
    for _ in 0..NEARLY {
        if let Some(other) = altered_case(&mut prng, &renumbered) {
            nearly(&old, normal, &other, loans)?;
        }
    }
    kind_stays(&old, normal)
}

/// Another case is written otherwise, and the same one is not.
fn nearly(old: &Case, normal: &[u8], other: &Case, loans: &mut Loans) -> Result<(), Difference> {
    let bytes = other.bytes();
    let numbers_alone = alike(old, other);
    let same = written(&bytes, loans)? == normal;
    hold(same == numbers_alone, || {
        let shown: String = bytes.iter().map(|byte| format!("{byte:02x}")).collect();
        let what = if same { "alike" } else { "otherwise" };
        format!("written {what}, and numbers alone differ: {numbers_alone}: {shown}")
    })
}

/// The kind, and tried where all trials pass, unless there are more placements than a limit can be.
fn kind_stays(old: &Case, normal: &[u8]) -> Result<(), Difference> {
    let all = count_placements(&old.outline, &old.first);
    if all > LIMIT_MOST {
        return Ok(());
    }
    let (before, after) = (judged(&old.bytes())?, judged(normal)?);
    hold(before.0 == after.0 && before.0 != ffi::STOPPED, || {
        format!("kind and tried {before:?} of the case, {after:?} of what is written")
    })?;
    let included = before.0 == ffi::CONTAINED;
    hold(!included || (before.1, after.1) == (all, all), || {
        format!("tried {before:?} and {after:?}, of {all} placements")
    })
}

fn read(case: &[u8]) -> Result<Case, Difference> {
    read_case(case).map_err(|refused| format!("a case to be written is refused {refused}"))
}

/// What the library writes for an accepted case; the rest of the buffer stays.
fn written(case: &[u8], loans: &mut Loans) -> Result<Vec<u8>, Difference> {
    let got = ffi::normalise(case, loans.bytes.lend(ANSWER_BYTES));
    hold((got.refused, got.count) == (0, case.len() as u64), || {
        format!("a case of {} bytes: {got:?}", case.len())
    })?;
    hold(loans.bytes.untouched_from(case.len()), || {
        "the buffer is altered outside what was written".to_string()
    })?;
    Ok(loans.bytes.now()[..case.len()].to_vec())
}

/// Kind and tried of a verdict of the library, with the greatest limit.
fn judged(case: &[u8]) -> Result<(u64, u64), Difference> {
    let (mut tallies, mut answer) = (Tallies::default(), [0; ANSWER_BYTES]);
    let got = ffi::verdict(case, LIMIT_MOST, 0, &mut tallies, &mut answer);
    hold(got.refused == 0, || {
        format!("a verdict on what is written is refused {}", got.refused)
    })?;
    Ok((got.kind, got.tried))
}
