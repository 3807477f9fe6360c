//! The filed cases of `tests/old`, in the old form: each moved over by the library and the reference, and
//! back where it is accepted.

use crate::compare::compare;
use crate::lent::Loans;
use cadwezin::ANSWER_BYTES;
use reference::vectors::{Vector, UPGRADE};

const STORED: &[u8] = include_bytes!("../../old/stored.cases");

/// How many of the stored ones are accepted, and how many each of the questions 3 to 8 refuses.
const EXPECTED: [usize; 7] = [32, 83, 21, 47, 27, 47, 24];

macro_rules! examples {
    ($($name:literal),*) => {
        [$((
            include_bytes!(concat!("../../old/examples/", $name, ".case")),
            include_bytes!(concat!("../../examples/", $name, ".case")),
        )),*]
    };
}

/// E1 to E9 in the old form and with a set of one.
const EXAMPLES: [(&[u8], &[u8]); 10] =
    examples!("e1", "e2", "e3", "e4", "e5", "e6", "e7", "e8-same", "e8-other", "e9");

/// How many were accepted and refused, in words; or what differs.
pub fn filed(loans: &mut Loans) -> Result<String, String> {
    for (old, new) in EXAMPLES {
        let got = compare(&vector(old), loans)?;
        let mut answer = [0; ANSWER_BYTES];
        if got.refused != 0 || cadwezin::upgrade(old, &mut answer) != Ok(new) {
            return Err("an example does not become the one with a set".to_string());
        }
    }
    let mut found = [0; EXPECTED.len()];
    for case in stored() {
        let got = compare(&vector(case), loans)?;
        match got.refused {
            0 => found[0] += 1,
            question @ 3..=8 => found[question as usize - 2] += 1,
            other => return Err(format!("an old case is refused {other}")),
        }
    }
    if found != EXPECTED {
        return Err(format!("the stored cases: {found:?} and not {EXPECTED:?}"));
    }
    let [accepted, refused @ ..] = found;
    Ok(format!(
        "{} filed examples and {} of {} stored cases moved there and back, the others refused by question 3 to 8",
        EXAMPLES.len(),
        accepted,
        accepted + refused.iter().sum::<usize>()
    ))
}

fn vector(case: &[u8]) -> Vector {
    Vector {
        call: UPGRADE,
        length: ANSWER_BYTES as u64,
        case: case.to_vec(),
        ..Vector::default()
    }
}

/// Each has its length before it, four bytes with the low byte first.
fn stored() -> impl Iterator<Item = &'static [u8]> {
    let mut rest = STORED;
    std::iter::from_fn(move || {
        let (length, after) = rest.split_first_chunk::<4>()?;
        let (case, after) = after.split_at_checked(u32::from_le_bytes(*length) as usize)?;
        rest = after;
        Some(case)
    })
}
