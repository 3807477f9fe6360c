//! What an accepted order's answer means, by the library's verdicts: "The two selections have the same
//! results in every fitting volume, and no remaining such leaf would be struck."

use crate::compare::{hold, Difference};
use cadwezin::{ffi, Tallies, ANSWER_BYTES, LIMIT_MOST};
use reference::records::{read_case, Case, SelectionNode};
use reference::striking::{candidates, without};
use reference::trials::count_placements;

/// Holds what stands in the buffer to the case that it was made of.
pub fn holds(case: &[u8], limit: u64, answer: &[u8]) -> Result<(), Difference> {
    let old = read_case(case).map_err(|refused| format!("the case is refused {refused}"))?;
    let (left, struck) = written(&old, answer)?;
    remains(&old.first, &left, &struck)?;
    let over = |first: &[SelectionNode], member: &[SelectionNode]| Case {
        first: first.to_vec(),
        set: vec![member.to_vec()],
        ..old.clone()
    };
    for (first, member) in [(&left, &old.first), (&old.first, &left)] {
        let all = count_placements(&old.outline, first);
        let expected = if all > LIMIT_MOST {
            (ffi::STOPPED, LIMIT_MOST)
        } else {
            (ffi::CONTAINED, all)
        };
        let got = judged(&over(first, member), LIMIT_MOST)?;
        hold(got == expected, || {
            format!("what is left and what was: kind and tried {got:?} and not {expected:?}")
        })?;
    }
    for leaf in candidates(&left) {
        let (kind, _) = judged(&over(&without(&left, leaf), &left), limit)?;
        hold(kind != ffi::CONTAINED, || {
            format!("node {leaf} of what is left would be struck")
        })?;
    }
    Ok(())
}

/// The selection that is left, and the struck numbers. A case with it is accepted, so it is whole.
fn written(old: &Case, answer: &[u8]) -> Result<(Vec<SelectionNode>, Vec<usize>), Difference> {
    let field = |at: usize| {
        answer[at..at + 2]
            .iter()
            .rev()
            .fold(0, |n, &b| n << 8 | usize::from(b))
    };
    let end = (2 + 10 * field(0)).min(answer.len() / 2);
    let member = Case {
        set: vec![old.first.clone()],
        ..old.clone()
    };
    // The section stands in the place of the only member.
    let mut bytes = member.bytes();
    bytes.truncate(bytes.len() - 2 - 10 * old.first.len());
    bytes.extend(&answer[..end]);
    let read = read_case(&bytes).map_err(|refused| format!("what is left is refused {refused}"))?;
    let struck = (0..field(end).min(old.first.len())).map(|index| field(end + 2 + 2 * index));
    Ok((read.set[0].clone(), struck.collect()))
}

/// What is left is the old selection without the struck nodes, each a leaf when it went.
fn remains(
    old: &[SelectionNode],
    left: &[SelectionNode],
    struck: &[usize],
) -> Result<(), Difference> {
    let mut present = old.to_vec();
    let mut numbers: Vec<usize> = (0..old.len()).collect();
    for number in struck {
        let leaf = numbers.iter().position(|own| own == number);
        let leaf = leaf.filter(|leaf| candidates(&present).contains(leaf));
        let leaf = leaf.ok_or_else(|| format!("node {number} is none that may go"))?;
        numbers.remove(leaf);
        present = without(&present, leaf);
    }
    hold(left == present, || {
        format!("what is left: {left:?} and not {present:?}")
    })
}

/// Kind and tried of a verdict of the library, by a caller who has made none before.
fn judged(case: &Case, limit: u64) -> Result<(u64, u64), Difference> {
    let (mut tallies, mut answer) = (Tallies::default(), [0; ANSWER_BYTES]);
    let got = ffi::verdict(&case.bytes(), limit, 0, &mut tallies, &mut answer);
    hold(got.refused == 0, || {
        format!("a verdict on what is left is refused {}", got.refused)
    })?;
    Ok((got.kind, got.tried))
}
