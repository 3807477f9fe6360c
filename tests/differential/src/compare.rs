//! One call of the library and one of the reference, held to each other whole: the answer, the eight
//! tallies, and the lent buffer or table, each with what stands around it. A refusal also has zero in
//! every other field and leaves everything as it was. A case that is moved is also moved back, an order
//! that is shortened is also judged, before and after (`shortened`), and a case that is written in one way is
//! also written under other numbers and nearly alike (`normal`).

use crate::lent::{Lent, Loans};
use crate::{normal, shortened};
use cadwezin::{ffi, NodeRecord, Tallies, ANSWER_BYTES};
use reference::vectors::{
    fnv1a, Vector, DOWNGRADE, FITS, IS_RESULT, MINIMISE, NODES_AT, NORMALISE, PATHS, UPGRADE,
    VERDICT,
};
use reference::NodeRecord as ReferenceRecord;

/// What a call answered, as far as it is counted: for a verdict its kind, for a test whether it holds,
/// for an order how many nodes were struck, for a case that is written in one way whether it is another one,
/// and how many trials, nodes, paths or bytes there were.
#[derive(Clone, Copy, Debug, PartialEq, Eq)]
pub struct Answered {
    pub refused: u64,
    pub value: u64,
    pub size: u64,
}

/// What differs, in words.
pub type Difference = String;

pub fn compare(vector: &Vector, loans: &mut Loans) -> Result<Answered, Difference> {
    match vector.call {
        VERDICT => verdict(vector, loans),
        FITS => fits(vector),
        IS_RESULT => is_result(vector),
        NODES_AT => nodes_at(vector, loans),
        PATHS => paths(vector),
        UPGRADE => {
            let answered = written(vector, loans, ffi::upgrade, reference::upgrade)?;
            returns(vector, loans, answered, ffi::downgrade)?;
            judged_alike(vector, loans, answered)?;
            Ok(answered)
        }
        DOWNGRADE => {
            let answered = written(vector, loans, ffi::downgrade, reference::downgrade)?;
            returns(vector, loans, answered, ffi::upgrade)?;
            Ok(answered)
        }
        NORMALISE => {
            let answered = written(vector, loans, ffi::normalise, reference::normalise)?;
            if answered.refused != 0 {
                return Ok(answered);
            }
            let normal = loans.bytes.now()[..answered.size as usize].to_vec();
            normal::holds(&vector.case, &normal, loans)?;
            Ok(Answered {
                value: u64::from(normal != vector.case),
                ..answered
            })
        }
        MINIMISE => {
            let answered = minimise(vector, loans)?;
            if answered.refused == 0 {
                shortened::holds(&vector.case, vector.limit, loans.bytes.now())?;
            }
            Ok(answered)
        }
        _ => layout(vector, loans),
    }
}

fn verdict(vector: &Vector, loans: &mut Loans) -> Result<Answered, Difference> {
    let (case, limit, caller) = (&vector.case, vector.limit, vector.caller);
    let answered = tallied(
        vector,
        loans,
        |tallies, lent| {
            let got = ffi::verdict(case, limit, caller, tallies, lent);
            (got.refused, got.kind, got.tried)
        },
        |tallies, lent| {
            let got = reference::verdict(case, limit, caller, tallies, lent);
            (got.refused, got.kind, got.tried)
        },
    )?;
    let written = if answered.value == ffi::NOT_CONTAINED {
        sections_bytes(loans.bytes.now(), 3)
    } else {
        0
    };
    buffers(loans, written)?;
    Ok(answered)
}

fn minimise(vector: &Vector, loans: &mut Loans) -> Result<Answered, Difference> {
    let (case, limit, caller) = (&vector.case, vector.limit, vector.caller);
    let answered = tallied(
        vector,
        loans,
        |tallies, lent| {
            let got = ffi::minimise(case, limit, caller, tallies, lent);
            (got.refused, got.struck, got.tried)
        },
        |tallies, lent| {
            let got = reference::minimise(case, limit, caller, tallies, lent);
            (got.refused, got.struck, got.tried)
        },
    )?;
    let written = if answered.refused == 0 {
        sections_bytes(loans.bytes.now(), 5)
    } else {
        0
    };
    buffers(loans, written)?;
    Ok(answered)
}

/// A call that raises its caller's tally: refused, what it tells besides, and tried.
fn tallied(
    vector: &Vector,
    loans: &mut Loans,
    ours: impl FnOnce(&mut Tallies, &mut [u8]) -> (u64, u64, u64),
    theirs: impl FnOnce(&mut reference::Tallies, &mut [u8]) -> (u64, u64, u64),
) -> Result<Answered, Difference> {
    let length = vector.length as usize;
    let before = Tallies {
        counts: vector.tallies(),
    };
    // The middle one is lent.
    let mut tallies = [before; 3];
    let mut their_tallies = before.counts;
    let ours = ours(&mut tallies[1], loans.bytes.lend(length));
    let theirs = theirs(&mut their_tallies, loans.reference_bytes.lend(length));
    same("the answer", ours, theirs)?;
    same("the tallies", tallies[1].counts, their_tallies)?;
    let (refused, value, tried) = ours;
    let mut raised = [before; 3];
    if let Some(own) = raised[1].counts.get_mut(vector.caller as usize) {
        *own += tried;
    }
    hold(tallies == raised, || {
        format!("the tallies: {tallies:?} and not {raised:?}")
    })?;
    refusal(refused, &[value, tried])?;
    Ok(Answered {
        refused,
        value,
        size: tried,
    })
}

fn fits(vector: &Vector) -> Result<Answered, Difference> {
    let ours = ffi::fits(&vector.case, &vector.volume);
    let theirs = reference::fits(&vector.case, &vector.volume);
    tested(ours, theirs)
}

fn is_result(vector: &Vector) -> Result<Answered, Difference> {
    let (case, volume, list) = (&vector.case, &vector.volume, &vector.list);
    let ours = ffi::is_result(case, vector.selection, volume, list);
    let theirs = reference::is_result(case, vector.selection, volume, list);
    tested(ours, theirs)
}

fn tested(ours: ffi::TestAnswer, theirs: reference::TestAnswer) -> Result<Answered, Difference> {
    same(
        "the answer",
        (ours.refused, ours.holds),
        (theirs.refused, u64::from(theirs.holds)),
    )?;
    refusal(ours.refused, &[ours.holds])?;
    Ok(Answered {
        refused: ours.refused,
        value: ours.holds,
        size: 0,
    })
}

fn nodes_at(vector: &Vector, loans: &mut Loans) -> Result<Answered, Difference> {
    let (selection, position) = (vector.selection, vector.position);
    let length = vector.length as usize;
    let lent = loans.bytes.lend(length);
    let ours = ffi::nodes_at(&vector.case, selection, &vector.volume, position, lent);
    let lent = loans.reference_bytes.lend(length);
    let theirs = reference::nodes_at(&vector.case, selection, &vector.volume, position, lent);
    let answered = counted(ours, theirs)?;
    let written = if ours.refused == 0 {
        2 + 2 * ours.count as usize
    } else {
        0
    };
    buffers(loans, written)?;
    Ok(answered)
}

fn paths(vector: &Vector) -> Result<Answered, Difference> {
    let ours = ffi::paths(&vector.case, vector.selection);
    let theirs = reference::paths(&vector.case, vector.selection);
    same("the refusal", ours.refused, theirs.refused)?;
    same("the masks", ours.masks, theirs.masks)?;
    same("the counts", ours.counts, theirs.counts)?;
    refusal(ours.refused, &[ours.masks, ours.counts].concat())?;
    Ok(Answered {
        refused: ours.refused,
        value: 0,
        size: ours.counts.iter().sum(),
    })
}

fn layout(vector: &Vector, loans: &mut Loans) -> Result<Answered, Difference> {
    let length = vector.length as usize;
    let lent = loans.records.lend(length);
    let ours = ffi::layout(&vector.case, vector.selection, &vector.list, lent);
    let lent = loans.reference_records.lend(length);
    let theirs = reference::layout(&vector.case, vector.selection, &vector.list, lent);
    let answered = counted(ours, theirs)?;
    let count = ours.count as usize;
    let (nodes, their_nodes) = (loans.records.now(), loans.reference_records.now());
    let mut pairs = nodes.iter().zip(their_nodes).take(count);
    let alike = pairs.all(|(node, their_node)| numbers(node) == their_numbers(their_node));
    hold(alike, || "the records are not the reference's".to_string())?;
    rest("the table", &loans.records, count)?;
    rest("the reference's table", &loans.reference_records, count)?;
    Ok(answered)
}

type Write<A> = fn(&[u8], &mut [u8]) -> A;

/// A call that writes a case: moved to the other form, or in the one way.
fn written(
    vector: &Vector,
    loans: &mut Loans,
    ours: Write<ffi::CountAnswer>,
    theirs: Write<reference::CountAnswer>,
) -> Result<Answered, Difference> {
    let length = vector.length as usize;
    let ours = ours(&vector.case, loans.bytes.lend(length));
    let theirs = theirs(&vector.case, loans.reference_bytes.lend(length));
    let answered = counted(ours, theirs)?;
    buffers(loans, ours.count as usize)?;
    Ok(answered)
}

/// "Old to new to old gives the same bytes, and so does the other way round, for every accepted case":
/// what was written is given to the library's other call.
fn returns(
    vector: &Vector,
    loans: &mut Loans,
    answered: Answered,
    back: Write<ffi::CountAnswer>,
) -> Result<(), Difference> {
    if answered.refused != 0 {
        return Ok(());
    }
    let written = loans.bytes.now()[..answered.size as usize].to_vec();
    let got = back(&written, loans.bytes.lend(ANSWER_BYTES));
    let whole = (0, vector.case.len() as u64);
    same("the way back", (got.refused, got.count), whole)?;
    let returned = loans.bytes.now().get(..vector.case.len());
    hold(returned == Some(&vector.case[..]), || {
        "the case does not come back".to_string()
    })?;
    rest("the way back's buffer", &loans.bytes, vector.case.len())
}

/// Of one accepted old case in sixteen the verdict, on what it has become.
fn judged_alike(vector: &Vector, loans: &mut Loans, answered: Answered) -> Result<(), Difference> {
    if answered.refused != 0 || fnv1a(&vector.case) & 15 != 0 {
        return Ok(());
    }
    let case = loans.reference_bytes.now()[..answered.size as usize].to_vec();
    let judged = Vector {
        call: VERDICT,
        limit: 100,
        length: ANSWER_BYTES as u64,
        case,
        ..Vector::default()
    };
    let got = verdict(&judged, loans)?;
    same("the refusal of a case moved over", got.refused, 0)
}

fn numbers(record: &NodeRecord) -> (usize, usize, u16, u16) {
    let (parent, at) = (record.parent.0, record.at.0);
    (parent, at, record.label, record.figure)
}

fn their_numbers(record: &ReferenceRecord) -> (usize, usize, u16, u16) {
    let (parent, at) = (record.parent.into(), record.outline.into());
    (parent, at, record.label, record.figure)
}

fn counted(ours: ffi::CountAnswer, theirs: reference::CountAnswer) -> Result<Answered, Difference> {
    same(
        "the answer",
        (ours.refused, ours.count),
        (theirs.refused, theirs.count),
    )?;
    refusal(ours.refused, &[ours.count])?;
    Ok(Answered {
        refused: ours.refused,
        value: 0,
        size: ours.count,
    })
}

/// How many bytes a section with records of so many fields takes, and a counted list after it: a shown
/// document and result, or a shortened pattern and what was struck.
fn sections_bytes(answer: &[u8], fields: usize) -> usize {
    let field = |at: usize| match answer.get(at..at + 2) {
        Some(bytes) => usize::from(u16::from_le_bytes([bytes[0], bytes[1]])),
        None => 0,
    };
    let list = 2 + 2 * fields * field(0);
    list + 2 + 2 * field(list)
}

/// The two buffers are alike, and unaltered outside what was written.
fn buffers(loans: &Loans, written: usize) -> Result<(), Difference> {
    let (ours, theirs) = (loans.bytes.now(), loans.reference_bytes.now());
    hold(ours == theirs, || {
        "the buffer is not the reference's".to_string()
    })?;
    rest("the buffer", &loans.bytes, written)?;
    rest("the reference's buffer", &loans.reference_bytes, written)
}

fn rest<T: Copy + PartialEq>(what: &str, lent: &Lent<T>, written: usize) -> Result<(), Difference> {
    hold(lent.untouched_from(written), || {
        format!("{what} is altered outside what was written")
    })
}

/// "A refusal holds its number and zero in every other field."
fn refusal(refused: u64, others: &[u64]) -> Result<(), Difference> {
    let zero = others.iter().all(|&field| field == 0);
    hold(refused == 0 || zero, || {
        format!("refused {refused} with {others:?}")
    })
}

/// What differs, unless all is right.
pub fn hold(right: bool, difference: impl Fn() -> Difference) -> Result<(), Difference> {
    if right {
        Ok(())
    } else {
        Err(difference())
    }
}

fn same<T: PartialEq + std::fmt::Debug>(what: &str, ours: T, theirs: T) -> Result<(), Difference> {
    hold(ours == theirs, || {
        format!("{what}: ours {ours:?}, the reference's {theirs:?}")
    })
}
