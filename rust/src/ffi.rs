//! The ten calls as the archive exports them: plain numbers in, answers in C's layout out. The only
//! module with unsafe code.
//!
//! Why the calls below are sound: the exported functions are proved for any bytes, any numbers and
//! slices of any length, the empty one included. They read what is lent and write within the buffer,
//! table or tallies that are lent by `&mut`, keep no pointer and have no state of their own. What nothing
//! proves is that these declarations are those of `crates/cadwezin_c/src/`; so every call is compared
//! with the reference by `tests/differential`.

use crate::{NodeRecord, Tallies};

/// The kind of an accepted verdict; a refused one has kind 0.
pub const CONTAINED: u64 = 1;
pub const NOT_CONTAINED: u64 = 2;
pub const STOPPED: u64 = 3;

/// In every answer `refused` is the refusal's number, or 0 where the call is accepted. A refusal has
/// zero in every other field.
#[repr(C)]
#[derive(Clone, Copy, Debug, PartialEq, Eq)]
pub struct VerdictAnswer {
    pub refused: u64,
    pub kind: u64,
    pub tried: u64,
}

#[repr(C)]
#[derive(Clone, Copy, Debug, PartialEq, Eq)]
pub struct MinimiseAnswer {
    pub refused: u64,
    pub struck: u64,
    pub tried: u64,
}

/// `holds` is 1 for yes and 0 for no.
#[repr(C)]
#[derive(Clone, Copy, Debug, PartialEq, Eq)]
pub struct TestAnswer {
    pub refused: u64,
    pub holds: u64,
}

#[repr(C)]
#[derive(Clone, Copy, Debug, PartialEq, Eq)]
pub struct CountAnswer {
    pub refused: u64,
    pub count: u64,
}

#[repr(C)]
#[derive(Clone, Copy, Debug, PartialEq, Eq)]
pub struct PathsAnswer {
    pub refused: u64,
    pub masks: [u64; 16],
    pub counts: [u64; 16],
}

/// A slice is a pointer and a length.
mod archive {
    use super::{
        CountAnswer, MinimiseAnswer, NodeRecord, PathsAnswer, Tallies, TestAnswer, VerdictAnswer,
    };

    extern "C" {
        pub fn cadwezin_verdict(
            case: *const u8,
            case_length: usize,
            limit: u64,
            caller: u64,
            tallies: *mut Tallies,
            answer: *mut u8,
            answer_length: usize,
        ) -> VerdictAnswer;

        pub fn cadwezin_fits(
            case: *const u8,
            case_length: usize,
            document: *const u8,
            document_length: usize,
        ) -> TestAnswer;

        pub fn cadwezin_result(
            case: *const u8,
            case_length: usize,
            number: u64,
            document: *const u8,
            document_length: usize,
            list: *const u8,
            list_length: usize,
        ) -> TestAnswer;

        pub fn cadwezin_nodes(
            case: *const u8,
            case_length: usize,
            number: u64,
            document: *const u8,
            document_length: usize,
            position: u64,
            answer: *mut u8,
            answer_length: usize,
        ) -> CountAnswer;

        pub fn cadwezin_paths(case: *const u8, case_length: usize, number: u64) -> PathsAnswer;

        pub fn cadwezin_layout(
            case: *const u8,
            case_length: usize,
            number: u64,
            list: *const u8,
            list_length: usize,
            table: *mut NodeRecord,
            table_length: usize,
        ) -> CountAnswer;

        pub fn cadwezin_upgrade(
            case: *const u8,
            case_length: usize,
            answer: *mut u8,
            answer_length: usize,
        ) -> CountAnswer;

        pub fn cadwezin_downgrade(
            case: *const u8,
            case_length: usize,
            answer: *mut u8,
            answer_length: usize,
        ) -> CountAnswer;

        pub fn cadwezin_minimise(
            case: *const u8,
            case_length: usize,
            limit: u64,
            caller: u64,
            tallies: *mut Tallies,
            answer: *mut u8,
            answer_length: usize,
        ) -> MinimiseAnswer;

        pub fn cadwezin_normalise(
            case: *const u8,
            case_length: usize,
            answer: *mut u8,
            answer_length: usize,
        ) -> CountAnswer;
    }
}

pub fn verdict(
    case: &[u8],
    limit: u64,
    caller: u64,
    tallies: &mut Tallies,
    answer: &mut [u8],
) -> VerdictAnswer {
    // SAFETY: each pointer comes from a reference that lasts for the call, with its own length.
    unsafe {
        archive::cadwezin_verdict(
            case.as_ptr(),
            case.len(),
            limit,
            caller,
            tallies,
            answer.as_mut_ptr(),
            answer.len(),
        )
    }
}

pub fn fits(case: &[u8], document: &[u8]) -> TestAnswer {
    // SAFETY: as in `verdict`.
    unsafe { archive::cadwezin_fits(case.as_ptr(), case.len(), document.as_ptr(), document.len()) }
}

pub fn is_result(case: &[u8], number: u64, document: &[u8], list: &[u8]) -> TestAnswer {
    // SAFETY: as in `verdict`.
    unsafe {
        archive::cadwezin_result(
            case.as_ptr(),
            case.len(),
            number,
            document.as_ptr(),
            document.len(),
            list.as_ptr(),
            list.len(),
        )
    }
}

pub fn nodes_at(
    case: &[u8],
    number: u64,
    document: &[u8],
    position: u64,
    answer: &mut [u8],
) -> CountAnswer {
    // SAFETY: as in `verdict`.
    unsafe {
        archive::cadwezin_nodes(
            case.as_ptr(),
            case.len(),
            number,
            document.as_ptr(),
            document.len(),
            position,
            answer.as_mut_ptr(),
            answer.len(),
        )
    }
}

pub fn paths(case: &[u8], number: u64) -> PathsAnswer {
    // SAFETY: as in `verdict`.
    unsafe { archive::cadwezin_paths(case.as_ptr(), case.len(), number) }
}

pub fn layout(case: &[u8], number: u64, list: &[u8], table: &mut [NodeRecord]) -> CountAnswer {
    // SAFETY: as in `verdict`; a record of the archive's has the layout of `NodeRecord`.
    unsafe {
        archive::cadwezin_layout(
            case.as_ptr(),
            case.len(),
            number,
            list.as_ptr(),
            list.len(),
            table.as_mut_ptr(),
            table.len(),
        )
    }
}

pub fn upgrade(case: &[u8], answer: &mut [u8]) -> CountAnswer {
    // SAFETY: as in `verdict`.
    unsafe {
        archive::cadwezin_upgrade(case.as_ptr(), case.len(), answer.as_mut_ptr(), answer.len())
    }
}

pub fn downgrade(case: &[u8], answer: &mut [u8]) -> CountAnswer {
    // SAFETY: as in `verdict`.
    unsafe {
        archive::cadwezin_downgrade(case.as_ptr(), case.len(), answer.as_mut_ptr(), answer.len())
    }
}

pub fn minimise(
    case: &[u8],
    limit: u64,
    caller: u64,
    tallies: &mut Tallies,
    answer: &mut [u8],
) -> MinimiseAnswer {
    // SAFETY: as in `verdict`.
    unsafe {
        archive::cadwezin_minimise(
            case.as_ptr(),
            case.len(),
            limit,
            caller,
            tallies,
            answer.as_mut_ptr(),
            answer.len(),
        )
    }
}

pub fn normalise(case: &[u8], answer: &mut [u8]) -> CountAnswer {
    // SAFETY: as in `verdict`.
    unsafe {
        archive::cadwezin_normalise(case.as_ptr(), case.len(), answer.as_mut_ptr(), answer.len())
    }
}
