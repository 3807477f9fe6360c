//! Document 01 as a plain program, with document 02's requests #101, sets,
//! #102, moving the filed cases over, #104, a tally for each caller, #105,
//! striking out what an order need not say, #106, one way of writing a case, and
//! #107, quality figures on nodes: outlines, selections and the inclusion verdict.
//! It follows the documents' sentences one by one and shares nothing with the
//! program it is compared with.
//!
//! * `records`: sections, records and the questions about bytes.
//! * `old`: the old form of a case, and what it is today.
//! * `embedding`: embeddings of a selection into a volume.
//! * `trials`: placements in order, and the trial volume of each.
//! * `judging`: the verdict on a case.
//! * `striking`: a first selection shortened, verdict by verdict.
//! * `normal`: the one way of writing a case.
//! * `calls`: the ten calls and their questions in order.
//! * `vectors`: test vectors, and running one.
//! * `generate`: test vectors at every boundary, and random ones.

#![forbid(unsafe_code)]

pub mod calls;
pub mod embedding;
pub mod generate;
pub mod judging;
pub mod normal;
pub mod old;
pub mod records;
pub mod striking;
pub mod trials;
pub mod vectors;

pub use calls::{
    downgrade, downgrade_refusal, fits, fits_refusal, is_result, layout, layout_refusal, minimise,
    minimise_refusal, nodes_at, nodes_refusal, normalise, normalise_refusal, paths, paths_refusal,
    result_refusal, upgrade, upgrade_refusal, verdict, verdict_refusal, CountAnswer,
    MinimiseAnswer, NodeRecord, PathsAnswer, Tallies, TestAnswer, VerdictAnswer, CALLERS,
};
