//! Tree pattern containment under a path summary, decided by a library whose every function is proved.
//!
//! A *case* is bytes that hold a summary, a first pattern and a set of one to eight patterns, its
//! *members*, which count as one; a *document* and a *list* are bytes too. A document's node has a
//! *figure*, and a pattern's node the least one that it accepts. `include/cadwezin.h` has their format
//! and the questions. Each function takes any bytes, any numbers and buffers of any
//! length, and answers or refuses; a refusal alters nothing that was lent.
//!
//! ```
//! use cadwezin::{verdict, Shown, Tallies, Verdict, ANSWER_BYTES, LIMIT_MOST};
//!
//! // Summary r(a(b)); first pattern r//*, and a set of one, r/*, each with position 1 at the star.
//! let fields: [u16; 33] = [
//!     3, 0, 1, 0, 0, 2, 0, 1, 3, 0, //
//!     2, 0, 1, 0, 0, 0, 0, 0, 1, 1, 0, //
//!     1, //
//!     2, 0, 1, 0, 0, 0, 0, 0, 0, 1, 0,
//! ];
//! let case: Vec<u8> = fields.iter().flat_map(|field| field.to_le_bytes()).collect();
//! let (mut tallies, mut answer) = (Tallies::default(), [0; ANSWER_BYTES]);
//!
//! // Caller 3 of the callers 0 to 7.
//! let judged = verdict(&case, LIMIT_MOST, 3, &mut tallies, &mut answer);
//! assert_eq!(judged, Ok(Verdict::NotContained { tried: 2 }));
//! assert_eq!(tallies.counts, [0, 0, 0, 2, 0, 0, 0, 0]);
//! let shown = Shown::read(&answer).expect("a document is shown");
//! assert_eq!((shown.document.len(), shown.result[0].0), (3, 2));
//! ```

#![deny(unsafe_op_in_unsafe_fn)]
#![deny(unsafe_code)]
#![warn(missing_docs)]

mod answers;
#[allow(unsafe_code, missing_docs)]
pub mod ffi;
mod nodes;
mod shown;

pub use answers::{Minimised, Paths, Pattern, Refusal, Tallies, Verdict};
pub use nodes::{DocumentNode, NodeRecord, PatternNode, SummaryNode};
pub use shown::{nodes_shown, LeftNode, Shortened, Shown, ShownNode};

/// The least length of an answer buffer.
pub const ANSWER_BYTES: usize = 8_192;
/// The least length of a lent table.
pub const TABLE_RECORDS: usize = 1_024;
/// The greatest limit of a verdict.
pub const LIMIT_MOST: u64 = 1_000_000;
/// What a tally and a limit may come to.
pub const TALLY_MOST: u64 = 1_000_000_000_000;
/// How many limits [`minimise`] asks room for in the tally.
pub const MINIMISE_VERDICTS: u64 = 120;
/// The most members of a set.
pub const MEMBERS_MOST: u64 = 8;
/// How many callers there are, from 0 on.
pub const CALLERS: usize = 8;
/// The greatest figure.
pub const FIGURE_MOST: u16 = 2_000;

/// Is the first pattern contained in the union of the set: in every document that conforms to the
/// summary, with any figures, is each result of the first a result of at least one member? Canonical documents are tried
/// in order, at most `limit` of them. The caller's tally grows by how many were tried; the other seven may
/// hold any numbers, and change nothing in the answer. Where the answer is [`Verdict::NotContained`], a
/// document and a result of the first pattern that is one of no member are written to the front of
/// `answer`, for [`Shown::read`]. Questions 1 to 8, 16, 9.
pub fn verdict(
    case: &[u8],
    limit: u64,
    caller: u64,
    tallies: &mut Tallies,
    answer: &mut [u8],
) -> Result<Verdict, Refusal> {
    let got = ffi::verdict(case, limit, caller, tallies, answer);
    let tried = got.tried;
    Refusal::or(got.refused, || match got.kind {
        ffi::CONTAINED => Verdict::Contained { tried },
        ffi::NOT_CONTAINED => Verdict::NotContained { tried },
        _ => Verdict::Stopped { tried },
    })
}

/// Does the document conform to the case's summary, whatever its figures are? Questions 3 to 8, 10.
pub fn fits(case: &[u8], document: &[u8]) -> Result<bool, Refusal> {
    let got = ffi::fits(case, document);
    Refusal::or(got.refused, || got.holds == 1)
}

/// Is the list of document nodes, one for each position, a result of the pattern? Questions 3 to 8,
/// 10, 12, 11.
pub fn is_result(
    case: &[u8],
    pattern: Pattern,
    document: &[u8],
    list: &[u8],
) -> Result<bool, Refusal> {
    let got = ffi::is_result(case, pattern.number(), document, list);
    Refusal::or(got.refused, || got.holds == 1)
}

/// How many document nodes hold the position in some result of the pattern. They are written,
/// ascending after their count, to the front of `answer`, for [`nodes_shown`]. Questions 2 to 8, 10, 12.
pub fn nodes_at(
    case: &[u8],
    pattern: Pattern,
    document: &[u8],
    position: u64,
    answer: &mut [u8],
) -> Result<u64, Refusal> {
    let got = ffi::nodes_at(case, pattern.number(), document, position, answer);
    Refusal::or(got.refused, || got.count)
}

/// The paths that each node of the pattern takes in some placement. Questions 3 to 8, 12.
pub fn paths(case: &[u8], pattern: Pattern) -> Result<Paths, Refusal> {
    let got = ffi::paths(case, pattern.number());
    Refusal::or(got.refused, || Paths {
        masks: got.masks,
        counts: got.counts,
    })
}

/// Lays out the canonical document of a placement of the pattern: its nodes fill the front of `table`,
/// and their count is the answer. The list holds one summary node for each pattern node. Questions 2 to
/// 8, 12, 13.
pub fn layout(
    case: &[u8],
    pattern: Pattern,
    list: &[u8],
    table: &mut [NodeRecord],
) -> Result<u64, Refusal> {
    let got = ffi::layout(case, pattern.number(), list, table);
    Refusal::or(got.refused, || got.count)
}

/// Moves a case in the old form over: there one second pattern stands in the place of the set, and no
/// pattern node has a figure. The same case with a set of one and figures of 0 is written to the front of
/// `answer`, and is the answer. [`downgrade`] gives the old bytes back. Bytes may be a case in both forms:
/// what is moved already is not told from an old case. Question 2, then 3 to 8 about the old form's two
/// patterns.
pub fn upgrade<'a>(case: &[u8], answer: &'a mut [u8]) -> Result<&'a [u8], Refusal> {
    let got = ffi::upgrade(case, answer);
    Refusal::or(got.refused, || &answer[..got.count as usize])
}

/// Moves a case back whose set has one member and whose figures are 0: in the old form it is written to
/// the front of `answer`, and is the answer. [`upgrade`] gives the case back. Questions 2 to 8, 15.
pub fn downgrade<'a>(case: &[u8], answer: &'a mut [u8]) -> Result<&'a [u8], Refusal> {
    let got = ffi::downgrade(case, answer);
    Refusal::or(got.refused, || &answer[..got.count as usize])
}

/// Strikes out what the first pattern need not say. Its leaves that hold no position, the root excepted,
/// are tried, lowest number first: a leaf is struck if the pattern without it is contained in the pattern
/// as it is now, by a verdict with this limit; then it starts over from the lowest, until no leaf goes. What
/// is left has the first pattern's results in every document that conforms to the summary. The set is asked
/// about and not used. The caller's tally grows by what all these verdicts tried. What is left and what was
/// struck is written to the front of `answer`, for [`Shortened::read`]. Questions 1 to 8, 16, 9, where 9 asks
/// room for [`MINIMISE_VERDICTS`] times the limit.
pub fn minimise(
    case: &[u8],
    limit: u64,
    caller: u64,
    tallies: &mut Tallies,
    answer: &mut [u8],
) -> Result<Minimised, Refusal> {
    let got = ffi::minimise(case, limit, caller, tallies, answer);
    Refusal::or(got.refused, || Minimised {
        struck: got.struck,
        tried: got.tried,
    })
}

/// Writes the case in the one way there is for all cases that are one but for the numbers of their nodes:
/// every tree in preorder, siblings of the summary by label, siblings of a pattern by their subtrees, the
/// set in its order. It is written to the front of `answer`, and is the answer, as long as the case. Two
/// accepted cases are written alike exactly when renumbering nodes turns one into the other; what is
/// written stays as it is when it is written again. Questions 2 to 8.
pub fn normalise<'a>(case: &[u8], answer: &'a mut [u8]) -> Result<&'a [u8], Refusal> {
    let got = ffi::normalise(case, answer);
    Refusal::or(got.refused, || &answer[..got.count as usize])
}
