//! What goes in and out besides bytes: the pattern meant, the tallies, verdicts, paths, refusals.

use crate::nodes::{PatternNode, SummaryNode};
use crate::CALLERS;
use std::fmt;

/// One of the patterns of a case.
#[derive(Clone, Copy, Debug, PartialEq, Eq, Hash)]
pub enum Pattern {
    /// The one that is contained or not.
    First,
    /// A member of the set whose union contains it or does not, counted from 1. A call refuses one
    /// that the case does not have.
    Member(u64),
}

impl Pattern {
    /// Its number in the calls: 1 for the first, 1 + i for member i. Where there can be no such
    /// member it is 0, which no pattern has.
    pub fn number(self) -> u64 {
        match self {
            Pattern::First => 1,
            Pattern::Member(0) => 0,
            Pattern::Member(member) => member.wrapping_add(1),
        }
    }
}

/// For each caller, how many canonical documents were tried, over all of that caller's verdicts since
/// it was made, those of [`crate::minimise`] among them.
#[repr(C)]
#[derive(Clone, Copy, Debug, Default, PartialEq, Eq)]
pub struct Tallies {
    /// The sum of tried, by caller.
    pub counts: [u64; CALLERS],
}

/// The answer of an accepted verdict, with how many canonical documents were tried.
#[derive(Clone, Copy, Debug, PartialEq, Eq)]
pub enum Verdict {
    /// Contained (document 01: included): all passed, and there are no more.
    Contained {
        /// All there are.
        tried: u64,
    },
    /// Not contained (document 01: not included): one did not pass, and is shown.
    NotContained {
        /// Its rank, from 1.
        tried: u64,
    },
    /// Stopped: as many as the limit says passed, and there are more.
    Stopped {
        /// The limit.
        tried: u64,
    },
}

/// The answer of an accepted [`crate::minimise`].
#[derive(Clone, Copy, Debug, PartialEq, Eq)]
pub struct Minimised {
    /// How many nodes were struck.
    pub struck: u64,
    /// How many canonical documents all verdicts made tried, also those after which a leaf stayed.
    pub tried: u64,
}

/// For each node of a pattern, the paths that it takes in some placement.
#[derive(Clone, Copy, Debug, PartialEq, Eq)]
pub struct Paths {
    /// For pattern node q, bit i of `masks[q]` for summary node i; 0 past the last node.
    pub masks: [u64; 16],
    /// How many paths each may take.
    pub counts: [u64; 16],
}

impl Paths {
    /// The paths of one pattern node, ascending; none for a number past the last node.
    pub fn of(&self, node: PatternNode) -> impl Iterator<Item = SummaryNode> {
        let mask = self.masks.get(node.0).copied().unwrap_or(0);
        (0..64).filter(move |i| mask >> i & 1 == 1).map(SummaryNode)
    }
}

/// A refused call: the number of the first question that was answered no.
#[derive(Clone, Copy, Debug, PartialEq, Eq, Hash)]
pub struct Refusal(u64);

impl Refusal {
    /// What an accepted call answers, where `refused` is 0.
    pub(crate) fn or<T>(refused: u64, answer: impl FnOnce() -> T) -> Result<T, Refusal> {
        if refused == 0 {
            Ok(answer())
        } else {
            Err(Refusal(refused))
        }
    }

    /// The question's number, 1 to 17.
    pub fn number(self) -> u64 {
        self.0
    }

    /// What is wrong.
    pub fn reason(self) -> &'static str {
        match self.0 {
            1 => "the limit is not 1 to 1,000,000",
            2 => "the answer buffer or the lent table is too short",
            3 => "the case is too long, cut short, or followed by something",
            4 => "a count of the case is out of range",
            5 => "a record of the summary breaks the rules",
            6 => "siblings in the summary share a label",
            7 => "a record of a pattern breaks the rules",
            8 => "the positions are not 1 to k, once each and the same in all patterns",
            9 => "the caller's tally and what may be tried come to more than 1,000,000,000,000",
            10 => "the document is not whole or breaks the rules",
            11 => "the list is not one document node for each position",
            12 => "there is no such pattern or position",
            13 => "the list is not a placement of the pattern",
            14 => "the set has not 1 to 8 members",
            15 => "the set has more than one member, or a pattern asks for a figure",
            16 => "the caller is not 0 to 7",
            _ => "a figure is above 2,000",
        }
    }
}

impl fmt::Display for Refusal {
    fn fmt(&self, out: &mut fmt::Formatter) -> fmt::Result {
        write!(out, "refused {}: {}", self.0, self.reason())
    }
}

impl std::error::Error for Refusal {}
