//! The proved library and the plain reference, called in one process on the same input.
//!
//! * `compare`: one call of both, and everything that it answers and leaves behind held to be equal.
//! * `shortened`: what an order that was shortened means, by verdicts.
//! * `normal`: what a case that was written in one way means, by others that are alike and nearly so.
//! * `lent`: what is lent to a call: buffers and tables filled with a pattern.
//! * `vary`: many calls made of one drawn vector.
//! * `runs`: interleaved verdicts and orders of all callers, and each caller's alone.
//! * `old`: the filed cases of `tests/old`, moved over and back.
//! * `counts`: how many calls there were, by call and answer.

#![forbid(unsafe_code)]

pub mod compare;
pub mod counts;
pub mod lent;
pub mod normal;
pub mod old;
pub mod runs;
pub mod shortened;
pub mod vary;

/// A seed for each part of the work that one seed is for.
pub fn seed_of(seed: u64, part: u64) -> u64 {
    seed.wrapping_mul(0x2545_F491_4F6C_DD1D) ^ part
}
