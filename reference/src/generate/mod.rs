//! Test vectors, drawn from a seed or at every boundary of every question.
//! `changes` has every way to break a question, `boundaries` applies them
//! singly and in pairs, `trees` draws outlines, selections and volumes, `figures`
//! their figures, `sets` draws sets, and `random`, `cases` and `layouts` put them together; `many` has
//! verdicts over very many placements, and `turns` those of them that pass by
//! turns and fail at a rank that is chosen. `strikes` has orders to be shortened,
//! `normals` cases to be written in one way, and `alike` tells whether two are one
//! but for their numbers. `callers` says whose a verdict or a striking out is.

mod alike;
mod boundaries;
mod callers;
mod cases;
mod changes;
mod figures;
mod layouts;
mod many;
#[cfg(test)]
mod meaning;
mod normals;
mod plan;
mod prng;
mod random;
mod sets;
mod strikes;
mod trees;
mod turns;

pub use alike::alike;
pub use boundaries::{boundaries, stored};
pub use cases::cases;
pub use layouts::layouts;
pub use many::many;
pub use normals::{altered_case, normals, renumbered_case};
pub use prng::{Prng, Seed};
pub use random::random;
pub use strikes::strikes;
