//! The cases of the comparison, a module for each kind. For a further function of the library add a module with its case
//! and its part, and the part to this list, at its end: the seed of a part goes by its place.

mod allowed;
mod batches;
mod compositions;
mod cuts;
mod explanations;
mod games;
mod gathers;
mod guarded;
mod histories;
mod images;
mod matrices;
mod operations;
mod pairs;
mod profiles;
mod programs;
mod proposals;
mod reasons;
pub mod traces;

use crate::case::Part;

pub const PARTS: &[Part] = &[
    images::PART,
    pairs::PART,
    operations::PART,
    traces::SHORT,
    histories::PART,
    traces::LONG,
    batches::PART,
    matrices::PART,
    profiles::PART,
    proposals::PART,
    allowed::PART,
    guarded::PART,
    compositions::PART,
    cuts::PART,
    games::PART,
    games::ALL,
    explanations::PART,
    reasons::PART,
    gathers::PART,
];
