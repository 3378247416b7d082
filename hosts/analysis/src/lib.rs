//! Questions to policies and access matrices.
//!
//! Nothing here is proved. Each function names, lays out or searches, and says which proved function it asks: what is shown as accepted was
//! accepted by [`yaslaurel::judge_withdrawal`], and a chain of accesses that is shown was run on a [`yaslaurel::Session`] before.
//! `docs/ANALYSIS.md` has what the answers mean.

#![warn(missing_docs, clippy::missing_errors_doc, clippy::must_use_candidate)]

mod ask;
mod diff;
mod flows;
mod game;
mod judge;
mod matrix;
mod silent;
mod suggest;

pub use ask::{ask, Chain, Finding, Item, Never, NotQuiet, STEP_LIMIT};
pub use diff::{differences, Difference};
pub use flows::{missing_flows, Flow, Hop};
pub use game::{desk_move, guard_moves, Position};
pub use judge::{failed_condition, Failed};
pub use matrix::{MatrixError, NamedMatrix, Right, OBJECT_LIMIT, SUBJECT_LIMIT};
pub use silent::sounding;
pub use suggest::{suggest, Search, Suggestion};
