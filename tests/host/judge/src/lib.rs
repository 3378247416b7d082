//! A second implementation of the flow monitor, in plain Rust, to compare the library with.
//!
//! It was written from the paper ("The flow monitor: containers, mixtures and chains") and its change requests, and from
//! nothing else: it shares no code, no constants and no generated data with the library. Every part quotes the sentences
//! that it renders; the sizes, limits and places of the formats are in [`numbers`]. It is made to be read against the
//! paper, not to be fast.
//!
//! [`chains`] is a second judge of its own: it finds the alerts from the history of accepted steps, by listing the
//! chains, and holds no tags. [`witness`] finds the chain that is shown for an item, and judges explanations of alerts.

pub mod chains;
pub mod composition;
pub mod game;
pub mod image;
pub mod listing;
pub mod matrix;
pub mod month;
pub mod normal;
pub mod numbers;
pub mod profiles;
pub mod rules;
pub mod session;
pub mod trim;
pub mod withdrawals;
pub mod witness;
