//! Policies as text: stories become policies and steps, policies become readable text, and a text of profiles that is
//! refused is told with its line; alerts are explained, and questions to a policy answered. The formats are in `docs/FORMATS.md`.

#![warn(missing_docs, clippy::missing_errors_doc)]

mod access;
mod asked;
mod compose;
mod explain;
mod faults;
#[cfg(feature = "folders")]
mod folder;
mod form;
mod lint;
mod names;
mod profiles;
mod show;
mod statement;
mod steps;
mod story;
mod token;
mod trim;
mod upgrade;

pub use access::{held_before, receiver, what, Access};
pub use asked::{difference_json, difference_words, Asking};
pub use compose::{emptied, input_fault, limit_fault, read_consent};
pub use explain::{digraph, list, Asked, ExplainError, Explanation, Explanations};
#[cfg(feature = "folders")]
pub use folder::{fit, read_holders, read_names, source_names, write_folder, Fit, NamesBeside};
pub use form::text_form;
pub use lint::{line_json, lint, LintError};
pub use names::{FolderNames, NamesByStep};
pub use profiles::{name_paths, profile_paths, ProfileFault};
pub use show::show;
pub use steps::{Holder, Step, Steps};
pub use story::Story;
pub use token::quoted;
pub use trim::{trim_trace, Cut, TrimError};
pub use upgrade::{upgraded, UpgradeError};

use std::error::Error;
use std::fmt;

/// What is wrong in a text, and in which line. Its text is `LINE: MESSAGE`, so that `FILE:` in front of it gives the place.
#[derive(Clone, Debug, PartialEq, Eq)]
pub struct LineError {
    /// Counted from 1.
    pub line: usize,
    /// What is wrong, and what was expected.
    pub message: String,
}

impl fmt::Display for LineError {
    fn fmt(&self, f: &mut fmt::Formatter<'_>) -> fmt::Result {
        write!(f, "{}: {}", self.line, self.message)
    }
}

impl Error for LineError {}
