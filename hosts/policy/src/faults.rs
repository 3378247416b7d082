//! The lines of a story that are at fault, without those whose fault may follow from one before.

use std::collections::HashSet;

use crate::token::{tokens, Token};
use crate::LineError;

/// The words of a line behind its first.
fn names(line: &str) -> Vec<&str> {
    let found = match tokens(line) {
        Ok(tokens) => tokens.into_iter().filter_map(|token| match token {
            Token::Word(name) | Token::Quoted(name) => Some(name),
            Token::Mark(_) => None,
        }),
        Err(_) => return line.split_whitespace().skip(1).collect(),
    };
    found.skip(1).collect()
}

/// The lines at fault so far.
#[derive(Debug, Default)]
pub struct Faults {
    told: Vec<LineError>,
    /// What the lines at fault would have made.
    doubtful: HashSet<String>,
}

impl Faults {
    /// A line that breaks the grammar: it is told.
    pub fn grammar(&mut self, error: LineError, line: &str) {
        self.told.push(error);
        self.doubt(line);
    }

    /// A line of the grammar that does not fit those above: it is told, unless it names something doubtful, or the same was said before.
    pub fn meaning(&mut self, error: LineError, line: &str) {
        let follows = names(line).iter().any(|name| self.doubtful.contains(*name));
        if !follows && !self.told.iter().any(|other| other.message == error.message) {
            self.told.push(error);
        }
        self.doubt(line);
    }

    /// Notes what a line would have made: what it names first, or by a step last.
    fn doubt(&mut self, line: &str) {
        let names = names(line);
        let made = if line.trim_start().starts_with("step") { names.get(2) } else { names.first() };
        self.doubtful.extend(made.map(ToString::to_string));
    }

    /// The lines to be told, in their order.
    pub fn told(self) -> Vec<LineError> {
        self.told
    }
}
