//! Figures of traces: how many answers of each kind there were, as the month program counts them.

use std::collections::BTreeMap;

use serde::Serialize;
use yaslaurel::{Answer, Refusal, Verdict};

/// The figures of a trace, or of several.
#[derive(Clone, Debug, Default, PartialEq, Eq, Serialize)]
pub struct Figures {
    /// Records of any answer.
    pub records: usize,
    /// Records answered quiet or alert.
    pub accepted: usize,
    /// Those answered alert.
    pub alerts: usize,
    /// Records refused.
    pub refused: usize,
    /// Records answered blocked.
    pub blocked: usize,
    /// The alerts by the number of their receiver.
    pub containers: BTreeMap<u8, usize>,
}

impl Figures {
    /// Counts one answer.
    pub fn count(&mut self, answer: Result<Answer, Refusal>) {
        self.records += 1;
        match answer {
            Err(_) => self.refused += 1,
            Ok(answer) if answer.verdict == Verdict::Blocked => self.blocked += 1,
            Ok(answer) => {
                self.accepted += 1;
                if answer.verdict == Verdict::Alert {
                    self.alerts += 1;
                    *self.containers.entry(answer.receiver).or_default() += 1;
                }
            }
        }
    }

    /// Adds those of another trace.
    pub fn add(&mut self, other: &Figures) {
        self.records += other.records;
        self.accepted += other.accepted;
        self.alerts += other.alerts;
        self.refused += other.refused;
        self.blocked += other.blocked;
        for (number, alerts) in &other.containers {
            *self.containers.entry(*number).or_default() += alerts;
        }
    }
}
