//! An access in words: who does what, what its receiver holds then, and what of it this access brought.

use yaslaurel::layout::{atom, record};
use yaslaurel::{Answer, Operation, Policy, Session, Verdict};

/// An access that was not refused, and what came of it.
#[derive(Clone, Copy, Debug)]
#[non_exhaustive]
pub struct Access {
    /// The access.
    pub operation: Operation,
    /// What the monitor says of it.
    pub verdict: Verdict,
    /// The number of its receiver.
    pub receiver: u8,
    /// What the receiver holds then, or would hold if it were not blocked.
    pub tag: u64,
    /// What the receiver held before.
    pub before: u64,
}

impl Access {
    /// The access of an answer whose receiver held this before, as [`held_before`] tells.
    #[must_use]
    pub fn new(operation: Operation, answer: Answer, before: u64) -> Access {
        let Answer { verdict, receiver, tag, .. } = answer;
        Access { operation, verdict, receiver, tag, before }
    }

    /// What stood in the receiver before and is there still. A write ends what the file held, an exec what the process held as
    /// running.
    #[must_use]
    pub fn stood(&self) -> u64 {
        match self.operation {
            Operation::Read { .. } | Operation::Append { .. } => self.before,
            Operation::Exec { .. } => self.before & ((1 << atom::RUNNING) - 1),
            _ => 0,
        }
    }

    /// What this access brought, or would bring: what did not stand there before.
    #[must_use]
    pub fn brought(&self) -> u64 {
        self.tag & !self.stood()
    }

    /// Who does what.
    pub fn what(&self, name: impl Fn(u8) -> String) -> String {
        what(self.operation, name)
    }

    /// Who does what, and what the receiver holds then. Of an alert and of what is blocked also what this access brought, if
    /// something stood there before.
    ///
    /// ```
    /// use policy_text::{held_before, Access};
    /// use yaslaurel::{Mixture, Operation, Policy, Session};
    /// let mut policy = Policy::new();
    /// let (north, south) = (policy.source("north")?, policy.source("south")?);
    /// let (positions, report) = (policy.file("positions")?, policy.file("report")?);
    /// let (job, other) = (policy.process("job")?, policy.process("other")?);
    /// policy.set_source(positions, north)?;
    /// policy.set_source(report, south)?;
    /// policy.set_permit_rule(report, Mixture::of([south]))?;
    /// let mut session = Session::start(&policy.image())?;
    /// let mut told = |operation| {
    ///     let before = held_before(&session, operation);
    ///     let access = Access::new(operation, session.perform(operation)?, before);
    ///     Ok::<String, yaslaurel::Refusal>(access.words(&policy, |number| policy.container_name(number)))
    /// };
    /// assert_eq!(told(Operation::Read { process: job, object: positions })?, "job reads positions and now holds north");
    /// let words = "job appends to report, which now holds north, south; this access brought north";
    /// assert_eq!(told(Operation::Append { process: job, object: report })?, words);
    /// let words = "other appends to report, which still holds north, south; this access brought nothing new";
    /// assert_eq!(told(Operation::Append { process: other, object: report })?, words);
    /// # Ok::<(), Box<dyn std::error::Error>>(())
    /// ```
    pub fn words(&self, policy: &Policy, name: impl Fn(u8) -> String) -> String {
        let which = if self.receiver == object(self.operation) { ", which" } else { " and" };
        let added = if self.verdict == Verdict::Quiet { None } else { self.added(policy) };
        let holds = match (self.verdict, added.is_some() && self.brought() == 0) {
            (Verdict::Blocked, false) => "would hold",
            (Verdict::Blocked, true) => "would still hold",
            (_, false) => "now holds",
            (_, true) => "still holds",
        };
        let added = added.map_or_else(String::new, |added| {
            let brings = if self.verdict == Verdict::Blocked { "would bring" } else { "brought" };
            format!("; this access {brings} {added}")
        });
        format!("{}{which} {holds} {}{added}", self.what(name), policy.sources_in(self.tag))
    }

    /// What this access brought, in words; nothing where that is all that is there.
    fn added(&self, policy: &Policy) -> Option<String> {
        let ends = matches!(self.operation, Operation::Write { .. } | Operation::Fork { .. });
        let brought = self.brought();
        if ends || (self.stood() == 0 && brought != 0) {
            return None;
        }
        let names = policy.sources_in(brought);
        Some(match (self.operation, brought) {
            (Operation::Exec { .. }, 0) => "nothing but its rules".into(),
            (Operation::Exec { .. }, _) => format!("{names} and its rules"),
            (_, 0) => "nothing new".into(),
            _ => names,
        })
    }
}

/// The number of an operation's object; that of the process for an end.
fn object(operation: Operation) -> u8 {
    operation.record()[record::OBJECT]
}

/// Who does what, by the names of numbers.
pub fn what(operation: Operation, name: impl Fn(u8) -> String) -> String {
    let who = format!("{} {}", name(operation.process()), operation.verb());
    match operation {
        Operation::End { .. } => who,
        _ => format!("{who} {}", name(object(operation))),
    }
}

/// The number of the container that receives.
#[must_use]
pub fn receiver(operation: Operation) -> u8 {
    match operation {
        Operation::Read { process, .. } | Operation::Exec { process, .. } => process,
        _ => object(operation),
    }
}

/// What the receiver of an operation holds before it.
#[must_use]
pub fn held_before(session: &Session, operation: Operation) -> u64 {
    session.container(receiver(operation)).map_or(0, |container| container.tag)
}
