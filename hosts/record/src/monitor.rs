//! The monitor's session, and the numbers of its containers: who has which, and which are free.

use policy_text::{held_before, Access, Holder};
use yaslaurel::layout::{image, session};
use yaslaurel::{Answer, Kind, Operation, Policy, Refusal, Session};

use crate::explain::{Explainer, Reason};

/// How many containers there are at a time.
pub const NUMBERS: usize = image::CONTAINERS.most;

/// What is kept of a whole run, to be written at its end.
#[derive(Default)]
pub struct Kept {
    /// Each operation with the line of the log that gave it.
    pub operations: Vec<(usize, Operation)>,
    /// All holders of numbers, in the order in which they came.
    pub holders: Vec<Holder>,
}

/// What the session has of a container.
pub type Row = [u64; session::CONTAINER_ROW];

/// Who has a number.
struct Present {
    name: String,
    /// Among all holders.
    place: usize,
}

pub struct Monitor {
    session: Session,
    steps: u64,
    /// How many holders of numbers there have been.
    holders: usize,
    present: Vec<Option<Present>>,
    kept: Option<Kept>,
    explainer: Option<Explainer>,
}

impl Monitor {
    /// A monitor at the start of a run, which is kept if it shall be written, and whose records and names if alerts shall be
    /// explained.
    pub fn start(policy: &Policy, keep: bool, explain: bool) -> Result<Monitor, Refusal> {
        let session = Session::start(&policy.image())?;
        let present = (0..NUMBERS).map(|_| None).collect();
        let (kept, explainer) = (keep.then(Kept::default), explain.then(|| Explainer::new(policy)));
        let mut monitor = Monitor { session, steps: 0, holders: 0, present, kept, explainer };
        for (number, (name, _)) in policy.containers().enumerate() {
            monitor.note(number as u8, name);
        }
        Ok(monitor)
    }

    /// Reports an operation, which a line of the log has given.
    pub fn perform(&mut self, line: usize, operation: Operation) -> Result<(Answer, Access), Refusal> {
        self.steps += 1;
        if let Some(kept) = &mut self.kept {
            kept.operations.push((line, operation));
        }
        if let Some(explainer) = &mut self.explainer {
            explainer.record(operation);
        }
        let before = held_before(&self.session, operation);
        let answer = self.session.perform(operation)?;
        Ok((answer, Access::new(operation, answer, before)))
    }

    /// The reason of an alert, which the last operation has given; nothing if alerts are not explained.
    pub fn reason(&mut self, policy: &Policy, access: Access) -> Option<Reason> {
        self.explainer.as_mut().map(|explainer| explainer.reason(policy, access))
    }

    pub fn kept(&self) -> Option<&Kept> {
        self.kept.as_ref()
    }

    pub fn steps(&self) -> u64 {
        self.steps
    }

    pub fn holders(&self) -> usize {
        self.holders
    }

    /// The smallest free number.
    pub fn free(&self) -> Option<u8> {
        self.present.iter().position(Option::is_none).map(|number| number as u8)
    }

    /// Notes that a number is taken.
    pub fn hold(&mut self, number: u8, name: &str) {
        let next = self.next_step();
        if let Some(explainer) = &mut self.explainer {
            explainer.names.take(number, next, name);
        }
        self.note(number, name);
    }

    /// The step of the next operation.
    fn next_step(&self) -> usize {
        self.steps as usize + 1
    }

    fn note(&mut self, number: u8, name: &str) {
        self.present[usize::from(number)] = Some(Present { name: name.into(), place: self.holders });
        self.holders += 1;
        if let Some(kept) = &mut self.kept {
            kept.holders.push(Holder::new(number, name));
        }
    }

    /// Notes that a number is free.
    pub fn leave(&mut self, number: u8) {
        self.present[usize::from(number)] = None;
    }

    /// Another name for the holder of a number.
    pub fn rename(&mut self, number: u8, name: &str) {
        let next = self.next_step();
        if let Some(explainer) = &mut self.explainer {
            explainer.names.rename(number, next, name);
        }
        if let Some(present) = &mut self.present[usize::from(number)] {
            present.name = name.into();
            if let Some(kept) = &mut self.kept {
                kept.holders[present.place] = Holder::new(number, name);
            }
        }
    }

    pub fn name(&self, number: u8) -> String {
        self.present[usize::from(number)].as_ref().map_or_else(|| number.to_string(), |present| present.name.clone())
    }

    /// A mixture of a container's permit rule.
    pub fn permitted(&self, number: u8, place: u8) -> u64 {
        self.session.words()[session::container(number.into())][session::PERMIT + 1 + usize::from(place)]
    }

    pub fn row(&self, number: u8) -> Row {
        let words = &self.session.words()[session::container(number.into())];
        std::array::from_fn(|place| words[place])
    }

    pub fn tag(&self, number: u8) -> u64 {
        self.session.words()[session::container(number.into())][session::TAG]
    }

    /// Whether what one container gives to another, by a read or an append, would leave that one as it is.
    pub fn would_keep(&self, receiver: u8, giver: u8) -> bool {
        let (receiver, giver) = (self.row(receiver), self.row(giver));
        let rule = session::RUN..session::RUN + session::RULE;
        let unrestricted = giver[session::RUN] == 1 && giver[session::RUN + 1] == u64::MAX;
        let same_rule = unrestricted || receiver[rule.clone()] == giver[rule];
        same_rule && receiver[session::TAG] | giver[session::TAG] == receiver[session::TAG]
    }

    pub fn is_guarded(&self, number: u8) -> bool {
        self.session.words()[session::container(number.into())][session::KIND] == u64::from(Kind::Guarded as u8)
    }

    /// Whether a file with an unrestricted permit rule equals a new one: it holds nothing and is unrestricted to run.
    pub fn equals_new(&self, number: u8) -> bool {
        let row = &self.session.words()[session::container(usize::from(number))];
        row[session::TAG] == 0 && row[session::RUN] == 1 && row[session::RUN + 1] == u64::MAX
    }
}
