//! Which alerts are explained in full, and which by a word on where that was done: an explanation takes time in proportion to the records
//! before it.

use std::collections::HashMap;

use policy_text::{Access, Asked, NamesByStep};
use yaslaurel::layout::record;
use yaslaurel::{Operation, Policy, Verdict};

/// How many alerts of containers of one name are explained, and how many of a run.
const OF_A_NAME: usize = 8;
const OF_A_RUN: usize = 256;
/// How many records there may be up to an alert that is explained.
const RECORDS: usize = 1_000_000;

/// What is told of an alert besides what happened.
pub enum Reason {
    /// The rule and the chains, each a line.
    Lines(Vec<String>),
    /// Why not these.
    Remark(String),
}

/// A number, and which of its holders.
type Holder = (u8, usize);

/// The records and names of a run, and what was explained so far.
pub struct Explainer {
    image: Vec<u8>,
    trace: Vec<u8>,
    pub names: NamesByStep,
    /// The step that was explained last, and what the container held then.
    last: HashMap<Holder, (usize, u64)>,
    /// By name: how many were explained, and the step of the last.
    of_name: HashMap<String, (usize, usize)>,
    /// By process, receiver and what that would hold: the step of the blocked access that was explained.
    blocked: HashMap<(Holder, Holder, u64), usize>,
    explained: usize,
}

impl Explainer {
    pub fn new(policy: &Policy) -> Explainer {
        let (last, of_name, blocked) = Default::default();
        let names = NamesByStep::new(policy);
        Explainer { image: policy.image(), trace: Vec::new(), names, last, of_name, blocked, explained: 0 }
    }

    /// Takes up the record of an operation.
    pub fn record(&mut self, operation: Operation) {
        if self.steps() <= RECORDS {
            self.trace.extend(operation.record());
        }
    }

    /// How many records are kept: one more than are explained if there were more.
    fn steps(&self) -> usize {
        self.trace.len() / record::LENGTH
    }

    /// The process whose access was blocked: programs try the same in several ways, one behind the other.
    fn blocked_by(&self, access: Access, step: usize) -> Option<Holder> {
        match access.operation {
            Operation::Write { process, .. } | Operation::Append { process, .. }
                if access.verdict == Verdict::Blocked =>
            {
                Some((process, self.names.place(process, step)))
            }
            _ => None,
        }
    }

    /// The reason of an alert, which the last record has given. An alert at a container that was explained with the same sources, by an access
    /// that brought nothing new, has the same reason; an exec brings other rules.
    pub fn reason(&mut self, policy: &Policy, access: Access) -> Reason {
        let step = self.steps();
        let holder = (access.receiver, self.names.place(access.receiver, step));
        let exec = matches!(access.operation, Operation::Exec { .. });
        if let Some((step, _)) = self.last.get(&holder).filter(|(_, tag)| *tag == access.tag) {
            if access.brought() == 0 && !exec {
                return Reason::Remark(format!("explained at step {step}"));
            }
        }
        let again = self.blocked_by(access, step).map(|process| (process, holder, access.tag));
        if let Some(step) = again.and_then(|again| self.blocked.get(&again)) {
            return Reason::Remark(format!("explained at step {step}"));
        }
        let name = self.names.at(access.receiver, step).to_string();
        let of_name = self.of_name.entry(name.clone()).or_default();
        if step > RECORDS {
            return Reason::Remark(format!("not explained: over {RECORDS} records"));
        }
        if of_name.0 == OF_A_NAME {
            let last = of_name.1;
            return Reason::Remark(format!("not explained: {OF_A_NAME} alerts at {name} are, the last at step {last}"));
        }
        if self.explained == OF_A_RUN {
            return Reason::Remark(format!("not explained: {OF_A_RUN} alerts are"));
        }
        let asked = Asked { policy, image: &self.image, trace: &self.trace, names: &self.names, access, all: false };
        match asked.explanation() {
            Ok(explanation) => {
                self.explained += 1;
                *of_name = (of_name.0 + 1, step);
                self.last.insert(holder, (step, access.tag));
                self.blocked.extend(again.map(|again| (again, step)));
                Reason::Lines(explanation.lines())
            }
            Err(refusal) => Reason::Remark(format!("not explained: {refusal}")),
        }
    }
}

#[cfg(test)]
mod tests {
    use super::*;
    use policy_text::held_before;
    use yaslaurel::{Mixture, Session};

    /// A policy of a source, a process and so many files that may hold nothing of it.
    fn policy(files: usize) -> Policy {
        let mut policy = Policy::new();
        let (source, other) = (policy.source("a").unwrap(), policy.source("b").unwrap());
        let process = policy.process("job").unwrap();
        let carrier = policy.file("a").unwrap();
        policy.set_source(carrier, source).unwrap();
        assert_eq!((process, carrier), (0, 1));
        for number in 0..files {
            let file = policy.file(&format!("out-{number}")).unwrap();
            policy.set_permit_rule(file, Mixture::of([other])).unwrap();
        }
        policy
    }

    /// A run of operations: what is told of the alerts.
    fn reasons(policy: &Policy, operations: impl IntoIterator<Item = Operation>) -> Vec<Reason> {
        let (mut session, mut explainer) = (Session::start(&policy.image()).unwrap(), Explainer::new(policy));
        let mut told = Vec::new();
        for operation in operations {
            explainer.record(operation);
            let before = held_before(&session, operation);
            let answer = session.perform(operation).unwrap();
            if answer.verdict == Verdict::Alert {
                told.push(explainer.reason(policy, Access::new(operation, answer, before)));
            }
        }
        told
    }

    const READ: Operation = Operation::Read { process: 0, object: 1 };

    #[test]
    fn so_many_of_a_run_are_explained() {
        let policy = policy(40);
        let writes = (0..40 * OF_A_NAME).map(|number| Operation::Write { process: 0, object: 2 + (number % 40) as u8 });
        let told = reasons(&policy, std::iter::once(READ).chain(writes));
        assert_eq!(told.len(), 40 * OF_A_NAME);
        assert!(told[..OF_A_RUN].iter().all(|reason| matches!(reason, Reason::Lines(lines) if lines.len() == 2)));
        let rest = "not explained: 256 alerts are";
        assert!(told[OF_A_RUN..].iter().all(|reason| matches!(reason, Reason::Remark(remark) if remark == rest)));
    }

    #[test]
    fn none_is_explained_behind_so_many_records() {
        let policy = policy(2);
        let append = |object| Operation::Append { process: 0, object };
        let reads = std::iter::repeat(READ).take(RECORDS - 1);
        let told = reasons(&policy, reads.chain([append(2), append(3), append(2)]));
        assert!(matches!(&told[0], Reason::Lines(lines) if lines.len() == 2));
        assert!(matches!(&told[1], Reason::Remark(remark) if remark == "not explained: over 1000000 records"));
        assert!(matches!(&told[2], Reason::Remark(remark) if remark == "explained at step 1000000"));
    }
}
