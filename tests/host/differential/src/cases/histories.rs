//! Sessions of the library alone, their answers judged by the chains of their histories and by nothing else.

use std::collections::HashSet;

use judge::session::{self, outcome, Outcome, Record};
use judge::{chains, image};
use yaslaurel::Session;

use crate::bench::Bench;
use crate::case::{boxed, differ, Case, Difference, Part};
use crate::cases::traces::{self, safe_answer, Trace};
use crate::counters::{Counters, Need};

pub const PART: Part = Part {
    name: "histories, by the judge of chains alone",
    cases: 40_000,
    make: |r| Box::new(History(traces::short(r))),
    needs: &[
        Need::Words(STEPS, &["an alert", "a running atom", "a number taken again", "an alert of such a number"]),
        Need::Words(STEPS, &["blocked", "quiet at a guarded file"]),
        Need::Words(BEHALF, &["on nobody's behalf", "on a user's behalf"]),
    ],
};

const CHAINS: &str = "judged by chains";
const STEPS: &str = "steps judged by chains";
const BEHALF: &str = "containers at the end of a history";

struct History(Trace);

impl Case for History {
    fn run(&self, _: &mut Bench, c: &mut Counters) -> Difference {
        let Trace { image, records } = &self.0;
        let (Ok(policy), Ok(mut session)) = (image::read(image), Session::start(image)) else { return None };
        let mut given = Vec::new();
        for record in records {
            if let Ok(answer) = session.step(record) {
                let Some(read) = session::read_record(record) else {
                    return Some("a malformed record was not refused".into());
                };
                given.push((read, safe_answer(Ok(answer))));
            }
        }
        judged_by_chains(&policy, &given, c).or_else(|| judged_by_execs(&session, &accepted(&given), c))
    }

    fn simpler(&self) -> Vec<Box<dyn Case>> {
        boxed(self.0.simpler().into_iter().map(History))
    }

    fn show(&self) -> String {
        self.0.show()
    }
}

/// Compares the user that the session has for each container with the one that the history alone gives it.
fn judged_by_execs(session: &Session, history: &[Record], c: &mut Counters) -> Difference {
    (0..=u8::MAX).filter_map(|number| Some((number, session.container(number)?))).find_map(|(number, container)| {
        let expected = chains::on_behalf(history, usize::from(number));
        c.count(BEHALF, if expected.is_none() { "on nobody's behalf" } else { "on a user's behalf" });
        differ(&format!("user of container {number}"), container.user.map(usize::from), expected)
    })
}

/// The history: the steps that were answered quiet or by an alert.
fn accepted(given: &[(Record, session::Answer)]) -> Vec<Record> {
    let blocked = |answer: &session::Answer| outcome(answer.number) == Outcome::Blocked;
    given.iter().filter(|(_, answer)| !blocked(answer)).map(|(record, _)| *record).collect()
}

/// The numbers that a container has left, and those of them that were taken again.
#[derive(Default)]
struct Numbers {
    left: HashSet<usize>,
    again: HashSet<usize>,
}

impl Numbers {
    fn count(&mut self, step: Record, judged: chains::Judged, answer: &session::Answer, c: &mut Counters) {
        c.count(STEPS, "in all");
        let blocked = outcome(answer.number) == Outcome::Blocked;
        if step.code >= 8 {
            c.count(STEPS, "a container leaves");
            self.left.insert(step.o);
        } else if step.code >= 5 && self.left.contains(&step.o) {
            c.count(STEPS, "a number taken again");
            self.again.insert(step.o);
        }
        let again = judged.forbidden && self.again.contains(&judged.receiver);
        c.add(STEPS, "an alert of such a number", u64::from(again));
        c.add(STEPS, "an alert", u64::from(judged.forbidden && !blocked));
        c.add(STEPS, "a running atom", u64::from(judged.information >> 32 != 0));
        c.add(STEPS, "blocked", u64::from(blocked));
        c.add(STEPS, "quiet at a guarded file", u64::from(judged.guarded && !blocked));
    }
}

/// Compares the answers with those of the judge of chains, which knows the image and which records were accepted: those answered
/// quiet or by an alert. A blocked one is judged behind the history before it, and is no part of what follows.
pub fn judged_by_chains(policy: &image::Policy, given: &[(Record, session::Answer)], c: &mut Counters) -> Difference {
    let history = accepted(given);
    c.count(CHAINS, "traces");
    c.add(CHAINS, "chains", chains::list(policy, &history).len() as u64);
    let judged_steps = chains::judge(policy, &history);
    let (mut at, mut numbers) = (0, Numbers::default());
    for (place, (step, answer)) in given.iter().enumerate() {
        let judged = match outcome(answer.number) {
            Outcome::Blocked => chains::judge_next(policy, &history[..at], *step),
            Outcome::Quiet | Outcome::Alert | Outcome::Refused => {
                at += 1;
                judged_steps[at - 1]
            }
        };
        numbers.count(*step, judged, answer, c);
        let number = match (judged.forbidden, judged.guarded) {
            (false, _) => session::QUIET,
            (true, false) => session::ALERT,
            (true, true) => session::BLOCKED,
        };
        let by_chains = session::Answer {
            number,
            receiver: judged.receiver as u64,
            tag: judged.information,
            position: judged.position,
        };
        if by_chains != *answer {
            return Some(format!("step {} that is not refused: by chains {judged:?}, by tags {answer:?}", place + 1));
        }
    }
    None
}
