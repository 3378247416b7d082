//! "Chains": a judge of alerts that works from the history alone. It lists every chain, holds no tags and keeps no
//! session. The number of chains can double with each step, so it is for short traces.

use crate::image::{Kind, Policy};
use crate::numbers::DATA_ATOMS;
use crate::rules::{covers, meet, position, unrestricted, Rule, NO_POSITION};
use crate::session::Record;

/// What travels along a chain. "Information means data atoms and twins." "A file's run rule starts in that file and
/// travels along every carrier."
#[derive(Clone, Copy, Debug, PartialEq, Eq)]
pub enum Carried {
    Data(u8),
    Running(u8),
    /// The run rule of this file of the image.
    RunRule(usize),
}

/// A chain: where it begins, its rising list of steps, what it brings and where it stands.
#[derive(Clone, Debug, PartialEq, Eq)]
pub struct Chain {
    /// "A chain begins at the session's start in a file of the image."
    pub file: usize,
    /// "It is a rising list of accepted steps, possibly none". Positions in the history, from 0.
    pub steps: Vec<usize>,
    pub carried: Carried,
    /// "It is a chain into the container where its last step put down, or, with no step, into that file."
    pub into: usize,
    /// The first step that ends what this container held after the chain put down there, if any. A step at which the
    /// container leaves is one, so that a chain is one into a holder of a number and not into the next.
    pub ended_by: Option<usize>,
}

/// "Codes 1 and 4 carry from o to p, codes 2, 3 and 5 from p to o." The others carry nothing.
pub(crate) fn carries(step: Record) -> Option<(usize, usize)> {
    match step.code {
        1 | 4 => Some((step.o, step.p)),
        2 | 3 | 5 => Some((step.p, step.o)),
        _ => None,
    }
}

/// The container that leaves at a step: "Code 8 ends process p"; "code 9 lets p remove file or volatile o" (change request
/// No. 4).
pub(crate) fn leaves(step: Record) -> Option<usize> {
    match step.code {
        8 => Some(step.p),
        9 => Some(step.o),
        _ => None,
    }
}

/// "A write ends what o held before". "An exec no longer ends a chain of data in p; for the twins and run rules that p
/// held it still does" (change request No. 2). "A chain ends when its holder leaves" (No. 4).
pub(crate) fn ends(step: Record, container: usize, carried: Carried) -> bool {
    match step.code {
        2 => step.o == container,
        4 => step.p == container && !matches!(carried, Carried::Data(_)),
        _ => leaves(step) == Some(container),
    }
}

/// What a carrier makes of what it takes up: "exec turns it into its twin; twins pass by 2, 3 and 5 only".
pub(crate) fn passes(code: u8, carried: Carried) -> Option<Carried> {
    match carried {
        Carried::RunRule(_) => Some(carried),
        Carried::Data(atom) if code == 4 => Some(Carried::Running(atom)),
        Carried::Data(_) => Some(carried),
        Carried::Running(_) => [2, 3, 5].contains(&code).then_some(carried),
    }
}

/// All chains of a history.
pub fn list(policy: &Policy, history: &[Record]) -> Vec<Chain> {
    let mut found = Vec::new();
    for (file, container) in policy.containers.iter().enumerate() {
        if !container.kind.is_file() {
            continue;
        }
        // "A data atom starts in each file naming it". "A file's run rule starts in that file".
        let starts = container.atom.map(Carried::Data).into_iter().chain([Carried::RunRule(file)]);
        for carried in starts {
            extend(history, file, &mut Vec::new(), carried, file, &mut found);
        }
    }
    found
}

/// Notes the chain that stands at `into` after `steps`, then every chain that goes on from there.
fn extend(
    history: &[Record],
    file: usize,
    steps: &mut Vec<usize>,
    carried: Carried,
    into: usize,
    found: &mut Vec<Chain>,
) {
    let from = steps.last().map_or(0, |&last| last + 1);
    // "a chain that stood there is no longer one into it and goes no further"
    let ended_by = (from..history.len()).find(|&at| ends(history[at], into, carried));
    found.push(Chain { file, steps: steps.clone(), carried, into, ended_by });
    // "the first takes up in that file, each other where the one before it put down"
    for at in from..ended_by.unwrap_or(history.len()) {
        let Some((source, target)) = carries(history[at]) else { continue };
        if source != into {
            continue;
        }
        if let Some(passed) = passes(history[at].code, carried) {
            steps.push(at);
            extend(history, file, steps, passed, target, found);
            steps.pop();
        }
    }
}

/// The chains into a container after the first `after` steps.
pub fn into(chains: &[Chain], container: usize, after: usize) -> impl Iterator<Item = &Chain> {
    chains.iter().filter(move |chain| {
        chain.into == container
            && chain.steps.last().is_none_or(|&last| last < after)
            && chain.ended_by.is_none_or(|end| end >= after)
    })
}

/// The information in a container after the first `after` steps, as a set of atoms.
pub fn information(chains: &[Chain], container: usize, after: usize) -> u64 {
    into(chains, container, after).fold(0, |atoms, chain| match chain.carried {
        Carried::Data(atom) => atoms | 1 << atom,
        Carried::Running(atom) => atoms | 1 << (atom + DATA_ATOMS),
        Carried::RunRule(_) => atoms,
    })
}

/// "The rules governing a container", after the first `after` steps. Rules as the image writes them. The history is read
/// backwards and no further than to where the holder of the number began: at a step that made it, or at the session's
/// start.
pub fn governing(policy: &Policy, history: &[Record], chains: &[Chain], container: usize, after: usize) -> Vec<Rule> {
    for at in (0..after).rev() {
        let step = history[at];
        // "a later holder of the number inherits neither information nor rules", and nobody holds it here
        if leaves(step) == Some(container) {
            return vec![];
        }
        match step.code {
            // "for a process, those of its last exec: u's, and each run rule with a chain into o just before that
            // step"
            4 if step.p == container => {
                let user = step.u.expect("an accepted exec names a user");
                let mut rules = vec![policy.rule(policy.users[user])];
                for chain in into(chains, step.o, at) {
                    if let Carried::RunRule(file) = chain.carried {
                        rules.push(policy.rule(policy.containers[file].run));
                    }
                }
                return rules;
            }
            // "a forked process has its parent's as at the fork until it makes its own; none if there was none"
            5 if step.o == container => return governing(policy, history, chains, step.p, at),
            // "for a new file its creating user's"
            6 if step.o == container => {
                let user = step.u.expect("an accepted new file names a user");
                return vec![policy.rule(policy.users[user])];
            }
            // "for a new volatile none"
            7 if step.o == container => return vec![],
            _ => {}
        }
    }
    // "for a file or volatile of the image its own permit rule"; a process without an exec has none
    match policy.containers.get(container) {
        Some(own) if own.kind != Kind::Process => vec![policy.rule(own.permit)],
        _ => vec![],
    }
}

/// Whether a number stands for a guarded file after the first `after` steps: "Kind 4, in image and session, is a guarded file"
/// (change request No. 9). Codes 5 to 7 make none, and one that leaves takes its guard with it.
fn guarded(policy: &Policy, history: &[Record], container: usize, after: usize) -> bool {
    let holder_changed = |step: &Record| match step.code {
        5..=7 => step.o == container,
        _ => leaves(*step) == Some(container),
    };
    let of_the_image = !history[..after].iter().any(holder_changed);
    of_the_image && policy.containers.get(container).is_some_and(|own| own.kind == Kind::Guarded)
}

/// What the judge of chains says of one step.
#[derive(Clone, Copy, Debug, PartialEq, Eq)]
pub struct Judged {
    /// Some rule that governs the receiver does not cover the information that comes there.
    pub forbidden: bool,
    /// The receiver is a guarded file: then the step is blocked where it would alert.
    pub guarded: bool,
    pub receiver: usize,
    pub information: u64,
    /// The first mixture that holds the information, in the meet of all rules that govern the receiver: it covers what all of
    /// them cover, and only one rule in normal form does. "codes 8 and 9 giving 255" (change request No. 12).
    pub position: u32,
}

/// Judges every step of a history: an alert, or blocked, exactly when one of the rules that govern the receiver does not cover
/// the information that has come there; "6 and 7 answer quiet", and so do 8 and 9 ("Both answer quiet with tag 0").
pub fn judge(policy: &Policy, history: &[Record]) -> Vec<Judged> {
    let chains = list(policy, history);
    history
        .iter()
        .enumerate()
        .map(|(at, step)| {
            let receiver = if step.code == 1 || step.code == 4 { step.p } else { step.o };
            let information = information(&chains, receiver, at + 1);
            let rules = governing(policy, history, &chains, receiver, at + 1);
            let forbidden = step.code <= 5 && rules.iter().any(|rule| !covers(rule, information));
            let guarded = guarded(policy, history, receiver, at + 1);
            let permit = rules.iter().fold(unrestricted(), |met, rule| meet(&met, rule));
            let position = if leaves(*step).is_some() { NO_POSITION } else { position(&permit, information) };
            Judged { forbidden, guarded, receiver, information, position }
        })
        .collect()
}

/// Judges one step behind a history that it is no part of: "A blocked access is no part of the history from which later alerts
/// are judged" (change request No. 9).
pub fn judge_next(policy: &Policy, history: &[Record], step: Record) -> Judged {
    let with: Vec<Record> = history.iter().copied().chain([step]).collect();
    *judge(policy, &with).last().expect("there is this step")
}

/// "Show on whose behalf a process runs. So far this is implied by the last exec." "exec sets it and fork copies it" (change
/// request No. 5). From the history alone, for a number that is taken behind its last step: the user of the last exec,
/// looked for in the parent's history where a fork came after it; nobody "for an initial process, a file or a volatile".
pub fn on_behalf(history: &[Record], container: usize) -> Option<usize> {
    let (step, before) = history.split_last()?;
    match step.code {
        4 if step.p == container => step.u,
        5 if step.o == container => on_behalf(before, step.p),
        6 | 7 if step.o == container => None,
        _ => on_behalf(before, container),
    }
}

#[cfg(test)]
mod tests {
    use super::*;
    use crate::image::Container;
    use crate::numbers::UNRESTRICTED;

    fn file(atom: u8) -> Container {
        Container { kind: Kind::File, atom: Some(atom), permit: UNRESTRICTED, run: UNRESTRICTED }
    }

    fn process() -> Container {
        Container { kind: Kind::Process, atom: None, permit: UNRESTRICTED, run: UNRESTRICTED }
    }

    fn step(code: u8, p: usize, o: usize) -> Record {
        Record { code, p, o, u: None }
    }

    /// "A write ends what o held before": file 1's own atom is gone after the write.
    #[test]
    fn a_write_ends_the_old_chain() {
        let policy =
            Policy { containers: vec![file(0), file(1), process()], users: vec![], rules: vec![], owners: vec![] };
        let history = [step(1, 2, 0), step(2, 2, 1)];
        let chains = list(&policy, &history);
        assert_eq!(information(&chains, 1, 1), 0b10);
        assert_eq!(information(&chains, 1, 2), 0b01);
    }

    /// After an exec data in p is still there, what p ran and the run rules that came with it are not.
    #[test]
    fn an_exec_ends_what_ran() {
        let policy = Policy {
            containers: vec![file(0), file(1), process()],
            users: vec![UNRESTRICTED],
            rules: vec![],
            owners: vec![],
        };
        let exec = |o| Record { code: 4, p: 2, o, u: Some(0) };
        let history = [exec(0), step(1, 2, 0), exec(1)];
        let chains = list(&policy, &history);
        assert_eq!(information(&chains, 2, 2), 1 | 1 << 32);
        assert_eq!(information(&chains, 2, 3), 1 | 1 << 33);
        let rules =
            |after| into(&chains, 2, after).filter(|chain| matches!(chain.carried, Carried::RunRule(_))).count();
        assert_eq!(rules(2), 2);
        assert_eq!(rules(3), 1);
    }

    /// What file 0 held is gone when it leaves, and the next holder of its number starts with nothing; what process 2 has
    /// read of it before stays.
    #[test]
    fn a_chain_ends_with_its_holder() {
        let policy = Policy {
            containers: vec![file(0), file(1), process()],
            users: vec![UNRESTRICTED],
            rules: vec![],
            owners: vec![],
        };
        let new_file = Record { code: 6, p: 2, o: 0, u: Some(0) };
        let history =
            [step(1, 2, 0), step(9, 2, 0), new_file, step(1, 2, 1), step(3, 2, 0), step(5, 2, 3), step(8, 3, 3)];
        let chains = list(&policy, &history);
        let held: Vec<u64> = (0..=7).map(|after| information(&chains, 0, after)).collect();
        assert_eq!(held, [0b01, 0b01, 0, 0, 0, 0b11, 0b11, 0b11]);
        assert_eq!(information(&chains, 3, 6), 0b11);
        assert_eq!(information(&chains, 3, 7), 0);
        assert_eq!(information(&chains, 2, 7), 0b11);
    }

    /// The rules of a number are its holder's: none between two holders, and the next one's own.
    #[test]
    fn rules_stay_with_their_holder() {
        let mut policy = Policy {
            containers: vec![file(0), file(1), process()],
            users: vec![0],
            rules: vec![vec![1]],
            owners: vec![],
        };
        policy.containers[0].permit = 0;
        policy.containers[1].run = 0;
        let user = |code, p, o| Record { code, p, o, u: Some(0) };
        let history = [
            step(5, 2, 3),
            user(4, 3, 1),
            step(8, 3, 3),
            step(5, 2, 3),
            step(9, 3, 0),
            step(7, 3, 0),
            step(9, 3, 0),
            user(6, 3, 0),
        ];
        let chains = list(&policy, &history);
        let count = |container, after| governing(&policy, &history, &chains, container, after).len();
        let of_3: Vec<usize> = (0..=8).map(|after| count(3, after)).collect();
        assert_eq!(of_3, [0, 0, 2, 0, 0, 0, 0, 0, 0]);
        let of_0: Vec<usize> = (0..=8).map(|after| count(0, after)).collect();
        assert_eq!(of_0, [1, 1, 1, 1, 1, 0, 0, 0, 1]);
    }

    /// A number is guarded as long as the guarded file of the image holds it.
    #[test]
    fn a_guard_leaves_with_its_file() {
        let mut policy = Policy {
            containers: vec![file(0), file(1), process()],
            users: vec![UNRESTRICTED],
            rules: vec![],
            owners: vec![],
        };
        policy.containers[1].kind = Kind::Guarded;
        let new_file = Record { code: 6, p: 2, o: 1, u: Some(0) };
        let history = [step(1, 2, 0), step(9, 2, 1), new_file];
        let of_1: Vec<bool> = (0..=3).map(|after| guarded(&policy, &history, 1, after)).collect();
        assert_eq!(of_1, [true, true, false, false]);
        assert!(!guarded(&policy, &history, 0, 0) && !guarded(&policy, &history, 9, 0));
    }

    /// The order of steps counts: what p reads after its write does not reach the file.
    #[test]
    fn chains_rise() {
        let policy =
            Policy { containers: vec![file(0), file(1), process()], users: vec![], rules: vec![], owners: vec![] };
        let history = [step(3, 2, 1), step(1, 2, 0)];
        let chains = list(&policy, &history);
        assert_eq!(information(&chains, 1, 2), 0b10);
        assert_eq!(information(&chains, 2, 2), 0b01);
    }
}
