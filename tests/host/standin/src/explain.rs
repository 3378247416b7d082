//! Explanations, written a second time with the faults inside: one pass forward, in which each record has a node for what it puts down and a
//! link from there to what it took up. The judge looks backwards, and has neither.

use judge::image::{self, Policy};
use judge::numbers::{ATOMS, CONTAINERS, DATA_ATOMS, NO_CHAIN, RECORD, SESSION, UNRESTRICTED, WHY};
use judge::rules::{covers, normal, Rule};
use judge::session::{outcome, read_record, start, step, Answer, Outcome, Record};
use judge::witness::receiver;

use crate::faults::{planted, Fault};

/// Where the nodes of records begin, two for each record. 0 is none, and a file's is its number and 1.
const NODES: usize = 258;

/// What is followed through a trace.
enum Followed {
    /// A data atom and its running atom.
    Atom(u8),
    /// A run rule, as its mixtures and as its number.
    Run(Rule, u16),
}

/// Steps of a trace with their record numbers, and the answer to its last record.
struct Told {
    steps: Vec<(usize, Record)>,
    last: Option<Answer>,
}

impl Told {
    fn of(image: &[u8], trace: &[u8]) -> Told {
        let mut session = vec![0; SESSION];
        assert_eq!(start(image, &mut session), 0, "the image is accepted");
        let mut told = Told { steps: Vec::new(), last: None };
        let count = trace.chunks(RECORD).len();
        for (number, bytes) in trace.chunks(RECORD).enumerate() {
            let mut answer = step(&mut session, bytes);
            let follows = match outcome(answer.number) {
                Outcome::Quiet | Outcome::Alert => true,
                Outcome::Blocked if number + 1 == count => !planted(Fault::LastBlockedLeftOut),
                Outcome::Blocked => planted(Fault::BlockedFollowed),
                Outcome::Refused => planted(Fault::RefusedFollowed),
            };
            if let (true, Some(step)) = (follows, read_record(bytes)) {
                let number = if planted(Fault::NumbersOfHistory) { told.steps.len() } else { number };
                told.steps.push((number, step));
            }
            if planted(Fault::TagOfSession) && answer.number != 0 {
                answer.tag = session[judge::numbers::container_row(answer.receiver as usize)][judge::numbers::ROW_TAG];
            }
            told.last = Some(answer);
        }
        told
    }
}

/// A pass: the node that each container holds, of the data atom or the run rule, then of the running atom.
struct Pass<'a> {
    followed: &'a Followed,
    held: [[usize; CONTAINERS.most]; 2],
    links: &'a mut [u64],
}

impl<'a> Pass<'a> {
    fn begin(policy: &Policy, followed: &'a Followed, links: &'a mut [u64]) -> Pass<'a> {
        let mut held = [[0; CONTAINERS.most]; 2];
        for (number, file) in policy.containers.iter().enumerate().filter(|(_, file)| file.kind.is_file()) {
            let guarded = planted(Fault::GuardedStartsNothing) && file.kind == image::Kind::Guarded;
            let starts = match followed {
                Followed::Atom(atom) => file.atom == Some(*atom) && !guarded,
                Followed::Run(_, rule) if planted(Fault::RunByNumber) => file.run == *rule,
                Followed::Run(rule, _) => policy.rule(file.run) == *rule,
            };
            if starts {
                held[0][number] = number + 1;
            }
        }
        Pass { followed, held, links }
    }

    /// The node that a step takes up for a form.
    fn source(&self, step: Record, form: usize) -> usize {
        match (step.code, form, self.followed) {
            (1, 0, _) => self.held[0][step.o],
            (1, _, _) if planted(Fault::RunningAtomToldByRead) => self.held[1][step.o],
            (4, 0, Followed::Run(..)) | (4, 1, _) => self.held[0][step.o],
            (2 | 3 | 5, _, _) => self.held[form][step.p],
            _ => 0,
        }
    }

    fn ends(&self, code: u8, form: usize) -> bool {
        match code {
            2 => !planted(Fault::OverwrittenChainStays),
            4 if form == 0 && matches!(self.followed, Followed::Atom(_)) => planted(Fault::ExecEndsDataChain),
            4 => !planted(Fault::ExecKeepsRunningChain),
            8 | 9 => !planted(Fault::LeaverKeepsChain),
            _ => false,
        }
    }

    fn follow(&mut self, number: usize, step: Record) {
        let at = receiver(step);
        let taken = [0, 1].map(|form| self.source(step, form));
        for (form, from) in taken.into_iter().enumerate() {
            let node = NODES + 2 * number + form;
            let stays = if self.ends(step.code, form) { 0 } else { self.held[form][at] };
            let link = if planted(Fault::LinksOfReceiver) { self.held[form][at] } else { from };
            if let Some(place) = self.links.get_mut(node) {
                if !planted(Fault::OldLinksRead) || *place == 0 {
                    *place = link as u64;
                }
            }
            let latest = planted(Fault::LatestChain) && from != 0;
            self.held[form][at] = match (stays, from) {
                (stays, _) if stays != 0 && !latest => stays,
                (_, 0) => 0,
                _ => node,
            };
        }
    }

    /// The way back from a node: the file, and the record numbers, rising.
    fn way(&self, node: usize) -> Option<(usize, Vec<usize>)> {
        let (mut node, mut numbers) = (node, Vec::new());
        if node == 0 {
            return None;
        }
        while node >= NODES && numbers.len() <= self.links.len() {
            numbers.push((node - NODES) / 2);
            node = self.links.get(node).map_or(0, |&link| link as usize);
        }
        if !planted(Fault::NumbersFalling) {
            numbers.reverse();
        }
        if planted(Fault::NumbersFromOne) {
            numbers.iter_mut().for_each(|number| *number += 1);
        }
        Some((node.saturating_sub(1), numbers))
    }
}

/// The chain for what is followed into a container, behind these steps.
fn chain(
    policy: &Policy,
    steps: &[(usize, Record)],
    followed: &Followed,
    form: usize,
    container: usize,
    links: &mut [u64],
) -> Option<(usize, Vec<usize>)> {
    let mut pass = Pass::begin(policy, followed, links);
    for &(number, step) in steps {
        pass.follow(number, step);
    }
    pass.way(pass.held[form][container])
}

/// Record numbers at the end of the steps; where they begin.
fn put_steps(numbers: &[usize], steps: &mut [u64]) -> u64 {
    let numbers = &numbers[..numbers.len().min(steps.len())];
    let first = if planted(Fault::StepsAtFront) { 0 } else { steps.len() - numbers.len() };
    if planted(Fault::FrontOfStepsCleared) {
        steps[..first].fill(0);
    }
    for (place, &number) in steps[first..].iter_mut().zip(numbers) {
        *place = number as u64;
    }
    first as u64
}

/// Whether links and steps are long enough.
fn long_enough(trace: &[u8], links: &[u64], steps: &[u64]) -> bool {
    let whole = planted(Fault::ShortRecordNotCounted);
    let records = if whole { trace.len() / RECORD } else { trace.len().div_ceil(RECORD) };
    let (spare_link, spare_step) =
        (usize::from(planted(Fault::LinksOneShort)), usize::from(planted(Fault::StepsOneShort)));
    links.len() + spare_link >= NODES + 2 * records && steps.len() + spare_step >= records
}

/// Writes where nothing may be written, in links that are longer than needed.
fn spoil_links(trace: &[u8], links: &mut [u64]) {
    let needed = NODES + 2 * trace.len().div_ceil(RECORD);
    if planted(Fault::LinksBehindCleared) {
        links.iter_mut().skip(needed).for_each(|link| *link = 0);
    }
}

fn out_of_bounds(container: usize, atom: usize) -> bool {
    let containers = CONTAINERS.most - usize::from(planted(Fault::LastContainerRefused));
    (container >= containers && !planted(Fault::Container256Taken)) || (atom >= ATOMS && !planted(Fault::Atom64Taken))
}

/// The chain of an atom, or the refusal.
fn found(
    bytes: &[u8],
    trace: &[u8],
    (container, atom): (usize, usize),
    links: &mut [u64],
) -> Result<Option<(usize, Vec<usize>)>, u32> {
    if planted(Fault::BoundsBeforeImage) && out_of_bounds(container, atom) {
        return Err(24);
    }
    let policy = image::read(bytes)?;
    if out_of_bounds(container, atom) {
        return Err(24);
    }
    let (container, atom) = (container % CONTAINERS.most, (atom % ATOMS) as u8);
    let followed = Followed::Atom(atom % DATA_ATOMS);
    let form = usize::from(atom >= DATA_ATOMS);
    Ok(chain(&policy, &Told::of(bytes, trace).steps, &followed, form, container, links))
}

pub fn put_chain(
    (bytes, trace): (&[u8], &[u8]),
    asked: (usize, usize),
    links: &mut [u64],
    steps: &mut [u64],
    (file, first): (&mut u64, &mut u64),
) -> u32 {
    let chain = if long_enough(trace, links, steps) { found(bytes, trace, asked, links) } else { Err(9) };
    match chain {
        Err(number) => {
            if planted(Fault::RefusedExplainTellsNone) {
                *file = NO_CHAIN;
            }
            if planted(Fault::RefusedExplainTouchesSteps) && number == 24 && !steps.is_empty() {
                steps[0] = 0;
            }
            number
        }
        Ok(chain) => {
            let (begins, numbers) = chain.map_or((None, vec![]), |(file, numbers)| (Some(file), numbers));
            *first = put_steps(&numbers, steps);
            let none = if planted(Fault::NoChainIsFile0) { 0 } else { NO_CHAIN };
            *file = begins.map_or(none, |file| file as u64);
            spoil_links(trace, links);
            0
        }
    }
}

/// What a number has its rules from.
#[derive(Clone, Copy)]
enum From {
    Own,
    Made {
        number: usize,
        user: usize,
    },
    /// The place of the exec among the steps too.
    Exec {
        place: usize,
        number: usize,
        object: usize,
        user: usize,
    },
    Nothing,
}

/// What a container has its rules from, behind all steps.
fn origin(policy: &Policy, told: &Told, container: usize) -> From {
    let mut from = [From::Own; CONTAINERS.most];
    let mut forked = [false; CONTAINERS.most];
    for (place, &(number, Record { code, p, o, u })) in told.steps.iter().enumerate() {
        let user = u.unwrap_or(0);
        match code {
            4 if planted(Fault::ParentRuleAfterExec) && forked[p] => {}
            4 => from[p] = From::Exec { place, number, object: o, user },
            5 => {
                from[o] = match from[p] {
                    From::Exec { place, object, user, .. } if planted(Fault::ForkToldAsExec) => {
                        From::Exec { place, number, object, user }
                    }
                    other => other,
                };
                forked[o] = true;
            }
            6 if planted(Fault::LaterHolderHasOwn) && o < policy.containers.len() => from[o] = From::Own,
            6 => from[o] = From::Made { number, user },
            7..=9 => from[o] = From::Nothing,
            _ => {}
        }
        if code >= 8 {
            forked[o] = false;
        }
    }
    from[container]
}

/// The rule that forbids: its number, whose owner is told, where it comes from as numbers 2 to 4, and the chain of a run rule.
struct Forbids {
    rule: u16,
    owned: u16,
    origin: [u64; 3],
    chain: Vec<usize>,
}

fn forbids(policy: &Policy, told: &Told, at: usize, tag: u64, links: &mut [u64]) -> Forbids {
    let plain = |rule: u16, origin: [u64; 3]| Forbids { rule, owned: rule, origin, chain: vec![] };
    let user_rule = |user: usize| policy.users.get(user).copied().unwrap_or(UNRESTRICTED);
    match origin(policy, told, at) {
        From::Own | From::Nothing => {
            let rule = policy.containers.get(at).map_or(UNRESTRICTED, |container| container.permit);
            let record = if planted(Fault::OwnToldWithRecord) { told.steps.len() as u64 } else { 0 };
            plain(rule, [0, record, at as u64])
        }
        From::Made { number, user } => {
            let origin = if planted(Fault::MadeToldAsUser) { 2 } else { 1 };
            plain(user_rule(user), [origin, number as u64, user as u64])
        }
        From::Exec { place, number, object, user } => {
            let rule = user_rule(user);
            let of_user = || plain(rule, [2, number as u64, user as u64]);
            if planted(Fault::UserRuleAlways) || !covers(&policy.rule(rule), tag) && !planted(Fault::RunRulesFirst) {
                return of_user();
            }
            let before = if planted(Fault::RunChainAfterExec) { told.steps.len() } else { place };
            run_rule(policy, &told.steps[..before], object, tag, links)
                .map_or_else(of_user, |found| Forbids { origin: [3, number as u64, found.origin[2]], ..found })
        }
    }
}

/// The first run rule that does not cover the tag and has a chain into the executed file.
fn run_rule(
    policy: &Policy,
    before: &[(usize, Record)],
    object: usize,
    tag: u64,
    links: &mut [u64],
) -> Option<Forbids> {
    let mut files: Vec<(usize, u16)> = policy.containers.iter().map(|file| file.run).enumerate().collect();
    files.retain(|&(file, _)| policy.containers[file].kind.is_file());
    match Fault::planted() {
        Some(Fault::RunFilesFalling) => files.reverse(),
        Some(Fault::RunRuleOfExecuted) => files.retain(|&(file, _)| file == object),
        _ => {}
    }
    let wanted = |run: u16| !covers(&policy.rule(run), tag) || planted(Fault::CoveringRunRuleTold);
    files.into_iter().filter(|&(_, run)| wanted(run)).find_map(|(_, run)| {
        let followed = Followed::Run(policy.rule(run), run);
        let (begins, numbers) = chain(policy, before, &followed, 0, object, links)?;
        let told = policy.containers.get(begins).map_or(run, |file| file.run);
        let rule = if planted(Fault::RunRuleOfFirstFile) { run } else { told };
        let owned = if planted(Fault::OwnerOfFirstFile) { run } else { rule };
        Some(Forbids { rule, owned, origin: [3, 0, begins as u64], chain: numbers })
    })
}

/// The atom that is told of a mixture.
fn lacked(tag: u64, mixture: u64) -> u64 {
    let missing = tag & !mixture;
    match Fault::planted() {
        Some(Fault::GreatestLacked) => u64::from(63u32.saturating_sub(missing.leading_zeros())),
        Some(Fault::LeastOfTag) => u64::from(tag.trailing_zeros()),
        _ => u64::from(missing.trailing_zeros()),
    }
}

/// The answer to the last record of a trace that is explained.
fn explained(told: &Told) -> Option<Answer> {
    told.last.filter(|answer| match outcome(answer.number) {
        Outcome::Alert => true,
        Outcome::Blocked => !planted(Fault::BlockedNotExplained),
        Outcome::Quiet => planted(Fault::QuietExplained),
        Outcome::Refused => false,
    })
}

fn reason(bytes: &[u8], trace: &[u8], links: &mut [u64], steps: &mut [u64], out: &mut [u64]) -> Result<(), u32> {
    if planted(Fault::TraceBeforePolicy) && trace.is_empty() {
        return Err(25);
    }
    let policy = image::read(bytes)?;
    let told = Told::of(bytes, trace);
    let Answer { receiver, tag, .. } = explained(&told).ok_or(25u32)?;
    let found = forbids(&policy, &told, receiver as usize, tag, links);
    let mut mixtures = policy.rule(found.rule);
    if planted(Fault::MixturesNormalised) {
        mixtures = normal(&mixtures);
    }
    if !planted(Fault::BehindMixturesLeft) {
        out.iter_mut().take(WHY).for_each(|number| *number = 0);
    }
    let told_first = found.origin[0] == 3 || !planted(Fault::FirstOfOthersZero);
    let first = put_steps(&found.chain, steps);
    let [origin, record, from] = found.origin;
    let owner = u64::from(policy.owner(found.owned));
    let numbers =
        [receiver, tag, origin, record, from, u64::from(found.rule), owner, if told_first { first } else { 0 }];
    let count = mixtures.len() as u64;
    let all = numbers.into_iter().chain([count]).chain(mixtures.iter().map(|&mixture| lacked(tag, mixture)));
    out.iter_mut().zip(all).for_each(|(place, number)| *place = number);
    spoil_links(trace, links);
    Ok(())
}

pub fn put_why(bytes: &[u8], trace: &[u8], links: &mut [u64], steps: &mut [u64], out: &mut [u64]) -> u32 {
    let wanted = if planted(Fault::Reason16Taken) { WHY - 1 } else { WHY };
    if !long_enough(trace, links, steps) || out.len() < wanted {
        return 9;
    }
    match reason(bytes, trace, links, steps, out) {
        Ok(()) => 0,
        Err(number) => {
            if planted(Fault::RefusedReasonClears) {
                out.fill(0);
            }
            number
        }
    }
}
