//! Explanations: the chain by which an item came to be in a container, and why a step is forbidden. The paper has chains and the rules
//! that govern a container ("Chains"), and no word on which chain to show: that, the layout of the answers and the refusals 24 and 25
//! are this product's own, as `docs/FORMATS.md` says them.
//!
//! A chain is looked for backwards: the step by which the item came to be where it stands, then what that step took up, just before it.
//! [`is_chain`] and [`is_certificate`] judge an explanation by the paper's words alone, whoever made it.

use crate::chains::{carries, ends as ends_carried, leaves, passes, Carried};
use crate::image::{self, Kind, Policy};
use crate::numbers::{ATOMS, CONTAINERS, DATA_ATOMS, NO_CHAIN, RECORD, SESSION, WHY};
use crate::rules::{covers, holds, Rule};
use crate::session::{self, outcome, read_record, Answer, Outcome, Record};

/// What a chain is asked for: "Information means data atoms and twins." "A file's run rule starts in that file": a run rule as its list of
/// mixtures, which several files may have.
#[derive(Clone, Debug, PartialEq, Eq)]
pub enum Item {
    Data(u8),
    Running(u8),
    Run(Rule),
}

impl Item {
    /// The item of an atom, 0 to 63: "The running twin of atom d is d + 32".
    pub fn of_atom(atom: usize) -> Item {
        match u8::try_from(atom).expect("an atom") {
            atom if atom < DATA_ATOMS => Item::Data(atom),
            atom => Item::Running(atom - DATA_ATOMS),
        }
    }
}

/// A chain: the file where it begins, and its steps, rising.
#[derive(Clone, Debug, PartialEq, Eq)]
pub struct Chain {
    pub file: usize,
    pub steps: Vec<usize>,
}

/// "The receiver is p for 1 and 4, else o."
pub fn receiver(step: Record) -> usize {
    if step.code == 1 || step.code == 4 {
        step.p
    } else {
        step.o
    }
}

/// What a step takes up, and where, to put this down in its receiver: "Codes 1 and 4 carry from o to p, codes 2, 3 and 5 from p to o."
/// "exec turns it into its twin; twins pass by 2, 3 and 5 only."
fn takes_up(step: Record, item: &Item) -> Option<(usize, Item)> {
    match (step.code, item) {
        (1, Item::Running(_)) | (4, Item::Data(_)) => None,
        (4, Item::Running(atom)) => Some((step.o, Item::Data(*atom))),
        (1 | 4, _) => Some((step.o, item.clone())),
        (2 | 3 | 5, _) => Some((step.p, item.clone())),
        _ => None,
    }
}

/// Whether a step ends the item in its receiver: "A write ends what o held before, an exec what p held", but for data (change request No. 2);
/// "A chain ends when its holder leaves" (No. 4).
fn ends(step: Record, item: &Item) -> bool {
    match step.code {
        2 | 8 | 9 => true,
        4 => !matches!(item, Item::Data(_)),
        _ => false,
    }
}

/// Whether an item is in a container at the session's start: "A data atom starts in each file naming it"; "A file's run rule starts in that
/// file".
fn starts(policy: &Policy, item: &Item, container: usize) -> bool {
    let file = policy.containers.get(container).filter(|container| container.kind.is_file());
    file.is_some_and(|file| match item {
        Item::Data(atom) => file.atom == Some(*atom),
        Item::Running(_) => false,
        Item::Run(rule) => policy.rule(file.run) == *rule,
    })
}

/// Where an item stands: for each step whether it stood in the step's receiver before, and for each container whether it stands there
/// behind the last.
struct Standing {
    before: Vec<bool>,
    now: Vec<bool>,
}

impl Standing {
    /// A running atom comes from its data atom, which is followed beside it.
    fn of(policy: &Policy, history: &[Record], item: &Item) -> Standing {
        let data = match item {
            Item::Running(atom) => Item::Data(*atom),
            other => other.clone(),
        };
        let (mut own, mut of_data) = (Standing::start(policy, item), Standing::start(policy, &data));
        for &step in history {
            let brings =
                takes_up(step, item)
                    .is_some_and(|(from, taken)| if taken == data { of_data.now[from] } else { own.now[from] });
            let brings_data = takes_up(step, &data).is_some_and(|(from, _)| of_data.now[from]);
            own.follow(step, item, brings);
            of_data.follow(step, &data, brings_data);
        }
        own
    }

    fn start(policy: &Policy, item: &Item) -> Standing {
        let now = (0..CONTAINERS.most).map(|container| starts(policy, item, container)).collect();
        Standing { before: Vec::new(), now }
    }

    /// One step more, that brings the item or not.
    fn follow(&mut self, step: Record, item: &Item, brings: bool) {
        let at = receiver(step);
        self.before.push(self.now[at]);
        self.now[at] = brings || self.now[at] && !ends(step, item);
    }
}

/// The chain for an item into a container behind a history: of all that there are, the one by which it came to be there and has stood
/// since, and so on backwards. Steps are places in the history.
pub fn witness(policy: &Policy, history: &[Record], item: &Item, container: usize) -> Option<Chain> {
    let (mut history, mut item, mut container) = (history, item.clone(), container);
    let mut standing = Standing::of(policy, history, &item);
    if !standing.now[container] {
        return None;
    }
    let mut steps = Vec::new();
    loop {
        let came = |at: &usize| {
            let step = history[*at];
            receiver(step) == container && (ends(step, &item) || !standing.before[*at])
        };
        let Some(at) = (0..history.len()).rev().find(came) else {
            assert!(starts(policy, &item, container), "it came by no step");
            steps.reverse();
            return Some(Chain { file: container, steps });
        };
        steps.push(at);
        let (from, taken) = takes_up(history[at], &item).expect("it came by this step");
        history = &history[..at];
        if taken != item {
            standing = Standing::of(policy, history, &taken);
        }
        (container, item) = (from, taken);
    }
}

/// The history of an explanation, with the number of each record in the trace, and the answer to the last record of the trace, if there
/// is one: the accepted records, and the last one unless it is refused: an access that was blocked is explained as if it had been made.
pub struct Told {
    pub steps: Vec<Record>,
    pub records: Vec<usize>,
    pub last: Option<Answer>,
}

impl Told {
    /// Of an accepted image.
    pub fn of(image: &[u8], trace: &[u8]) -> Told {
        let mut words = vec![0; SESSION];
        assert_eq!(session::start(image, &mut words), 0, "the image is accepted");
        let mut told = Told { steps: Vec::new(), records: Vec::new(), last: None };
        let count = trace.chunks(RECORD).len();
        for (number, bytes) in trace.chunks(RECORD).enumerate() {
            let answer = session::step(&mut words, bytes);
            let follows = match outcome(answer.number) {
                Outcome::Quiet | Outcome::Alert => true,
                Outcome::Blocked => number + 1 == count,
                Outcome::Refused => false,
            };
            if follows {
                told.steps.push(read_record(bytes).expect("the record was not refused"));
                told.records.push(number);
            }
            told.last = Some(answer);
        }
        told
    }

    /// A chain by the numbers of its records.
    fn by_records(&self, chain: Chain) -> Chain {
        Chain { steps: chain.steps.iter().map(|&step| self.records[step]).collect(), ..chain }
    }

    /// The places in the history of records of the trace; nothing if one of them is no part of it.
    fn places(&self, records: &[usize]) -> Option<Vec<usize>> {
        records.iter().map(|number| self.records.iter().position(|other| other == number)).collect()
    }
}

/// How an atom came into a container, by record numbers: 1 to 6 for the image, then 24 where there is no such container or atom.
pub fn explain(image: &[u8], trace: &[u8], container: usize, atom: usize) -> Result<Option<Chain>, u32> {
    let policy = image::read(image)?;
    if container >= CONTAINERS.most || atom >= ATOMS {
        return Err(24);
    }
    let told = Told::of(image, trace);
    let found = witness(&policy, &told.steps, &Item::of_atom(atom), container);
    Ok(found.map(|chain| told.by_records(chain)))
}

/// Where the rule that forbids comes from, by record numbers.
#[derive(Clone, Debug, PartialEq, Eq)]
pub enum Origin {
    /// "for a file or volatile of the image its own permit rule"
    Own,
    /// "for a new file its creating user's"
    Made { record: usize, user: usize },
    /// "for a process, those of its last exec": "u's"
    User { record: usize, user: usize },
    /// "and each run rule with a chain into o just before that step"
    Run { record: usize, chain: Chain },
}

/// Why the last record of a trace is forbidden.
#[derive(Clone, Debug, PartialEq, Eq)]
pub struct Why {
    pub receiver: usize,
    pub tag: u64,
    pub origin: Origin,
    /// The rule's number in the image, and its owner.
    pub rule: u16,
    pub owner: u16,
    /// The least atom of the tag that each of its mixtures lacks, in the image's order.
    pub lacked: Vec<u32>,
}

/// The step that a container has its rules from, behind a history: backwards to where its holder began.
fn source(history: &[Record], container: usize) -> Option<usize> {
    for (at, &step) in history.iter().enumerate().rev() {
        if leaves(step) == Some(container) {
            return None;
        }
        match step.code {
            4 if step.p == container => return Some(at),
            // "a forked process has its parent's as at the fork"
            5 if step.o == container => return source(&history[..at], step.p),
            6 if step.o == container => return Some(at),
            7 if step.o == container => return None,
            _ => {}
        }
    }
    None
}

/// The least atom of a tag that a mixture lacks.
fn lacked(tag: u64, mixture: u64) -> u32 {
    (tag & !mixture).trailing_zeros()
}

/// Why the last record is answered alert or blocked: 1 to 6 for the image, then 25.
pub fn why(image: &[u8], trace: &[u8]) -> Result<Why, u32> {
    let policy = image::read(image)?;
    let told = Told::of(image, trace);
    let answer = told.last.ok_or(25u32)?;
    match outcome(answer.number) {
        Outcome::Alert | Outcome::Blocked => {}
        Outcome::Quiet | Outcome::Refused => return Err(25),
    }
    let (receiver, tag) = (answer.receiver as usize, answer.tag);
    let (origin, rule) = forbidding(&policy, &told, receiver, tag);
    let lacked = policy.rule(rule).iter().map(|&mixture| lacked(tag, mixture)).collect();
    Ok(Why { receiver, tag, origin, rule, owner: policy.owner(rule), lacked })
}

/// The rule that does not cover the tag, and where it comes from: of an exec the user's if it does not, else that of the first file whose
/// run rule does not and has a chain into the executed file just before.
fn forbidding(policy: &Policy, told: &Told, receiver: usize, tag: u64) -> (Origin, u16) {
    let Some(at) = source(&told.steps, receiver) else {
        return (Origin::Own, policy.containers[receiver].permit);
    };
    let (step, record) = (told.steps[at], told.records[at]);
    let user = step.u.expect("an accepted exec or new file names a user");
    let of_user = policy.users[user];
    if step.code == 6 {
        return (Origin::Made { record, user }, of_user);
    }
    if !covers(&policy.rule(of_user), tag) {
        return (Origin::User { record, user }, of_user);
    }
    let files = policy.containers.iter().filter(|container| container.kind.is_file());
    let runs = files.map(|file| policy.rule(file.run)).filter(|rule| !covers(rule, tag));
    let mut chains = runs.filter_map(|rule| witness(policy, &told.steps[..at], &Item::Run(rule), step.o));
    let chain = chains.next().expect("a rule that governs the process does not cover its tag");
    let rule = policy.containers[chain.file].run;
    (Origin::Run { record, chain: told.by_records(chain) }, rule)
}

/// Whether these steps are a chain from a file into a container, for this item, judged step by step from the session's start: "the first
/// takes up in that file, each other where the one before it put down"; "a chain that stood there is no longer one into it and goes no
/// further".
pub fn is_chain(policy: &Policy, history: &[Record], chain: &Chain, item: &Item, container: usize) -> bool {
    let Some(file) = policy.containers.get(chain.file).filter(|file| file.kind.is_file()) else { return false };
    let begun = match item {
        Item::Data(atom) | Item::Running(atom) => (file.atom == Some(*atom)).then_some(Carried::Data(*atom)),
        Item::Run(rule) => (policy.rule(file.run) == *rule).then_some(Carried::RunRule(chain.file)),
    };
    let Some(mut carried) = begun else { return false };
    let (mut at, mut rest) = (chain.file, &chain.steps[..]);
    for (place, &step) in history.iter().enumerate() {
        if rest.first() == Some(&place) {
            rest = &rest[1..];
            let Some((_, to)) = carries(step).filter(|(from, _)| *from == at) else { return false };
            let Some(passed) = passes(step.code, carried) else { return false };
            (at, carried) = (to, passed);
        } else if ends_carried(step, at, carried) {
            return false;
        }
    }
    let wanted = match item {
        Item::Data(atom) => Carried::Data(*atom),
        Item::Running(atom) => Carried::Running(*atom),
        Item::Run(_) => Carried::RunRule(chain.file),
    };
    rest.is_empty() && at == container && carried == wanted
}

/// Whether a chain by record numbers, of a trace, is one for an atom into a container.
pub fn is_way(policy: &Policy, told: &Told, chain: &Chain, atom: usize, container: usize) -> bool {
    told.places(&chain.steps).is_some_and(|steps| {
        is_chain(policy, &told.steps, &Chain { file: chain.file, steps }, &Item::of_atom(atom), container)
    })
}

/// Whether the rules of a container are those that this origin says, followed step by step from the session's start: which step each
/// number has its rules from.
fn has_origin(policy: &Policy, told: &Told, why: &Why) -> bool {
    // Of each number: its own rule, a step's, or none.
    let own = |container: &image::Container| container.kind != Kind::Process;
    let mut from: Vec<Option<Option<usize>>> = vec![None; CONTAINERS.most];
    for (number, container) in policy.containers.iter().enumerate() {
        from[number] = own(container).then_some(None);
    }
    for (place, step) in told.steps.iter().enumerate() {
        match step.code {
            4 => from[step.p] = Some(Some(place)),
            5 => from[step.o] = from[step.p],
            6 => from[step.o] = Some(Some(place)),
            7..=9 => from[step.o] = None,
            _ => {}
        }
    }
    let place = |record: usize| told.records.iter().position(|other| *other == record);
    let step_is = |record: usize, code: u8, user: Option<usize>| {
        place(record).is_some_and(|at| {
            let step = told.steps[at];
            from[why.receiver] == Some(Some(at)) && step.code == code && user.is_none_or(|user| step.u == Some(user))
        })
    };
    match &why.origin {
        Origin::Own => {
            from[why.receiver] == Some(None) && policy.containers.get(why.receiver).map(|c| c.permit) == Some(why.rule)
        }
        Origin::Made { record, user } => step_is(*record, 6, Some(*user)) && policy.users.get(*user) == Some(&why.rule),
        Origin::User { record, user } => step_is(*record, 4, Some(*user)) && policy.users.get(*user) == Some(&why.rule),
        Origin::Run { record, chain } => {
            let (Some(at), Some(steps)) = (place(*record), told.places(&chain.steps)) else { return false };
            let chain = Chain { file: chain.file, steps };
            let rule = policy.containers.get(chain.file).map(|file| file.run);
            step_is(*record, 4, None)
                && rule == Some(why.rule)
                && is_chain(policy, &told.steps[..at], &chain, &Item::Run(policy.rule(why.rule)), told.steps[at].o)
        }
    }
}

/// Whether an explanation is a certificate that the receiver is forbidden what it holds: the rule governs it, and each of its mixtures
/// lacks an atom that has a chain into it. The chain of each atom that is lacked stands beside it. All that is taken from the monitor is
/// which records were accepted, and for the last one that it was not refused.
pub fn is_certificate(policy: &Policy, told: &Told, why: &Why, ways: &[(u32, Chain)]) -> bool {
    let mixtures = policy.rule(why.rule);
    let last = told.steps.last().map(|&step| receiver(step));
    let lacks = |(mixture, atom): (&u64, &u32)| {
        let way = ways.iter().find(|(other, _)| other == atom);
        !holds(*mixture, 1 << atom)
            && holds(*mixture, why.tag & ((1 << atom) - 1))
            && way.is_some_and(|(_, chain)| is_way(policy, told, chain, *atom as usize, why.receiver))
    };
    last == Some(why.receiver)
        && has_origin(policy, told, why)
        && policy.owner(why.rule) == why.owner
        && mixtures.len() == why.lacked.len()
        && mixtures.iter().zip(&why.lacked).all(lacks)
}

/// How many records a trace has, a short last one included.
pub fn records(trace: &[u8]) -> usize {
    trace.len().div_ceil(RECORD)
}

/// Whether the memory that is lent is long enough: two numbers for each record and 258 before them, and one for each.
fn long_enough(trace: &[u8], links: usize, steps: usize) -> bool {
    links >= 258 + 2 * records(trace) && steps >= records(trace)
}

/// The record numbers of a chain at the end of the steps, rising; gives where they begin.
fn put_steps(chain: Option<&Chain>, steps: &mut [u64]) -> u64 {
    let numbers = chain.map_or(&[][..], |chain| &chain.steps);
    let first = steps.len() - numbers.len();
    for (place, &number) in steps[first..].iter_mut().zip(numbers) {
        *place = number as u64;
    }
    first as u64
}

/// What a host is answered by the first function, but for the links, whose content is the library's own.
pub struct Explained {
    pub number: u32,
    pub file: u64,
    pub first: u64,
}

/// The function as a host calls it, with links of this length: 9, then as [`explain`]. A refusal leaves everything.
pub fn put_chain(
    (image, trace): (&[u8], &[u8]),
    (container, atom): (usize, usize),
    links: usize,
    steps: &mut [u64],
    before: (u64, u64),
) -> Explained {
    let refused = |number| Explained { number, file: before.0, first: before.1 };
    if !long_enough(trace, links, steps.len()) {
        return refused(9);
    }
    match explain(image, trace, container, atom) {
        Err(number) => refused(number),
        Ok(chain) => {
            let first = put_steps(chain.as_ref(), steps);
            Explained { number: 0, file: chain.map_or(NO_CHAIN, |chain| chain.file as u64), first }
        }
    }
}

/// The numbers of an explanation, as a host finds them; where the chain of a run rule stands goes to the steps.
fn put_numbers(why: &Why, steps: &mut [u64], out: &mut [u64]) {
    let chain = match &why.origin {
        Origin::Run { chain, .. } => Some(chain),
        _ => None,
    };
    let (origin, record, from) = match &why.origin {
        Origin::Own => (0, 0, why.receiver),
        Origin::Made { record, user } => (1, *record, *user),
        Origin::User { record, user } => (2, *record, *user),
        Origin::Run { record, chain } => (3, *record, chain.file),
    };
    out[..WHY].fill(0);
    out[0] = why.receiver as u64;
    out[1] = why.tag;
    out[2] = origin;
    out[3] = record as u64;
    out[4] = from as u64;
    out[5] = u64::from(why.rule);
    out[6] = u64::from(why.owner);
    out[7] = put_steps(chain, steps);
    out[8] = why.lacked.len() as u64;
    for (place, &atom) in out[9..].iter_mut().zip(&why.lacked) {
        *place = u64::from(atom);
    }
}

/// The function as a host calls it, with links of this length: 9, then as [`why`]. A refusal leaves everything.
pub fn put_why(image: &[u8], trace: &[u8], links: usize, steps: &mut [u64], out: &mut [u64]) -> u32 {
    if !long_enough(trace, links, steps.len()) || out.len() < WHY {
        return 9;
    }
    match why(image, trace) {
        Err(number) => number,
        Ok(why) => {
            put_numbers(&why, steps, out);
            0
        }
    }
}

#[cfg(test)]
mod tests {
    use super::*;
    use crate::image::Container;
    use crate::numbers::{NO_OWNER, UNRESTRICTED};

    /// Files 0 and 1 with the atoms 0 and 1, of which 1 may hold itself alone, a program 2 with atom 2 that may run with atom 1, a file 3 without an
    /// atom, processes 4 and 5, and a user whose rule is that of file 1.
    fn policy() -> Policy {
        let file = |atom, permit, run| Container { kind: Kind::File, atom, permit, run };
        let process = Container { kind: Kind::Process, atom: None, permit: UNRESTRICTED, run: UNRESTRICTED };
        let open = UNRESTRICTED;
        let files = [file(Some(0), open, open), file(Some(1), 0, open), file(Some(2), open, 1), file(None, open, open)];
        Policy {
            containers: files.into_iter().chain([process, process]).collect(),
            users: vec![open, 0],
            rules: vec![vec![2, 2 | 7 << 32], vec![2 | 7 << 32]],
            owners: vec![NO_OWNER, 1],
        }
    }

    fn step(code: u8, p: usize, o: usize) -> Record {
        Record { code, p, o, u: [4, 6].contains(&code).then_some(0) }
    }

    fn told(steps: &[Record]) -> Told {
        Told { steps: steps.to_vec(), records: (0..steps.len()).collect(), last: None }
    }

    fn chain(file: usize, steps: &[usize]) -> Chain {
        Chain { file, steps: steps.to_vec() }
    }

    /// Which chain is told, said once more: at a step's receiver what stood there and is not ended stays, else what the step carries.
    fn by_definition(policy: &Policy, history: &[Record], item: &Item, container: usize) -> Option<Chain> {
        let Some((&last, before)) = history.split_last() else {
            return starts(policy, item, container).then(|| chain(container, &[]));
        };
        let held = |item: &Item, container| by_definition(policy, before, item, container);
        if receiver(last) != container {
            return held(item, container);
        }
        let stays = if ends(last, item) { None } else { held(item, container) };
        stays.or_else(|| {
            let (from, taken) = takes_up(last, item)?;
            let mut found = held(&taken, from)?;
            found.steps.push(before.len());
            Some(found)
        })
    }

    #[test]
    fn the_first_chain_is_told() {
        let policy = policy();
        let mut state = 1u64;
        let mut draw = |bound: u64| {
            state = state.wrapping_mul(6_364_136_223_846_793_005).wrapping_add(1_442_695_040_888_963_407);
            (state >> 33) % bound
        };
        let items = [Item::Data(0), Item::Data(1), Item::Running(0), Item::Running(2), Item::Run(policy.rule(1))];
        let mut found = 0;
        for _ in 0..600 {
            let history: Vec<Record> = (0..draw(11))
                .map(|_| {
                    let codes = [1, 1, 1, 2, 3, 3, 4, 4, 5, 6, 7, 8, 9];
                    let (code, p, file) = (codes[draw(13) as usize], 4 + draw(2) as usize, draw(4) as usize);
                    match code {
                        5 => step(5, p, 6),
                        8 => step(8, 6, 6),
                        code => step(code, p, file),
                    }
                })
                .collect();
            for item in &items {
                for container in 0..7 {
                    let told = witness(&policy, &history, item, container);
                    assert_eq!(
                        told,
                        by_definition(&policy, &history, item, container),
                        "{history:?} {item:?} {container}"
                    );
                    found += usize::from(told.as_ref().is_some_and(|told| told.steps.len() > 1));
                    assert!(told.is_none_or(|told| is_chain(&policy, &history, &told, item, container)));
                }
            }
        }
        assert!(found > 200, "{found} chains of several steps");
    }

    /// What is no chain is not taken for one.
    #[test]
    fn other_steps_are_no_chain() {
        let policy = policy();
        let history = [step(1, 4, 0), step(3, 4, 3), step(1, 5, 3), step(4, 5, 2), step(2, 5, 1)];
        let good =
            |file, steps: &[usize], item, container| is_chain(&policy, &history, &chain(file, steps), &item, container);
        assert!(good(0, &[0, 1, 2, 4], Item::Data(0), 1));
        assert!(good(2, &[3, 4], Item::Running(2), 1));
        assert!(good(2, &[3], Item::Run(policy.rule(1)), 5));
        // Another file, another container, a step missing, too many, falling, not there; a read of a running atom, data by exec.
        for (file, steps, item, container) in [
            (1, &[0, 1, 2, 4][..], Item::Data(0), 1),
            (0, &[0, 1, 2, 4], Item::Data(0), 3),
            (0, &[0, 1, 4], Item::Data(0), 1),
            (0, &[0, 1, 2, 3, 4], Item::Data(0), 1),
            (0, &[1, 0, 2, 4], Item::Data(0), 1),
            (0, &[0, 1, 2, 9], Item::Data(0), 1),
            (0, &[0, 1, 2, 4], Item::Running(0), 1),
            (2, &[3, 4], Item::Data(2), 1),
            // The file's own atom and its run rule were ended by the write.
            (1, &[], Item::Data(1), 1),
            (1, &[], Item::Run(policy.rule(UNRESTRICTED)), 1),
            (4, &[], Item::Data(0), 4),
        ] {
            assert!(!good(file, steps, item.clone(), container), "{file} {steps:?} {item:?} {container}");
        }
    }

    /// A certificate, and changes of it in one place that are none.
    #[test]
    fn a_wrong_reason_is_no_certificate() {
        let policy = policy();
        let history = told(&[step(1, 4, 0), step(3, 4, 1)]);
        let reason = Why { receiver: 1, tag: 3, origin: Origin::Own, rule: 0, owner: NO_OWNER, lacked: vec![0, 0] };
        let ways = [(0, chain(0, &[0, 1]))];
        let good = |why: &Why, ways: &[(u32, Chain)]| is_certificate(&policy, &history, why, ways);
        assert!(good(&reason, &ways));
        for wrong in [
            Why { receiver: 4, ..reason.clone() },
            Why { origin: Origin::User { record: 0, user: 1 }, ..reason.clone() },
            Why { origin: Origin::Made { record: 1, user: 1 }, ..reason.clone() },
            Why {
                origin: Origin::Run { record: 0, chain: chain(2, &[]) },
                rule: 1,
                owner: 1,
                lacked: vec![0],
                ..reason.clone()
            },
            Why { rule: 1, ..reason.clone() },
            Why { owner: 1, ..reason.clone() },
            Why { lacked: vec![0], ..reason.clone() },
            Why { lacked: vec![0, 1], ..reason.clone() },
        ] {
            assert!(!good(&wrong, &ways), "{wrong:?}");
        }
        assert!(!good(&reason, &[]));
        assert!(!good(&reason, &[(0, chain(0, &[1]))]));
    }

    /// "for a process, those of its last exec (a forked process has its parent's as at the fork until it makes its own; none if there
    /// was none)".
    #[test]
    fn the_rules_of_an_exec() {
        let policy = policy();
        let exec = |p, o, user| Record { code: 4, p, o, u: Some(user) };
        // Process 4 runs program 2, whose run rule came into file 3 too; its fork 6 reads file 0.
        let steps = [step(1, 5, 2), step(2, 5, 3), exec(4, 3, 0), step(5, 4, 6), step(1, 6, 0)];
        let history = told(&steps);
        let (origin, rule) = forbidding(&policy, &history, 6, 1 | 1 << 34);
        assert_eq!((&origin, rule), (&Origin::Run { record: 2, chain: chain(2, &[0, 1]) }, 1));
        let reason = Why { receiver: 6, tag: 1 | 1 << 34, origin, rule, owner: 1, lacked: vec![0] };
        let ways = [(0, chain(0, &[4]))];
        assert!(is_certificate(&policy, &history, &reason, &ways));
        // Behind an exec of its own the parent's is no longer right.
        let own = told(&[&steps[..4], &[exec(6, 3, 0), step(1, 6, 0)]].concat());
        assert!(!is_certificate(&policy, &own, &reason, &[(0, chain(0, &[5]))]));
        // For the other user his rule comes first.
        let user = told(&[exec(4, 2, 1), step(1, 4, 0)]);
        assert_eq!(forbidding(&policy, &user, 4, 1 | 1 << 34), (Origin::User { record: 0, user: 1 }, 0));
    }
}
