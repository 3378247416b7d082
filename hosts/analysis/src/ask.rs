//! May a source come into a container of a policy?
//!
//! The monitor forbids no access but a write or append into a guarded file, so what may come where is a question of rules alone. Let d be a
//! source's data atom and x its running atom.
//!
//! **As data.** A process holds nothing at the start and its rules are unrestricted. So where the policy has a process and a file that
//! carries d, a process takes d by one read, without an alert, and brings it by one write into any file or volatile. There it is quiet exactly if
//! some mixture of the permit rule has d: the process then holds d alone, and any other access that leaves d there leaves at least d. No other way
//! is shorter.
//!
//! **Executed.** x comes from an exec of a file that holds d, and passes by write, append and fork alone. [`direct`] executes a file
//! that carries d. If that is not quiet, [`Relay`] has the one other way: the data that a process keeps through an exec travel on without the
//! run rules that the process held before (change request No. 2). So a process reads d, executes a program whose run rule allows
//! more, and writes d into a file, which then has that run rule.
//!
//! **Why `never` and `only with an alert` are sound.** They are decided by necessary conditions, whatever the chain: [`never`] and
//! [`not_quiet`]. By the theorem on alerts (`docs/PROMISES.md`), an access is quiet exactly if each rule that governs the receiver
//! covers what has a chain into it. If some chain of x has no exec of a holder of d before the one that turned d into x, the run rule of the
//! file where it begins came along and governs that exec, so it covers x. Else the first such exec was made for a user whose rule covers d. In both cases
//! the rule of the last exec's user covers x, and so does the permit rule of a file that receives it.

use yaslaurel::layout::image;
use yaslaurel::{Answer, Kind, Mixture, Operation, Policy, Refusal, Rule, Session, Source, Verdict};

/// How many steps a chain may have if nobody says otherwise: as many as the longest has that [`ask`] can find.
pub const STEP_LIMIT: usize = 8;

/// What is asked for: a source, as data or executed.
#[derive(Clone, Copy, Debug, PartialEq, Eq)]
pub struct Item {
    /// The source.
    pub source: Source,
    /// Whether it is the source executed.
    pub running: bool,
}

impl Item {
    /// Its atom, as a set.
    fn bit(self) -> u64 {
        1 << if self.running { self.source.running_atom() } else { self.source.atom() }
    }

    /// The data atom of its source, as a set.
    fn data(self) -> u64 {
        1 << self.source.atom()
    }
}

/// Operations with their answers, as a session of the policy gave them one after the other.
#[derive(Clone, Debug, Default, PartialEq, Eq)]
pub struct Chain {
    /// Each step.
    pub steps: Vec<(Operation, Answer)>,
}

/// Why something never comes into a container.
#[derive(Clone, Copy, Debug, PartialEq, Eq)]
pub enum Never {
    /// No file carries the source.
    NoCarrier,
    /// The policy has no process, and nobody else makes one.
    NoProcess,
    /// The policy has no user, so there is no exec.
    NoUser,
    /// The container is guarded, and no mixture of its permit rule has the item.
    Guarded,
}

/// Why something comes into a container only with an alert.
#[derive(Clone, Copy, Debug, PartialEq, Eq)]
pub enum NotQuiet {
    /// No mixture of the container's permit rule has the item.
    Permit,
    /// No user's rule has a mixture with the item.
    User,
    /// No run rule of a file that carries the source has a mixture with the source executed, and no user's rule has one with it as data.
    Run,
}

/// What is found.
#[derive(Clone, Debug, PartialEq, Eq)]
pub enum Finding {
    /// It never comes there.
    Never(Never),
    /// It comes there without an alert, by this chain, and by no shorter one; by none if it is there from the start.
    Quietly(Chain),
    /// It comes there by this chain, by no shorter one, and by none without an alert.
    OnlyWithAlert(NotQuiet, Chain),
    /// No chain without an alert was found within so many steps, and perhaps one with an alert.
    NotFound(usize, Option<Chain>),
}

/// Whether a rule covers a set of atoms. It only chooses what is tried: the monitor decides.
fn covers(rule: &Rule, tag: u64) -> bool {
    rule.mixtures().iter().any(|mixture| mixture.holds(Mixture::from_bits(tag)))
}

/// A file of the policy as it is at the start.
struct File {
    number: u8,
    guarded: bool,
    tag: u64,
    permit: Rule,
    run: Rule,
}

/// A policy as the search needs it.
struct View {
    image: Vec<u8>,
    files: Vec<File>,
    processes: Vec<u8>,
    users: Vec<Rule>,
    /// The smallest free number; the numbers above it are free too.
    free: usize,
}

impl View {
    /// What the search needs of a policy.
    fn new(policy: &Policy) -> View {
        let rule = |place: Option<u16>| match place {
            Some(place) => policy.rules()[usize::from(place)].clone(),
            None => Rule::unrestricted(),
        };
        let numbered = || policy.containers().enumerate().map(|(number, (_, container))| (number as u8, container));
        let files = numbered().filter(|(_, container)| container.kind.is_file()).map(|(number, container)| File {
            number,
            guarded: container.kind == Kind::Guarded,
            tag: container.source.map_or(0, |source| 1 << source.atom()),
            permit: rule(container.permit),
            run: rule(container.run),
        });
        let processes = numbered().filter(|(_, container)| container.kind == Kind::Process).map(|(number, _)| number);
        View {
            image: policy.image(),
            files: files.collect(),
            processes: processes.collect(),
            users: policy.users().map(|(_, place)| rule(place)).collect(),
            free: policy.containers().len(),
        }
    }

    /// The files that carry a source.
    fn carriers(&self, item: Item) -> impl Iterator<Item = &File> {
        self.files.iter().filter(move |file| file.tag == item.data())
    }

    /// The file of a number.
    fn file(&self, number: u8) -> Option<&File> {
        self.files.iter().find(|file| file.number == number)
    }

    /// Runs operations on the proved monitor. Nothing if one is refused or blocked, or is an alert where it must be quiet.
    fn replay(&self, operations: &[Operation], quiet: bool) -> Result<Option<Chain>, Refusal> {
        let mut session = Session::start(&self.image)?;
        let mut steps = Vec::new();
        for &operation in operations {
            match session.perform(operation) {
                Ok(answer) if answer.verdict == Verdict::Quiet || (answer.verdict == Verdict::Alert && !quiet) => {
                    steps.push((operation, answer));
                }
                _ => return Ok(None),
            }
        }
        Ok(Some(Chain { steps }))
    }
}

/// Why an item never comes into a container, by conditions without which no chain exists: a chain begins in a file that carries the source,
/// only a process makes a step, only an exec makes a running atom, and a guarded file takes in no mixture that its permit rule does not cover.
fn never(view: &View, item: Item, container: u8) -> Option<Never> {
    let guarded = view.file(container).filter(|file| file.guarded);
    if view.carriers(item).next().is_none() {
        Some(Never::NoCarrier)
    } else if view.processes.is_empty() {
        Some(Never::NoProcess)
    } else if item.running && view.users.is_empty() {
        Some(Never::NoUser)
    } else {
        guarded.filter(|file| !covers(&file.permit, item.bit())).map(|_| Never::Guarded)
    }
}

/// Why an item comes into a container only with an alert, by conditions without which no chain is quiet (see the head of this file).
fn not_quiet(view: &View, item: Item, container: u8) -> Option<NotQuiet> {
    if view.file(container).is_some_and(|file| !covers(&file.permit, item.bit())) {
        return Some(NotQuiet::Permit);
    }
    if !item.running {
        return None;
    }
    let user_covers = |tag: u64| view.users.iter().any(|rule| covers(rule, tag));
    if !user_covers(item.bit()) {
        Some(NotQuiet::User)
    } else if !view.carriers(item).any(|file| covers(&file.run, item.bit())) && !user_covers(item.data()) {
        Some(NotQuiet::Run)
    } else {
        None
    }
}

/// A search for a chain.
struct Goal<'a> {
    view: &'a View,
    item: Item,
    container: u8,
    /// Whether the container is a process, which must execute by itself.
    process: bool,
    /// Whether each step must be quiet.
    quiet: bool,
    limit: usize,
}

impl Goal<'_> {
    /// Whether a rule need not cover a set, or does.
    fn allows(&self, rule: &Rule, tag: u64) -> bool {
        !self.quiet || covers(rule, tag)
    }

    /// Whether the container may take in a set: a file by its permit rule. A guarded file must.
    fn receives(&self, tag: u64) -> bool {
        self.view.file(self.container).map_or(true, |file| self.stores(file, tag))
    }

    /// Whether a file may be written with a set.
    fn stores(&self, file: &File, tag: u64) -> bool {
        covers(&file.permit, tag) || !(self.quiet || file.guarded)
    }

    /// Who makes the last exec or read: the container if it is a process, else the first process.
    fn last(&self) -> u8 {
        if self.process {
            self.container
        } else {
            self.view.processes[0]
        }
    }

    /// The operations with the write into the container behind them, if it is no process; run on the monitor.
    fn found(&self, mut operations: Vec<Operation>, process: u8) -> Result<Option<Chain>, Refusal> {
        if !self.process {
            operations.push(Operation::Write { process, object: self.container });
        }
        if operations.len() > self.limit {
            return Ok(None);
        }
        self.view.replay(&operations, self.quiet)
    }

    /// The shortest chain of this goal that the search knows.
    fn chain(&self) -> Result<Option<Chain>, Refusal> {
        if !self.item.running {
            let carrier = self.view.carriers(self.item).next().expect("never is asked before");
            let process = self.last();
            return self.found(vec![Operation::Read { process, object: carrier.number }], process);
        }
        match direct(self)? {
            Some(chain) => Ok(Some(chain)),
            None => relayed(self),
        }
    }
}

/// Executes a file that carries the source: one step, and one more into a file or volatile.
fn direct(goal: &Goal<'_>) -> Result<Option<Chain>, Refusal> {
    let (bit, process) = (goal.item.bit(), goal.last());
    if !goal.receives(bit) {
        return Ok(None);
    }
    for file in goal.view.carriers(goal.item).filter(|file| goal.allows(&file.run, bit)) {
        for (user, _) in goal.view.users.iter().enumerate().filter(|(_, rule)| goal.allows(rule, bit)) {
            let exec = Operation::Exec { process, file: file.number, user: user as u8 };
            if let Some(chain) = goal.found(vec![exec], process)? {
                return Ok(Some(chain));
            }
        }
    }
    Ok(None)
}

/// The program that the first process of a relay executes.
#[derive(Clone, Copy, PartialEq, Eq)]
enum Program {
    /// A file as it is at the start.
    Stored(u8),
    /// A file that a process which holds nothing has written: it holds nothing, and its run rule is unrestricted.
    Emptied(u8),
    /// A new file of a user: the same.
    New(u8),
}

/// Where the first process of a relay writes the data.
#[derive(Clone, Copy, PartialEq, Eq)]
enum Store {
    /// The file of a number.
    Stored(u8),
    /// The new file that is the program.
    Program,
    /// A new file of a user.
    New(u8),
}

/// Who makes the last exec of a relay.
#[derive(Clone, Copy, PartialEq, Eq)]
enum Second {
    /// Another process of the policy.
    Other,
    /// The first process, which holds the data still.
    Same,
    /// A process that was forked before anything was read.
    Forked,
}

/// A chain in which the run rule of the source's file is left behind: the first process reads the source, executes a program, and writes the
/// data into a store; the second executes the store.
struct Relay {
    program: Program,
    first_user: u8,
    store: Store,
    second: Second,
    second_user: u8,
}

impl Relay {
    /// How many steps it has beyond the read, the three others and the write into a container that is no process.
    fn extra(program: Program, store: Store, second: Second) -> usize {
        let made = usize::from(!matches!(program, Program::Stored(_))) + usize::from(matches!(store, Store::New(_)));
        made + usize::from(second == Second::Forked)
    }

    /// Its operations but for the write into the container, with the process that makes that; nothing if numbers or processes are too few.
    fn operations(&self, goal: &Goal<'_>) -> Option<(Vec<Operation>, u8)> {
        let mut made = Made { steps: Vec::new(), free: goal.view.free };
        let last = goal.last();
        let first = match self.second {
            Second::Same => last,
            Second::Other => goal.view.processes.iter().copied().find(|&process| process != last)?,
            Second::Forked => made.fork(last)?,
        };
        let program = match self.program {
            Program::Stored(file) => file,
            Program::Emptied(file) => made.emptied(first, file),
            Program::New(user) => made.new_file(first, user)?,
        };
        let store = match self.store {
            Store::Stored(file) => file,
            Store::Program => program,
            Store::New(user) => made.new_file(first, user)?,
        };
        let emptied = |number: u8| self.program == Program::Emptied(number);
        let carrier = goal.view.carriers(goal.item).find(|file| !emptied(file.number))?.number;
        let mut steps = made.steps;
        steps.push(Operation::Read { process: first, object: carrier });
        steps.push(Operation::Exec { process: first, file: program, user: self.first_user });
        steps.push(Operation::Write { process: first, object: store });
        steps.push(Operation::Exec { process: last, file: store, user: self.second_user });
        Some((steps, last))
    }
}

/// What a relay makes first. A new container takes the smallest free number.
struct Made {
    steps: Vec<Operation>,
    free: usize,
}

impl Made {
    /// The next free number, if there is one.
    fn number(&mut self) -> Option<u8> {
        let number = Some(self.free).filter(|free| *free < image::CONTAINERS.most)?;
        self.free += 1;
        Some(number as u8)
    }

    /// A fork.
    fn fork(&mut self, process: u8) -> Option<u8> {
        let child = self.number()?;
        self.steps.push(Operation::Fork { process, child });
        Some(child)
    }

    /// A new file.
    fn new_file(&mut self, process: u8, user: u8) -> Option<u8> {
        let file = self.number()?;
        self.steps.push(Operation::NewFile { process, file, user });
        Some(file)
    }

    /// A file that a process which holds nothing writes.
    fn emptied(&mut self, process: u8, file: u8) -> u8 {
        self.steps.push(Operation::Write { process, object: file });
        file
    }
}

/// The programs that a relay may execute, each with what its process takes on as running, and its run rule.
fn programs(goal: &Goal<'_>) -> Vec<(Program, u64, Rule)> {
    let files = || goal.view.files.iter();
    let stored = files().map(|file| (Program::Stored(file.number), file.tag << 32, file.run.clone()));
    let emptied = files().filter(|file| goal.stores(file, 0));
    let emptied = emptied.map(|file| (Program::Emptied(file.number), 0, Rule::unrestricted()));
    let new = (0..goal.view.users.len()).map(|user| (Program::New(user as u8), 0, Rule::unrestricted()));
    stored.chain(emptied).chain(new).collect()
}

/// The stores that may take in a set: the first file, the program if it is new, the first new file.
fn stores(goal: &Goal<'_>, program: Program, tag: u64) -> Vec<Store> {
    let stored = goal.view.files.iter().find(|file| goal.stores(file, tag)).map(|file| Store::Stored(file.number));
    let user = |user: u8| goal.allows(&goal.view.users[usize::from(user)], tag);
    let own = match program {
        Program::New(owner) if user(owner) => Some(Store::Program),
        _ => None,
    };
    let new = (0..goal.view.users.len() as u8).find(|&number| user(number)).map(Store::New);
    [stored, own, new].into_iter().flatten().collect()
}

/// The shortest chain by a relay.
fn relayed(goal: &Goal<'_>) -> Result<Option<Chain>, Refusal> {
    let programs = programs(goal);
    for extra in 0..=3 {
        for second in [Second::Other, Second::Same, Second::Forked] {
            for (program, running, run) in &programs {
                if let Some(chain) = relayed_by(goal, extra, second, (*program, *running, run))? {
                    return Ok(Some(chain));
                }
            }
        }
    }
    Ok(None)
}

/// The same with one program and so many steps beyond those that each relay has.
fn relayed_by(
    goal: &Goal<'_>,
    extra: usize,
    second: Second,
    (program, running, run): (Program, u64, &Rule),
) -> Result<Option<Chain>, Refusal> {
    let taken = goal.item.data() | running;
    let kept = if second == Second::Same { goal.item.data() } else { 0 };
    let last = goal.item.bit() | kept;
    if !(goal.allows(run, taken) && goal.allows(run, last) && goal.receives(last)) {
        return Ok(None);
    }
    let users = |tag: u64| (0..goal.view.users.len()).filter(move |&user| goal.allows(&goal.view.users[user], tag));
    for store in stores(goal, program, taken) {
        if Relay::extra(program, store, second) != extra {
            continue;
        }
        for first_user in users(taken) {
            for second_user in users(last) {
                let (first_user, second_user) = (first_user as u8, second_user as u8);
                let relay = Relay { program, first_user, store, second, second_user };
                let Some((operations, process)) = relay.operations(goal) else { continue };
                if let Some(chain) = goal.found(operations, process)? {
                    return Ok(Some(chain));
                }
            }
        }
    }
    Ok(None)
}

/// May an item come into a container of a policy? Within so many steps where a chain is shown.
///
/// ```
/// use analysis::{ask, Finding, Item, NotQuiet, STEP_LIMIT};
/// use yaslaurel::{Mixture, Policy};
/// let mut policy = Policy::new();
/// let (north, south) = (policy.source("north")?, policy.source("south")?);
/// let (positions, statement) = (policy.file("positions")?, policy.file("statement")?);
/// policy.set_source(positions, north)?;
/// policy.set_permit_rule(statement, Mixture::of([south]))?;
/// policy.process("job")?;
/// let found = ask(&policy, Item { source: north, running: false }, statement, STEP_LIMIT)?;
/// assert!(matches!(found, Finding::OnlyWithAlert(NotQuiet::Permit, chain) if chain.steps.len() == 2));
/// # Ok::<(), Box<dyn std::error::Error>>(())
/// ```
///
/// # Errors
///
/// A refusal of the policy's image, of which there is none for a policy.
pub fn ask(policy: &Policy, item: Item, container: u8, limit: usize) -> Result<Finding, Refusal> {
    let view = View::new(policy);
    let (kind, source) =
        policy.containers().nth(container.into()).map_or((Kind::File, None), |(_, found)| (found.kind, found.source));
    if !item.running && source == Some(item.source) {
        return Ok(Finding::Quietly(Chain::default()));
    }
    if let Some(reason) = never(&view, item, container) {
        return Ok(Finding::Never(reason));
    }
    let process = kind == Kind::Process;
    let goal = |quiet: bool| Goal { view: &view, item, container, process, quiet, limit };
    let reason = not_quiet(&view, item, container);
    if reason.is_none() {
        if let Some(chain) = goal(true).chain()? {
            return Ok(Finding::Quietly(chain));
        }
    }
    Ok(match (reason, goal(false).chain()?) {
        (Some(reason), Some(chain)) => Finding::OnlyWithAlert(reason, chain),
        (_, chain) => Finding::NotFound(limit, chain),
    })
}
