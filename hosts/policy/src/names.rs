//! What containers are called from step to step: a number is taken again once its holder has left.

use yaslaurel::layout::image::CONTAINERS;
use yaslaurel::{Operation, Policy};

use crate::Holder;

/// A name of the holder of a number.
#[derive(Clone, Debug)]
struct Held {
    /// The first step, counted from 1, at which the holder goes by the name.
    from: usize,
    /// Which of the number's holders it is, from 0.
    place: usize,
    name: String,
}

/// The names of the containers of a session, from step to step.
///
/// ```
/// use policy_text::NamesByStep;
/// use yaslaurel::Policy;
/// let mut policy = Policy::new();
/// let job = policy.process("job")?;
/// let mut names = NamesByStep::new(&policy);
/// names.take(job, 7, "second-job");
/// names.rename(job, 9, "second-job, once it runs a program");
/// assert_eq!((names.at(job, 6), names.at(job, 8)), ("job", "second-job"));
/// assert_eq!((names.place(job, 6), names.place(job, 9)), (0, 1));
/// assert_eq!(names.at(5, 1), "");
/// # Ok::<(), yaslaurel::PolicyError>(())
/// ```
#[derive(Clone, Debug)]
pub struct NamesByStep {
    numbers: Vec<Vec<Held>>,
}

impl NamesByStep {
    /// The containers of a policy, before any step.
    #[must_use]
    pub fn new(policy: &Policy) -> NamesByStep {
        let mut names = NamesByStep { numbers: vec![Vec::new(); CONTAINERS.most] };
        for (number, (name, _)) in policy.containers().enumerate() {
            names.take(number as u8, 0, name);
        }
        names
    }

    /// A number is taken at a step, which is not before those that were noted of the number already.
    pub fn take(&mut self, number: u8, step: usize, name: &str) {
        let held = &mut self.numbers[usize::from(number)];
        let place = held.last().map_or(0, |last| last.place + 1);
        held.push(Held { from: step, place, name: name.into() });
    }

    /// The holder of a number is called otherwise from a step on.
    pub fn rename(&mut self, number: u8, step: usize, name: &str) {
        let held = &mut self.numbers[usize::from(number)];
        if let Some(place) = held.last().map(|last| last.place) {
            held.push(Held { from: step, place, name: name.into() });
        }
    }

    fn held(&self, number: u8, step: usize) -> Option<&Held> {
        let held = &self.numbers[usize::from(number)];
        held[..held.partition_point(|held| held.from <= step)].last()
    }

    /// What the holder of a number is called at a step; nothing if the number had none yet.
    #[must_use]
    pub fn at(&self, number: u8, step: usize) -> &str {
        self.held(number, step).map_or("", |held| &held.name)
    }

    /// Which of the number's holders it is, from 0.
    #[must_use]
    pub fn place(&self, number: u8, step: usize) -> usize {
        self.held(number, step).map_or(0, |held| held.place)
    }
}

/// Names by step while a trace goes on, from the holders that a folder lists.
#[derive(Clone, Debug)]
pub struct FolderNames<'a> {
    /// By number: the names of its holders, one after the other.
    holders: Vec<Vec<&'a str>>,
    names: NamesByStep,
}

impl FolderNames<'_> {
    /// The containers of a policy, before any step, with the holders of numbers in the order in which they come.
    #[must_use]
    pub fn new<'a>(policy: &Policy, holders: &'a [Holder]) -> FolderNames<'a> {
        let mut by_number = vec![Vec::new(); CONTAINERS.most];
        for holder in holders {
            by_number[usize::from(holder.number)].push(&holder.name[..]);
        }
        FolderNames { holders: by_number, names: NamesByStep::new(policy) }
    }

    /// The names up to the last step that was noted.
    #[must_use]
    pub fn names(&self) -> &NamesByStep {
        &self.names
    }

    /// Notes who takes a number by an accepted operation: the next holder of it that is known, else one named after its kind.
    pub fn accepted(&mut self, step: usize, operation: Operation) {
        let (number, kind) = match operation {
            Operation::Fork { child, .. } => (child, "process"),
            Operation::NewFile { file, .. } => (file, "file"),
            Operation::NewVolatile { volatile, .. } => (volatile, "volatile"),
            _ => return,
        };
        let before = self.names.held(number, step).map_or(0, |held| held.place + 1);
        match self.holders[usize::from(number)].get(before) {
            Some(name) => self.names.take(number, step, name),
            None => self.names.take(number, step, &format!("{kind}-{number}")),
        }
    }
}
