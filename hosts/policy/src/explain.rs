//! Alerts and blocked accesses explained: the rule that forbids, with where it comes from and what its mixtures lack, and how that came to
//! be there. The library finds both; this gives names to its numbers.

mod dot;
mod json;
mod text;

use std::error::Error;
use std::fmt;

use yaslaurel::layout::record;
use yaslaurel::{explain, why, Chain, Operation, Origin, Policy, Refusal, Session, Verdict, Why};

use crate::access::{held_before, receiver, what, Access};
use crate::names::FolderNames;
use crate::{Holder, NamesByStep};

pub use dot::digraph;
pub use json::list;
pub(crate) use json::spelled;

/// What is asked: the last record of a trace, which is answered by an alert or blocked.
#[derive(Clone, Copy, Debug)]
pub struct Asked<'a> {
    /// The policy, for its names.
    pub policy: &'a Policy,
    /// Its image.
    pub image: &'a [u8],
    /// The records up to the one that is asked for.
    pub trace: &'a [u8],
    /// The names of containers at each step.
    pub names: &'a NamesByStep,
    /// The last record, and what came of it.
    pub access: Access,
    /// Whether the chains of all that the receiver holds are told, and not just of what the rule lacks.
    pub all: bool,
}

/// Why a record was answered by an alert or blocked, and how what its rule lacks came there. Its text has a line for the access, one
/// for the rule, and one for each chain.
#[derive(Clone, Debug)]
pub struct Explanation {
    /// The number of the record, from 1.
    pub step: usize,
    blocked: bool,
    head: String,
    what: String,
    receiver: Place,
    holds: Vec<String>,
    stood: Vec<String>,
    brought: Vec<String>,
    rule: RuleTold,
    mixtures: Vec<MixtureTold>,
    /// What is held and no mixture of the rule has, but for what is told already.
    also: Vec<String>,
    chains: Vec<ChainTold>,
}

/// A container at a step.
#[derive(Clone, Debug, PartialEq, Eq)]
struct Place {
    name: String,
    number: u8,
    /// Which of the number's holders it is.
    holder: usize,
}

/// The rule that forbids.
#[derive(Clone, Debug)]
struct RuleTold {
    number: u16,
    owner: Option<String>,
    from: From,
}

/// Where a rule comes from.
#[derive(Clone, Debug)]
enum From {
    Own,
    Made {
        step: usize,
        user: String,
    },
    User {
        step: usize,
        user: String,
        by: Option<String>,
    },
    Run {
        step: usize,
        by: Option<String>,
        chain: ChainTold,
    },
    /// An origin that this program does not know.
    Unknown(String),
}

/// A mixture of the rule, and what it lacks.
#[derive(Clone, Debug)]
struct MixtureTold {
    atoms: Vec<String>,
    lacks: String,
}

/// How an atom, or a run rule, came to be where it is.
#[derive(Clone, Debug)]
struct ChainTold {
    /// The atom by name; nothing for a run rule.
    atom: String,
    /// Whether some mixture of the rule lacks it.
    lacked: bool,
    begins: Place,
    hops: Vec<Hop>,
}

/// A step of a chain.
#[derive(Clone, Debug)]
struct Hop {
    step: usize,
    process: String,
    verb: &'static str,
    object: String,
    to: Place,
    blocked: bool,
}

impl Asked<'_> {
    fn step(&self) -> usize {
        self.trace.len() / record::LENGTH
    }

    fn atom(&self, atom: u32) -> String {
        self.policy.sources_in(1 << atom)
    }

    fn atoms(&self, set: u64) -> Vec<String> {
        (0..u64::BITS).filter(|atom| set >> atom & 1 == 1).map(|atom| self.atom(atom)).collect()
    }

    fn place(&self, number: u8, step: usize) -> Place {
        Place { name: self.names.at(number, step).into(), number, holder: self.names.place(number, step) }
    }

    fn operation(&self, number: usize) -> Operation {
        let bytes = &self.trace[number * record::LENGTH..][..record::LENGTH];
        Operation::try_from(bytes).expect("the record of a chain or of a rule's origin is accepted")
    }

    fn hop(&self, number: usize) -> Hop {
        let (step, operation) = (number + 1, self.operation(number));
        let name = |number: u8| self.names.at(number, step).to_string();
        let blocked = self.access.verdict == Verdict::Blocked && step == self.step();
        let verb = operation.verb().split(' ').next().unwrap_or_default();
        let object = name(operation.record()[record::OBJECT]);
        Hop {
            step,
            process: name(operation.process()),
            verb,
            object,
            to: self.place(receiver(operation), step),
            blocked,
        }
    }

    fn chain(&self, atom: String, lacked: bool, chain: &Chain) -> ChainTold {
        let hops = chain.records.iter().map(|number| self.hop(*number)).collect();
        ChainTold { atom, lacked, begins: self.place(chain.file, 0), hops }
    }

    /// The process of an exec, if it is another one than the receiver, which has its rules by a fork.
    fn by(&self, exec: usize, receiver: u8) -> Option<String> {
        let place = self.place(self.operation(exec).process(), exec + 1);
        let now = self.place(receiver, self.step());
        ((place.number, place.holder) != (now.number, now.holder)).then_some(place.name)
    }

    fn rule(&self, why: &Why) -> RuleTold {
        let user = |number: u8| self.policy.user_name(number);
        let from = match &why.origin {
            Origin::Own { .. } => From::Own,
            Origin::Made { record, user: number } => From::Made { step: record + 1, user: user(*number) },
            Origin::User { record, user: number } => {
                From::User { step: record + 1, user: user(*number), by: self.by(*record, why.receiver) }
            }
            Origin::Run { record, chain } => {
                let by = self.by(*record, why.receiver);
                From::Run { step: record + 1, by, chain: self.chain(String::new(), false, chain) }
            }
            other => From::Unknown(format!("{other:?}")),
        };
        RuleTold { number: why.rule, owner: why.owner.map(user), from }
    }

    /// What is told of the chains of atoms: those that a mixture lacks, or all that the receiver holds.
    fn chains(&self, why: &Why) -> Result<Vec<ChainTold>, Refusal> {
        let lacked = why.lacked();
        let mut wanted = lacked.clone();
        if self.all {
            wanted.extend((0..u64::BITS).filter(|atom| why.tag >> atom & 1 == 1 && !lacked.contains(atom)));
        }
        let told = wanted.into_iter().filter_map(|atom| {
            let found = explain(self.image, self.trace, why.receiver, atom).transpose()?;
            Some(found.map(|chain| self.chain(self.atom(atom), lacked.contains(&atom), &chain)))
        });
        told.collect()
    }

    /// Explains the last record.
    ///
    /// # Errors
    ///
    /// The refusals of [`yaslaurel::why`]: of the image, or [`Refusal::ExplainTrace`].
    pub fn explanation(&self) -> Result<Explanation, Refusal> {
        let why = why(self.image, self.trace)?;
        let step = self.step();
        let name = |number: u8| self.names.at(number, step).to_string();
        let union = why.mixtures.iter().fold(0, |set, (mixture, _)| set | mixture.bits());
        let lacked = why.lacked().into_iter().fold(0, |set, atom| set | 1_u64 << atom);
        let also = if why.mixtures.is_empty() { 0 } else { why.tag & !union & !lacked };
        let mixtures = why.mixtures.iter();
        let mixtures =
            mixtures.map(|(mixture, atom)| MixtureTold { atoms: self.atoms(mixture.bits()), lacks: self.atom(*atom) });
        Ok(Explanation {
            step,
            blocked: self.access.verdict == Verdict::Blocked,
            head: self.access.words(self.policy, name),
            what: what(self.access.operation, name),
            receiver: self.place(why.receiver, step),
            holds: self.atoms(why.tag),
            stood: self.atoms(self.access.stood()),
            brought: self.atoms(self.access.brought()),
            rule: self.rule(&why),
            mixtures: mixtures.collect(),
            also: self.atoms(also),
            chains: self.chains(&why)?,
        })
    }
}

/// Why a step cannot be explained.
#[derive(Clone, Debug, PartialEq, Eq)]
#[non_exhaustive]
pub enum ExplainError {
    /// The policy is refused.
    Policy(Refusal),
    /// The trace has so many records, and not the one of this number.
    NoStep(usize, usize),
    /// The record of this number is quiet.
    Quiet(usize),
    /// The record of this number is refused.
    RefusedStep(usize, Refusal),
}

impl fmt::Display for ExplainError {
    fn fmt(&self, f: &mut fmt::Formatter<'_>) -> fmt::Result {
        if let ExplainError::Policy(refusal) = self {
            return refusal.fmt(f);
        }
        write!(f, "refused {}: ", Refusal::ExplainTrace.number())?;
        let expected = "expected an alert or a blocked access";
        match self {
            ExplainError::Policy(_) => Ok(()),
            ExplainError::NoStep(records, step) => write!(f, "there are {records} records, and no step {step}"),
            ExplainError::Quiet(step) => write!(f, "step {step} is quiet, {expected}"),
            ExplainError::RefusedStep(step, refusal) => write!(f, "step {step} is {refusal}, {expected}"),
        }
    }
}

impl Error for ExplainError {}

/// The explanations of a trace, of each record that is answered by an alert or blocked. Each costs time in proportion to the records
/// before it.
///
/// ```
/// use policy_text::{Explanations, Story};
/// let story = "source north\nsource south\nrule own = {south}\nfile north source north\nfile south source south permit own\n\
///     process job\nstep read job north\nstep append job south\n";
/// let story = Story::read(story.as_bytes())?;
/// let (image, trace) = (story.policy().image(), story.trace());
/// let mut told = Explanations::new(story.policy(), &image, story.holders(), &trace, false).expect("an accepted policy");
/// let text = "alert, step 2: job appends to south, which now holds north, south; this access brought north\n  \
///     its own permit rule permits {south}: it lacks north\n  \
///     north came by north -> job (step 1, reads) -> south (step 2, appends)\n";
/// assert_eq!(told.next().unwrap().unwrap().to_string(), text);
/// assert!(told.next().is_none());
/// # Ok::<(), policy_text::LineError>(())
/// ```
pub struct Explanations<'a> {
    policy: &'a Policy,
    image: &'a [u8],
    trace: &'a [u8],
    all: bool,
    names: FolderNames<'a>,
    session: Session,
    /// How many records are judged.
    judged: usize,
}

impl<'a> Explanations<'a> {
    /// The explanations of a trace under a policy with names, whose image starts it. The holders of numbers, in the order in which they
    /// come, give the names of containers that steps make. With `all` the chains of all that a receiver holds are told.
    ///
    /// # Errors
    ///
    /// The policy's refusal.
    pub fn new(
        policy: &'a Policy,
        image: &'a [u8],
        holders: &'a [Holder],
        trace: &'a [u8],
        all: bool,
    ) -> Result<Explanations<'a>, ExplainError> {
        let session = Session::start(image).map_err(ExplainError::Policy)?;
        Ok(Explanations { policy, image, trace, all, names: FolderNames::new(policy, holders), session, judged: 0 })
    }

    /// Judges the next record.
    fn judge(&mut self) -> Option<Result<Access, Refusal>> {
        let bytes = self.trace.chunks(record::LENGTH).nth(self.judged)?;
        self.judged += 1;
        let operation = Operation::try_from(bytes).ok();
        let before = operation.map_or(0, |operation| held_before(&self.session, operation));
        let answer = match self.session.step(bytes) {
            Ok(answer) => answer,
            Err(refusal) => return Some(Err(refusal)),
        };
        let operation = operation.expect("a record that is not refused is well formed");
        if answer.verdict != Verdict::Blocked {
            self.names.accepted(self.judged, operation);
        }
        Some(Ok(Access::new(operation, answer, before)))
    }

    fn explanation(&self, access: Access) -> Result<Explanation, ExplainError> {
        let trace = &self.trace[..self.judged * record::LENGTH];
        let (policy, image, names) = (self.policy, self.image, self.names.names());
        Asked { policy, image, trace, names, access, all: self.all }.explanation().map_err(ExplainError::Policy)
    }

    /// The explanation of one step, counted from 1, in place of those of all.
    ///
    /// # Errors
    ///
    /// Which of the reasons of [`Refusal::ExplainTrace`] it is, with the step's number.
    pub fn at(mut self, step: usize) -> Result<Explanation, ExplainError> {
        let records = self.records();
        loop {
            let judged = self.judge().ok_or(ExplainError::NoStep(records, step))?;
            if self.judged == step {
                let access = judged.map_err(|refusal| ExplainError::RefusedStep(step, refusal))?;
                return match access.verdict {
                    Verdict::Quiet => Err(ExplainError::Quiet(step)),
                    _ => self.explanation(access),
                };
            }
        }
    }

    /// How many records there are.
    #[must_use]
    pub fn records(&self) -> usize {
        self.trace.chunks(record::LENGTH).len()
    }
}

impl Iterator for Explanations<'_> {
    type Item = Result<Explanation, ExplainError>;

    fn next(&mut self) -> Option<Self::Item> {
        loop {
            if let Ok(access) = self.judge()? {
                if access.verdict != Verdict::Quiet {
                    return Some(self.explanation(access));
                }
            }
        }
    }
}
