//! Explanations: how an atom came into a container, and why a record is answered alert or blocked.

use std::fmt;

use crate::layout::{image as format, record, why as places};
use crate::{ffi, refusal, Answer, Mixture, Operation, Policy, Refusal, Rule, Session};

/// Numbers of the reason that [`why_in`] writes.
pub const WHY_LENGTH: usize = places::LENGTH;

/// How many records a trace of so many bytes has; a short last one counts.
///
/// ```
/// assert_eq!([0, 1, 8, 9].map(yaslaurel::trace_records), [0, 1, 1, 2]);
/// ```
#[must_use]
pub const fn trace_records(trace_length: usize) -> usize {
    trace_length / record::LENGTH + (trace_length % record::LENGTH != 0) as usize
}

/// How many links an explanation is lent for a trace of so many records; its steps are as many as the records.
///
/// ```
/// assert_eq!(yaslaurel::links_length(3), 264);
/// ```
#[must_use]
pub const fn links_length(records: usize) -> usize {
    258 + 2 * records
}

/// A chain: how something came into a container. It begins at the session's start in a file of the image, and goes on by accepted records,
/// each of which takes it up where the one before put it down.
#[derive(Clone, Debug, PartialEq, Eq, Hash)]
#[non_exhaustive]
pub struct Chain {
    /// The number of the file where it begins.
    pub file: u8,
    /// The numbers of its records, rising, counted from 0 in the trace with those that were refused. Without a record it is the file itself.
    pub records: Vec<usize>,
}

impl Chain {
    /// Its records as steps, which a listing counts from 1.
    #[must_use]
    pub fn steps(&self) -> impl ExactSizeIterator<Item = usize> + '_ {
        self.records.iter().map(|number| number + 1)
    }
}

/// The file, then the steps, as numbers.
impl fmt::Display for Chain {
    fn fmt(&self, f: &mut fmt::Formatter<'_>) -> fmt::Result {
        write!(f, "{}", self.file)?;
        self.steps().try_for_each(|step| write!(f, " {step}"))
    }
}

/// Where the rule that forbids comes from. Records are numbers in the trace, from 0.
#[derive(Clone, Debug, PartialEq, Eq, Hash)]
#[non_exhaustive]
pub enum Origin {
    /// It is the container's own permit rule in the image.
    Own {
        /// The number of the container.
        container: u8,
    },
    /// It is the rule of the user for whom the file was made.
    Made {
        /// The record that made it.
        record: usize,
        /// The user.
        user: u8,
    },
    /// It is the rule of the user for whom the process runs.
    User {
        /// The exec: of the process, or of the one that it was forked from.
        record: usize,
        /// The user.
        user: u8,
    },
    /// It is a run rule that stood in the executed file.
    Run {
        /// The exec: of the process, or of the one that it was forked from.
        record: usize,
        /// How the rule came into the executed file, just before the exec. It is the run rule of the file where the chain begins.
        chain: Chain,
    },
}

/// Why a record is answered alert or blocked: the rule that forbids what the receiver holds, or would hold, and what each of its mixtures
/// lacks. With a chain for each atom that is [lacked](Why::lacked) it is a certificate.
#[derive(Clone, Debug, PartialEq, Eq, Hash)]
#[non_exhaustive]
pub struct Why {
    /// The number of the container that received.
    pub receiver: u8,
    /// Its tag, as answered.
    pub tag: u64,
    /// Where the rule comes from.
    pub origin: Origin,
    /// The rule's number in the image.
    pub rule: u16,
    /// The user who owns it.
    pub owner: Option<u8>,
    /// Its mixtures in the image's order, each with the least atom of the tag that it lacks: data atoms 0 to 31, running atoms 32 to 63. None
    /// for a rule without mixtures, which permits nothing.
    pub mixtures: Vec<(Mixture, u32)>,
}

impl Why {
    /// The different atoms that mixtures lack, in the order of the first mixture that lacks each.
    #[must_use]
    pub fn lacked(&self) -> Vec<u32> {
        let mut atoms = Vec::new();
        for (_, atom) in &self.mixtures {
            if !atoms.contains(atom) {
                atoms.push(*atom);
            }
        }
        atoms
    }

    /// The reason in words, with the policy's names.
    ///
    /// ```
    /// use yaslaurel::{Mixture, Operation, Policy, Session, Verdict};
    /// let mut policy = Policy::new();
    /// let (north, south) = (policy.source("north")?, policy.source("south")?);
    /// let (positions, statement, job) = (policy.file("positions")?, policy.file("statement")?, policy.process("job")?);
    /// policy.set_source(positions, north)?;
    /// policy.set_permit_rule(statement, Mixture::of([south]))?;
    /// let mut session = Session::recording(&policy.image())?;
    /// assert_eq!(session.perform(Operation::Read { process: job, object: positions })?.verdict, Verdict::Quiet);
    /// assert_eq!(session.perform(Operation::Write { process: job, object: statement })?.verdict, Verdict::Alert);
    /// let text = session.why()?.by_name(&policy).to_string();
    /// assert_eq!(text, "the permit rule of statement permits {south}: it lacks north");
    /// # Ok::<(), Box<dyn std::error::Error>>(())
    /// ```
    #[must_use]
    pub fn by_name<'a>(&'a self, policy: &'a Policy) -> WhyByName<'a> {
        WhyByName { why: self, policy }
    }
}

/// Numbers alone: a line for the rule, then one for each mixture, as the program `explain` prints them.
///
/// ```
/// use yaslaurel::{matrix_policy, why, Operation};
/// let image = matrix_policy(&[1, 2], &[1, 0], 2)?;
/// let trace = [Operation::Read { process: 2, object: 1 }, Operation::Append { process: 2, object: 0 }];
/// let text = why(&image, &trace.map(Operation::record).concat())?.to_string();
/// assert_eq!(text, "rule own 0 65535\nlacks 0000000000000001 1");
/// # Ok::<(), yaslaurel::Refusal>(())
/// ```
impl fmt::Display for Why {
    fn fmt(&self, f: &mut fmt::Formatter<'_>) -> fmt::Result {
        let (rule, owner) = (self.rule, self.owner.map_or(format::NO_OWNER, u16::from));
        match &self.origin {
            Origin::Own { .. } => write!(f, "rule own {rule} {owner}")?,
            Origin::Made { record, user } => write!(f, "rule made {rule} {owner} {} {user}", record + 1)?,
            Origin::User { record, user } => write!(f, "rule user {rule} {owner} {} {user}", record + 1)?,
            Origin::Run { record, chain } => write!(f, "rule run {rule} {owner} {} {chain}", record + 1)?,
        }
        self.mixtures.iter().try_for_each(|(mixture, atom)| write!(f, "\nlacks {:016x} {atom}", mixture.bits()))
    }
}

/// A reason in words, from [`Why::by_name`]. Containers have the names that the policy gives their numbers.
#[derive(Clone, Copy, Debug)]
pub struct WhyByName<'a> {
    why: &'a Why,
    policy: &'a Policy,
}

impl fmt::Display for WhyByName<'_> {
    fn fmt(&self, f: &mut fmt::Formatter<'_>) -> fmt::Result {
        let WhyByName { why, policy } = self;
        match &why.origin {
            Origin::Own { container } => write!(f, "the permit rule of {}", policy.container_name(*container))?,
            Origin::Made { record, user } => {
                write!(f, "the rule of {}, for whom it was made in step {},", policy.user_name(*user), record + 1)?;
            }
            Origin::User { record, user } => {
                write!(f, "the rule of {}, for whom it runs since step {},", policy.user_name(*user), record + 1)?;
            }
            Origin::Run { record, chain } => {
                write!(f, "the run rule of {}, executed in step {},", policy.container_name(chain.file), record + 1)?;
            }
        }
        if why.mixtures.is_empty() {
            return f.write_str(" permits nothing at all");
        }
        why.mixtures.iter().enumerate().try_for_each(|(place, (mixture, atom))| {
            let (held, lacked) = (policy.sources_in(mixture.bits()), policy.sources_in(1 << atom));
            let before = if place == 0 { " permits" } else { ";" };
            let held = if mixture.bits() == 0 { String::new() } else { held };
            write!(f, "{before} {{{held}}}: it lacks {lacked}")
        })
    }
}

/// Tells how an atom came into a container: the chain by which it came first to be where it stands, when the records of the trace, one
/// behind the other, run on a new session of the image. Nothing if the container does not hold the atom. A last record that is blocked is
/// followed as if it had been made. The call needs about 50 KiB of stack.
///
/// ```
/// use yaslaurel::{explain, matrix_policy, Operation, Refusal};
///
/// // Files 0 to 3, processes 4 to 6.
/// let image = matrix_policy(&[5, 3, 2], &[1, 2, 10], 4)?;
/// let read = |process, object| Operation::Read { process, object };
/// let append = |process, object| Operation::Append { process, object };
/// let trace = [read(4, 2), append(4, 0), read(4, 9), read(5, 0), append(5, 1)].map(Operation::record).concat();
/// let chain = explain(&image, &trace, 1, 2)?.expect("file 1 holds atom 2");
/// assert_eq!((chain.file, &chain.records[..]), (2, &[0, 1, 3, 4][..]), "record 2 is refused");
/// assert_eq!(chain.to_string(), "2 1 2 4 5");
/// assert_eq!(explain(&image, &trace, 1, 3), Ok(None));
/// assert_eq!(explain(&image, &trace, 1, 64), Err(Refusal::ExplainBounds));
/// # Ok::<(), Refusal>(())
/// ```
///
/// # Errors
///
/// The refusals of the image, [`Refusal::ImageLength`] to [`Refusal::UserRule`], then [`Refusal::ExplainBounds`] for an atom over 63.
pub fn explain(image: &[u8], trace: &[u8], container: u8, atom: u32) -> Result<Option<Chain>, Refusal> {
    let records = trace_records(trace.len());
    let (mut links, mut steps) = (vec![0; links_length(records)], vec![0; records]);
    let found = explain_in(image, trace, usize::from(container), atom as usize, &mut links, &mut steps)?;
    Ok(found.map(|(file, first)| Chain { file, records: numbers(&steps[first..]) }))
}

/// The record numbers at the end of the steps.
fn numbers(steps: &[u64]) -> Vec<usize> {
    steps.iter().map(|&number| number as usize).collect()
}

/// The same in lent memory: [`links_length`] numbers or more, and a step for each record or more. Gives the file where the chain begins, and
/// where its records stand in the steps, up to their end; what stands before stays.
///
/// ```
/// use yaslaurel::{explain_in, matrix_policy, Refusal};
/// let image = matrix_policy(&[1], &[1], 1)?;
/// assert_eq!(explain_in(&image, &[], 0, 0, &mut [7; 258], &mut []), Ok(Some((0, 0))));
/// assert_eq!(explain_in(&image, &[], 0, 0, &mut [7; 257], &mut []), Err(Refusal::LentLength));
/// assert_eq!(explain_in(&image, &[], 256, 0, &mut [7; 258], &mut []), Err(Refusal::ExplainBounds));
/// # Ok::<(), Refusal>(())
/// ```
///
/// # Errors
///
/// [`Refusal::LentLength`], then as [`explain`]. A refusal changes nothing.
pub fn explain_in(
    image: &[u8],
    trace: &[u8],
    container: usize,
    atom: usize,
    links: &mut [u64],
    steps: &mut [u64],
) -> Result<Option<(u8, usize)>, Refusal> {
    let (mut file, mut first) = (0, 0);
    // SAFETY: the slices are valid and aligned for their lengths, Rust keeps what is written apart from the rest, and the two numbers
    // are ours.
    let number = unsafe {
        ffi::yaslaurel_explain(
            image.as_ptr(),
            image.len(),
            trace.as_ptr(),
            trace.len(),
            container,
            atom,
            links.as_mut_ptr(),
            links.len(),
            steps.as_mut_ptr(),
            steps.len(),
            &mut file,
            &mut first,
        )
    };
    match number {
        0 => Ok((file != ffi::NO_CHAIN).then_some((file as u8, first as usize))),
        number => Err(refusal(number)),
    }
}

/// Tells why the last record of a trace is answered alert or blocked. The trace up to its record n is `&trace[..8 * (n + 1)]`. The call needs
/// about 50 KiB of stack.
///
/// ```
/// use yaslaurel::{matrix_policy, why, Operation, Origin, Refusal};
///
/// // Object 0 may hold itself alone. Process 2 brings object 1 into it.
/// let image = matrix_policy(&[1, 2], &[1, 0], 2)?;
/// let operations = [Operation::Read { process: 2, object: 1 }, Operation::Append { process: 2, object: 0 }];
/// let trace = operations.map(Operation::record).concat();
/// let why = why(&image, &trace)?;
/// assert_eq!((why.receiver, why.tag, why.rule, why.owner), (0, 0b11, 0, None));
/// assert_eq!(why.origin, Origin::Own { container: 0 });
/// assert_eq!(why.mixtures.iter().map(|(mixture, atom)| (mixture.bits(), *atom)).collect::<Vec<_>>(), [(0b01, 1)]);
/// assert_eq!(yaslaurel::why(&image, &trace[..8]), Err(Refusal::ExplainTrace));
/// # Ok::<(), Refusal>(())
/// ```
///
/// # Errors
///
/// The refusals of the image, [`Refusal::ImageLength`] to [`Refusal::UserRule`], then [`Refusal::ExplainTrace`].
pub fn why(image: &[u8], trace: &[u8]) -> Result<Why, Refusal> {
    let records = trace_records(trace.len());
    let (mut links, mut steps, mut why) = (vec![0; links_length(records)], vec![0; records], [0; WHY_LENGTH]);
    why_in(image, trace, &mut links, &mut steps, &mut why)?;
    Ok(reason(image, &why, &steps))
}

/// The reason that the numbers say, of an accepted image.
fn reason(image: &[u8], numbers_of: &[u64; WHY_LENGTH], steps: &[u64]) -> Why {
    let at = |place: usize| numbers_of[place];
    let (record, from) = (at(places::RECORD) as usize, at(places::FROM) as u8);
    let origin = match at(places::ORIGIN) {
        0 => Origin::Own { container: from },
        1 => Origin::Made { record, user: from },
        2 => Origin::User { record, user: from },
        3 => {
            let records = numbers(&steps[at(places::FIRST) as usize..]);
            Origin::Run { record, chain: Chain { file: from, records } }
        }
        other => panic!("unknown origin {other}: the library's contract gives none such"),
    };
    let rule = at(places::RULE) as u16;
    let lacked = &numbers_of[places::LACKED..][..at(places::MIXTURES) as usize];
    let mixtures =
        mixtures(image, rule).into_iter().zip(lacked).map(|(mixture, &atom)| (mixture, atom as u32)).collect();
    let owner = at(places::OWNER);
    Why {
        receiver: at(places::RECEIVER) as u8,
        tag: at(places::TAG),
        origin,
        rule,
        owner: (owner != u64::from(format::NO_OWNER)).then_some(owner as u8),
        mixtures,
    }
}

/// The mixtures of a rule of an accepted image, in the image's order.
fn mixtures(image: &[u8], rule: u16) -> Vec<Mixture> {
    if rule == format::UNRESTRICTED {
        return Rule::unrestricted().mixtures().to_vec();
    }
    let number = |place: usize| usize::from(u16::from_le_bytes([image[place], image[place + 1]]));
    let place = number(format::RULES.offset_at()) + usize::from(rule) * format::RULES.record;
    let (first, count) = (number(place + format::FIRST), number(place + format::COUNT));
    let size = format::MIXTURES.record;
    let begin = number(format::MIXTURES.offset_at()) + first * size;
    let mixtures = image[begin..begin + count * size].chunks_exact(size).map(|bytes| {
        let bytes = bytes.try_into().expect("eight bytes");
        Mixture::from_bits(u64::from_le_bytes(bytes))
    });
    mixtures.collect()
}

/// The same in lent memory: links and steps as for [`explain_in`], and [`WHY_LENGTH`] numbers or more for the reason, at whose front it
/// comes; [`layout::why`](crate::layout::why) has the places.
///
/// ```
/// use yaslaurel::{why_in, Refusal, WHY_LENGTH};
/// assert_eq!(why_in(&[], &[], &mut [0; 258], &mut [], &mut [0; WHY_LENGTH - 1]), Err(Refusal::LentLength));
/// assert_eq!(why_in(&[], &[], &mut [0; 258], &mut [], &mut [0; WHY_LENGTH]), Err(Refusal::ImageLength));
/// ```
///
/// # Errors
///
/// [`Refusal::LentLength`], then as [`why()`]. A refusal changes nothing.
pub fn why_in(
    image: &[u8],
    trace: &[u8],
    links: &mut [u64],
    steps: &mut [u64],
    why: &mut [u64],
) -> Result<(), Refusal> {
    // SAFETY: the slices are valid and aligned for their lengths, and Rust keeps what is written apart from the rest.
    let number = unsafe {
        ffi::yaslaurel_why(
            image.as_ptr(),
            image.len(),
            trace.as_ptr(),
            trace.len(),
            links.as_mut_ptr(),
            links.len(),
            steps.as_mut_ptr(),
            steps.len(),
            why.as_mut_ptr(),
            why.len(),
        )
    };
    match number {
        0 => Ok(()),
        number => Err(refusal(number)),
    }
}

/// A session that keeps its records, so that its alerts can be explained, from [`Session::recording`]. It grows by eight bytes with each
/// record.
#[derive(Clone, PartialEq, Eq)]
pub struct Recording {
    session: Session,
    image: Vec<u8>,
    trace: Vec<u8>,
}

impl Session {
    /// Starts a session that keeps its records.
    ///
    /// ```
    /// use yaslaurel::{matrix_policy, Operation, Origin, Refusal, Session, Verdict};
    /// let mut session = Session::recording(&matrix_policy(&[1, 2], &[1, 0], 2)?)?;
    /// assert_eq!(session.perform(Operation::Read { process: 2, object: 1 })?.verdict, Verdict::Quiet);
    /// let answer = session.perform(Operation::Append { process: 2, object: 0 })?;
    /// assert_eq!(answer.verdict, Verdict::Alert);
    /// let why = session.why()?;
    /// assert_eq!((why.origin.clone(), why.lacked()), (Origin::Own { container: 0 }, vec![1]));
    /// let chain = session.explain(answer.receiver, 1)?.expect("the tag has the atom");
    /// assert_eq!((chain.file, chain.records), (1, vec![0, 1]));
    /// # Ok::<(), Refusal>(())
    /// ```
    ///
    /// # Errors
    ///
    /// As [`check`](crate::check).
    pub fn recording(image: &[u8]) -> Result<Recording, Refusal> {
        Ok(Recording { session: Session::start(image)?, image: image.to_vec(), trace: Vec::new() })
    }
}

impl Recording {
    /// Judges one record and keeps it, as [`Session::step`] judges it. One of another length than 8 bytes is kept as 8 zeros, which are
    /// refused as it was.
    ///
    /// # Errors
    ///
    /// As [`Session::step`].
    pub fn step(&mut self, bytes: &[u8]) -> Result<Answer, Refusal> {
        let answer = self.session.step(bytes);
        let whole: [u8; record::LENGTH] = bytes.try_into().unwrap_or_default();
        self.trace.extend(whole);
        answer
    }

    /// Judges one operation, as [`step`](Recording::step) judges its record.
    ///
    /// # Errors
    ///
    /// As [`Session::perform`].
    pub fn perform(&mut self, operation: Operation) -> Result<Answer, Refusal> {
        self.step(&operation.record())
    }

    /// The session.
    #[must_use]
    pub fn session(&self) -> &Session {
        &self.session
    }

    /// The image that it was started from.
    #[must_use]
    pub fn image(&self) -> &[u8] {
        &self.image
    }

    /// All records so far, refused ones too, one behind the other.
    #[must_use]
    pub fn trace(&self) -> &[u8] {
        &self.trace
    }

    /// Why the last record was answered alert or blocked, as [`why()`] tells it.
    ///
    /// # Errors
    ///
    /// [`Refusal::ExplainTrace`] if it was answered otherwise, or there is none.
    pub fn why(&self) -> Result<Why, Refusal> {
        why(&self.image, &self.trace)
    }

    /// How an atom came into a container, as [`explain`] tells it.
    ///
    /// # Errors
    ///
    /// [`Refusal::ExplainBounds`] for an atom over 63.
    pub fn explain(&self, container: u8, atom: u32) -> Result<Option<Chain>, Refusal> {
        explain(&self.image, &self.trace, container, atom)
    }
}

impl fmt::Debug for Recording {
    fn fmt(&self, f: &mut fmt::Formatter<'_>) -> fmt::Result {
        write!(f, "Recording {{ {:?}, {} records }}", self.session, self.trace.len() / record::LENGTH)
    }
}

#[cfg(test)]
mod tests {
    use super::*;
    use crate::Verdict;

    /// A policy with two sources, a data file for each, a program, a process and a user with this rule.
    fn policy(of_user: Rule, run: Rule) -> Policy {
        let mut policy = Policy::new();
        for name in ["north", "south", "tool"] {
            let source = policy.source(name).unwrap();
            let file = policy.file(name).unwrap();
            policy.set_source(file, source).unwrap();
        }
        policy.process("job").unwrap();
        policy.user("member", of_user).unwrap();
        policy.set_run_rule(2, run).unwrap();
        policy
    }

    fn ran(policy: &Policy, operations: &[Operation]) -> Recording {
        let mut session = Session::recording(&policy.image()).unwrap();
        for operation in operations {
            let _ = session.perform(*operation);
        }
        session
    }

    #[test]
    fn a_rule_of_a_user_is_told_before_a_run_rule() {
        let mixture = Mixture::of([crate::Source::from_atom(0).unwrap()]);
        let narrow = Rule::from(mixture.running([crate::Source::from_atom(2).unwrap()]));
        let exec = Operation::Exec { process: 3, file: 2, user: 0 };
        let fork = Operation::Fork { process: 3, child: 9 };
        let read = Operation::Read { process: 9, object: 1 };
        let by_user = policy(narrow.clone(), narrow.clone());
        let session = ran(&by_user, &[exec, fork, read]);
        let why = session.why().unwrap();
        assert_eq!((why.receiver, why.tag), (9, 0b10 | 1 << 34));
        assert_eq!(why.origin, Origin::User { record: 0, user: 0 });
        assert_eq!(why.to_string(), format!("rule user 0 65535 1 0\nlacks {:016x} 1", narrow.mixtures()[0].bits()));
        let text = why.by_name(&by_user).to_string();
        assert_eq!(
            text,
            "the rule of member, for whom it runs since step 1, permits {north, tool (running)}: it lacks south"
        );

        let by_run = policy(Rule::unrestricted(), narrow);
        let why = ran(&by_run, &[exec, fork, read]).why().unwrap();
        assert_eq!(why.origin, Origin::Run { record: 0, chain: Chain { file: 2, records: vec![] } });
        let text = why.by_name(&by_run).to_string();
        assert_eq!(text, "the run rule of tool, executed in step 1, permits {north, tool (running)}: it lacks south");
        assert_eq!(ran(&by_run, &[exec, fork]).why(), Err(Refusal::ExplainTrace));
    }

    #[test]
    fn a_rule_without_mixtures_lacks_nothing_in_particular() {
        let policy = policy(Rule::new([]).unwrap(), Rule::unrestricted());
        let made = Operation::NewFile { process: 3, file: 7, user: 0 };
        let session = ran(&policy, &[made, Operation::Append { process: 3, object: 7 }]);
        let why = session.why().unwrap();
        assert_eq!((why.origin.clone(), why.tag, why.lacked()), (Origin::Made { record: 0, user: 0 }, 0, vec![]));
        assert_eq!(why.to_string(), "rule made 0 65535 1 0");
        let text = "the rule of member, for whom it was made in step 1, permits nothing at all";
        assert_eq!(why.by_name(&policy).to_string(), text);
    }

    #[test]
    fn a_record_of_another_length_keeps_its_place() {
        let policy = policy(Rule::unrestricted(), Rule::unrestricted());
        let mut session = Session::recording(&policy.image()).unwrap();
        assert_eq!(session.step(&[1, 0, 3]), Err(Refusal::OperationRecord));
        assert_eq!(session.step(&[0; 9]), Err(Refusal::OperationRecord));
        let read = session.perform(Operation::Read { process: 3, object: 0 }).unwrap();
        assert_eq!(read.verdict, Verdict::Quiet);
        assert_eq!(session.trace().len(), 24);
        assert_eq!(session.explain(3, 0).unwrap().unwrap().records, [2]);
        assert_eq!(format!("{session:?}"), "Recording { Session { 4 containers, 1 users }, 3 records }");
    }

    #[test]
    fn a_blocked_record_is_explained_as_if_it_were_made() {
        let mut policy = policy(Rule::unrestricted(), Rule::unrestricted());
        policy.set_permit_rule(1, Mixture::of([crate::Source::from_atom(1).unwrap()])).unwrap();
        policy.set_guarded(1, true).unwrap();
        let read = Operation::Read { process: 3, object: 0 };
        let session = ran(&policy, &[read, Operation::Append { process: 3, object: 1 }]);
        let why = session.why().unwrap();
        assert_eq!((why.receiver, why.tag, why.lacked()), (1, 0b11, vec![0]));
        assert_eq!(session.explain(1, 0).unwrap().unwrap().records, [0, 1]);
        assert_eq!(session.session().container(1).unwrap().tag, 0b10);
    }
}
