//! Safe Rust interface of Yaslaurel, a proved information-flow monitor.
//!
//! A policy says which mixtures of sources each file, user and program may take in. The host reports each operation as
//! a record of a few bytes; the monitor keeps, for every container, the set of sources that its content came from, and
//! answers [`Verdict::Alert`] when a mixture lands where the policy forbids it.
//!
//! ```
//! use yaslaurel::{matrix_policy, Operation, Session, Verdict};
//!
//! // Three subjects and four objects. Objects become containers 0 to 3, subjects processes 4 to 6.
//! let image = matrix_policy(&[5, 3, 2], &[1, 2, 10], 4)?;
//! let mut session = Session::start(&image)?;
//!
//! let answer = session.perform(Operation::Read { process: 4, object: 2 })?;
//! assert_eq!((answer.verdict, answer.receiver, answer.tag), (Verdict::Quiet, 4, 0b0100));
//! let answer = session.perform(Operation::Append { process: 4, object: 0 })?;
//! assert_eq!((answer.verdict, answer.receiver, answer.tag), (Verdict::Quiet, 0, 0b0101));
//! let answer = session.perform(Operation::Read { process: 5, object: 0 })?;
//! assert_eq!((answer.verdict, answer.receiver, answer.tag), (Verdict::Quiet, 5, 0b0101));
//!
//! // Object 1 may hold objects 0 and 1, and now receives what came from object 2.
//! let answer = session.perform(Operation::Append { process: 5, object: 1 })?;
//! assert_eq!((answer.verdict, answer.receiver, answer.tag), (Verdict::Alert, 1, 0b0111));
//! # Ok::<(), yaslaurel::Refusal>(())
//! ```
//!
//! An answer that nobody looks at is a warning, since it may be an alert:
//!
//! ```compile_fail
//! # use yaslaurel::{matrix_policy, Operation, Session};
//! # let mut session = Session::start(&matrix_policy(&[1], &[1], 1)?)?;
//! session.perform(Operation::Read { process: 1, object: 0 })?; // an error here: in these examples warnings are errors
//! # Ok::<(), yaslaurel::Refusal>(())
//! ```
//!
//! [`why()`] tells which rule an alert broke and what it lacks, [`explain`] how that came there; [`Session::recording`] keeps what they need.
//!
//! [`Policy`] makes an image by names and gives the names for messages.
//!
//! The functions whose names end in `_into` or `_in` work on memory that the caller lends, of any length: a wrong length
//! is a [`Refusal`]. The others bring their own.

#![warn(missing_docs, clippy::missing_errors_doc, clippy::must_use_candidate)]
#![doc(test(attr(deny(warnings))))]

mod composition;
mod container;
mod events;
mod explain;
pub mod ffi;
mod figures;
mod game;
pub mod layout;
mod operation;
mod policy;
mod refusal;
mod rule;
mod run;
mod trim;
mod withdrawal;

use std::fmt;

pub use composition::{compose, compose_into};
pub use container::{Container, Kind};
pub use events::{event, events_in, Event, Gathered};
pub use explain::{
    explain, explain_in, links_length, trace_records, why, why_in, Chain, Origin, Recording, Why, WhyByName, WHY_LENGTH,
};
pub use figures::{add_figures_in, figures_in, Figures};
pub use game::{play, Move, Outcome};
pub use operation::Operation;
pub use policy::{Policy, PolicyContainer, PolicyError};
pub use refusal::Refusal;
pub use rule::{Mixture, Rule, Source};
pub use run::{run_in, Run};
pub use trim::{trim, trim_into, TRIM_LIMIT};
pub use withdrawal::{judge_withdrawal, Judgement, Matrix};

/// Numbers of 64 bits in a session.
pub const SESSION_LENGTH: usize = layout::session::LENGTH;

/// Bytes that an output for an image must hold.
pub const OUTPUT_LENGTH: usize = layout::image::LONGEST_NORMAL;

/// What the monitor says of an operation that it does not refuse.
#[derive(Clone, Copy, Debug, PartialEq, Eq, Hash)]
#[must_use = "it may be an alert, or blocked"]
#[non_exhaustive]
pub enum Verdict {
    /// The receiver's permit rule covers its tag, or the operation made a new file or volatile, or the receiver has left.
    Quiet,
    /// The receiver's permit rule does not cover its tag. The access is not undone.
    Alert,
    /// A write or append into a [guarded file](Kind::Guarded) that would have raised an alert. The session stays as it was, and
    /// the host must not make the access.
    Blocked,
}

/// The answer to an operation that is not refused.
#[derive(Clone, Copy, Debug, PartialEq, Eq, Hash)]
#[must_use = "it may be an alert, or blocked"]
#[non_exhaustive]
pub struct Answer {
    /// Whether it is an alert, or blocked.
    pub verdict: Verdict,
    /// The number of the container that received, or that ended or was deleted.
    pub receiver: u8,
    /// The set of atoms that the receiver now holds, or would hold if the operation were not blocked: atom k is worth 2 to the
    /// k, data atoms 0 to 31, their running atoms 32 to 63. 0 for one that has left.
    pub tag: u64,
    /// The place, from 0, of the first mixture in the receiver's permit rule, in ascending order, that holds all of the tag: which
    /// permission let the flow through. Nothing if there is none, as in an alert, where it is blocked, for a new file under a
    /// rule without mixtures, and for a container that has left.
    pub position: Option<u8>,
}

impl Answer {
    /// The answer of a function of the library.
    pub(crate) fn new(verdict: Verdict, receiver: u64, tag: u64, position: u32) -> Answer {
        let position = (position != ffi::NO_POSITION).then_some(position as u8);
        Answer { verdict, receiver: receiver as u8, tag, position }
    }

    /// The atoms of the tag, rising.
    ///
    /// ```
    /// use yaslaurel::{profiles_policy, Operation, Session};
    /// let mut session = Session::start(&profiles_policy(b"profile /bin/admin {\n/etc/keys r,\n}\n")?)?;
    /// let answer = session.perform(Operation::Exec { process: 2, file: 0, user: 0 })?;
    /// assert_eq!(answer.atoms().collect::<Vec<_>>(), [32]);
    /// let answer = session.perform(Operation::Read { process: 2, object: 1 })?;
    /// assert_eq!(answer.atoms().collect::<Vec<_>>(), [1, 32]);
    /// # Ok::<(), yaslaurel::Refusal>(())
    /// ```
    pub fn atoms(self) -> impl Iterator<Item = u32> {
        atoms(self.tag)
    }
}

/// The atoms of a set, rising.
fn atoms(set: u64) -> impl Iterator<Item = u32> {
    (0..u64::BITS).filter(move |atom| set >> atom & 1 == 1)
}

/// The verdict on an access matrix. There is no third.
#[derive(Clone, Copy, Debug, PartialEq, Eq, Hash)]
#[must_use = "the matrix may be inconsistent"]
pub enum MatrixVerdict {
    /// Every composed flow is granted.
    Consistent,
    /// Some composed flow is not granted.
    Inconsistent {
        /// How many are not granted.
        flows: u32,
        /// The object where the first of them begins.
        source: u32,
        /// The object where it ends.
        target: u32,
    },
}

/// All types may go to another thread and be shared.
const _: () = {
    const fn crosses_threads<T: Send + Sync>() {}
    crosses_threads::<(Session, Run<'_>, Answer, Verdict, Container, Kind)>();
    crosses_threads::<(Operation, Refusal, Matrix<'_>, MatrixVerdict, Judgement, Outcome)>();
    crosses_threads::<(Chain, Origin, Why, WhyByName<'_>, Recording)>();
    crosses_threads::<(Policy, PolicyContainer, PolicyError, Source, Mixture, Rule)>();
};

/// The refusal of a number that the library returned.
#[inline]
fn refusal(number: u32) -> Refusal {
    Refusal::from_number(number)
        .unwrap_or_else(|| panic!("unknown answer {number}: the library's contract gives none such"))
}

/// An image's length, or a refusal: no refusal of a function that writes an image is as large as a header is long.
#[inline]
fn length(number: u32) -> Result<usize, Refusal> {
    if (number as usize) < layout::image::HEADER {
        Err(refusal(number))
    } else {
        Ok(number as usize)
    }
}

/// Checks a policy image.
///
/// ```
/// use yaslaurel::{check, matrix_policy, Refusal};
/// let image = matrix_policy(&[1], &[1], 1)?;
/// assert_eq!(check(&image), Ok(()));
/// assert_eq!(check(&image[1..]), Err(Refusal::Sections));
/// assert_eq!(check(&[]), Err(Refusal::ImageLength));
/// # Ok::<(), Refusal>(())
/// ```
///
/// # Errors
///
/// Refusals 1 to 6: what is wrong with the image.
#[inline]
pub fn check(image: &[u8]) -> Result<(), Refusal> {
    // SAFETY: a slice is valid, aligned and not null for its length.
    match unsafe { ffi::yaslaurel_image_check(image.as_ptr(), image.len()) } {
        0 => Ok(()),
        number => Err(refusal(number)),
    }
}

/// The normal image of a policy image. Two accepted images have the same one exactly when they start equal sessions and have the
/// same owner at every use of a rule.
///
/// ```
/// // One byte behind the last section is ignored.
/// let image = yaslaurel::matrix_policy(&[1], &[1], 1)?;
/// assert_eq!(yaslaurel::normalise(&[&image[..], &[99]].concat())?, image);
/// # Ok::<(), yaslaurel::Refusal>(())
/// ```
///
/// # Errors
///
/// As [`check`].
pub fn normalise(image: &[u8]) -> Result<Vec<u8>, Refusal> {
    let mut out = vec![0; OUTPUT_LENGTH];
    let length = normalise_into(image, &mut out)?;
    out.truncate(length);
    Ok(out)
}

/// Writes the normal image of a policy image to the front of an output of [`OUTPUT_LENGTH`] bytes or more, and gives its
/// length. The bytes behind it stay; a refusal changes none.
///
/// ```
/// use yaslaurel::{matrix_policy, normalise_into, Refusal, OUTPUT_LENGTH};
/// let image = matrix_policy(&[1], &[1], 1)?;
/// assert_eq!(normalise_into(&image, &mut vec![0; OUTPUT_LENGTH]), Ok(image.len()));
/// assert_eq!(normalise_into(&image, &mut vec![0; OUTPUT_LENGTH - 1]), Err(Refusal::LentLength));
/// # Ok::<(), Refusal>(())
/// ```
///
/// # Errors
///
/// [`Refusal::LentLength`] for a short output, else as [`check`].
#[inline]
pub fn normalise_into(image: &[u8], out: &mut [u8]) -> Result<usize, Refusal> {
    // SAFETY: both slices are valid for their lengths, and Rust keeps `out` apart from `image`.
    length(unsafe { ffi::yaslaurel_image_normalise(image.as_ptr(), image.len(), out.as_mut_ptr(), out.len()) })
}

/// Fills a lent session of exactly [`SESSION_LENGTH`] numbers from a policy image, whatever stood there.
///
/// # Errors
///
/// [`Refusal::LentLength`] for another length, else as [`check`]. A refusal changes nothing.
#[inline]
pub fn start_in(image: &[u8], session: &mut [u64]) -> Result<(), Refusal> {
    // SAFETY: both slices are valid and aligned for their lengths, and Rust keeps `session` apart from `image`.
    match unsafe { ffi::yaslaurel_session_start(image.as_ptr(), image.len(), session.as_mut_ptr(), session.len()) } {
        0 => Ok(()),
        number => Err(refusal(number)),
    }
}

/// Judges one operation record on a lent session of exactly [`SESSION_LENGTH`] numbers.
///
/// # Errors
///
/// [`Refusal::LentLength`] for another length, else as [`Session::step`]. A refusal changes nothing.
#[inline]
pub fn step_in(session: &mut [u64], record: &[u8]) -> Result<Answer, Refusal> {
    let (mut receiver, mut tag, mut position) = (0, 0, 0);
    let (words, length) = (session.as_mut_ptr(), session.len());
    // SAFETY: the slices are valid and aligned for their lengths, the three numbers are ours, and Rust keeps what is
    // written apart from the rest.
    let number = unsafe {
        ffi::yaslaurel_step(words, length, record.as_ptr(), record.len(), &mut receiver, &mut tag, &mut position)
    };
    let verdict = match number {
        ffi::QUIET => Verdict::Quiet,
        ffi::ALERT => Verdict::Alert,
        ffi::BLOCKED => Verdict::Blocked,
        number => return Err(refusal(number)),
    };
    Ok(Answer::new(verdict, receiver, tag, position))
}

/// A running session.
#[derive(Clone, PartialEq, Eq)]
pub struct Session {
    words: Box<[u64; SESSION_LENGTH]>,
}

impl Session {
    /// Starts a session from a policy image.
    ///
    /// ```
    /// use yaslaurel::{layout, matrix_policy, Refusal, Session};
    /// let session = Session::start(&matrix_policy(&[0b11], &[0b10], 2)?)?;
    /// let row = &session.words()[layout::session::container(1)];
    /// assert_eq!(row[layout::session::TAG], 0b10, "file 1 holds its own atom");
    /// assert_eq!(Session::start(&[]), Err(Refusal::ImageLength));
    /// # Ok::<(), Refusal>(())
    /// ```
    ///
    /// # Errors
    ///
    /// As [`check`].
    pub fn start(image: &[u8]) -> Result<Session, Refusal> {
        let mut session = Session { words: vec![0; SESSION_LENGTH].try_into().expect("the length is right") };
        start_in(image, &mut session.words[..])?;
        Ok(session)
    }

    /// Judges one operation record, of any bytes and length, and brings the session up to date. A refusal changes
    /// nothing.
    ///
    /// ```
    /// use yaslaurel::{matrix_policy, Operation, Refusal, Session};
    /// let mut session = Session::start(&matrix_policy(&[1], &[1], 1)?)?;
    /// let before = session.clone();
    /// assert_eq!(session.step(&[1, 0, 1]), Err(Refusal::OperationRecord));
    /// assert_eq!(session.step(&Operation::Read { process: 0, object: 1 }.record()), Err(Refusal::NoProcess));
    /// assert_eq!(session, before);
    /// # Ok::<(), Refusal>(())
    /// ```
    ///
    /// # Errors
    ///
    /// [`Refusal::OperationRecord`], 10 to 14, 18 or 15: the operation was not followed.
    #[inline]
    pub fn step(&mut self, record: &[u8]) -> Result<Answer, Refusal> {
        step_in(&mut self.words[..], record)
    }

    /// Judges one operation, as [`step`](Session::step) judges its record.
    ///
    /// ```
    /// use yaslaurel::{matrix_policy, Operation, Refusal, Session};
    /// let mut session = Session::start(&matrix_policy(&[1], &[1], 1)?)?;
    /// let answer = session.perform(Operation::Read { process: 1, object: 0 })?;
    /// assert_eq!((answer.receiver, answer.tag), (1, 0b1));
    /// assert_eq!(session.perform(Operation::Read { process: 0, object: 1 }), Err(Refusal::NoProcess));
    /// # Ok::<(), Refusal>(())
    /// ```
    ///
    /// A guarded file takes in no forbidden mixture:
    ///
    /// ```
    /// use yaslaurel::{Mixture, Operation, Policy, Session, Verdict};
    /// let mut policy = Policy::new();
    /// let (north, south) = (policy.source("north")?, policy.source("south")?);
    /// let (positions, statement, job) = (policy.file("positions")?, policy.file("statement")?, policy.process("job")?);
    /// policy.set_source(positions, north)?;
    /// policy.set_permit_rule(statement, Mixture::of([south]))?;
    /// policy.set_guarded(statement, true)?;
    /// let mut session = Session::start(&policy.image())?;
    /// assert_eq!(session.perform(Operation::Read { process: job, object: positions })?.verdict, Verdict::Quiet);
    /// let before = session.clone();
    /// let answer = session.perform(Operation::Write { process: job, object: statement })?;
    /// assert_eq!((answer.verdict, answer.receiver, answer.tag), (Verdict::Blocked, statement, 0b01));
    /// assert_eq!(session, before);
    /// # Ok::<(), Box<dyn std::error::Error>>(())
    /// ```
    ///
    /// # Errors
    ///
    /// As [`step`](Session::step); [`Refusal::OperationRecord`] only for a user over 15.
    #[inline]
    pub fn perform(&mut self, operation: Operation) -> Result<Answer, Refusal> {
        self.step(&operation.record())
    }

    /// Judges the records that lie one behind the other in a slice, each as [`step`](Session::step) does; the last may be
    /// short. The iterator gives what is not quiet: the record's place in the slice, counted from 0, and its alert, that it is
    /// blocked, or its refusal. Records are judged as the iterator goes on, so it is run to its end, or [`Run::judged`] tells how far it
    /// came.
    ///
    /// ```
    /// use yaslaurel::{matrix_policy, Operation, Refusal, Session, Verdict};
    /// let mut session = Session::start(&matrix_policy(&[5, 3, 2], &[1, 2, 10], 4)?)?;
    /// let mut records = Vec::new();
    /// records.extend(Operation::Read { process: 4, object: 2 }.record());
    /// records.extend(Operation::Append { process: 4, object: 0 }.record());
    /// records.extend(Operation::Read { process: 5, object: 0 }.record());
    /// records.extend(Operation::Append { process: 5, object: 1 }.record());
    /// records.extend(Operation::Write { process: 6, object: 1 }.record());
    /// records.extend(Operation::Read { process: 6, object: 9 }.record());
    /// let loud: Vec<_> = session.run(&records).collect();
    /// assert_eq!(loud.len(), 2);
    /// assert!(matches!(loud[0], (3, Ok(alert)) if alert.verdict == Verdict::Alert && alert.tag == 0b0111));
    /// assert_eq!(loud[1], (5, Err(Refusal::WrongKind)));
    /// # Ok::<(), Refusal>(())
    /// ```
    #[inline]
    pub fn run<'a>(&'a mut self, records: &'a [u8]) -> Run<'a> {
        run_in(&mut self.words[..], records)
    }

    /// What is not quiet of a batch of records, as [`Session::run`] has it, by as few calls of the library as there are
    /// 256 such records: each record's place in the slice, and its alert, that it is blocked, or its refusal.
    ///
    /// ```
    /// use yaslaurel::{matrix_policy, Operation, Refusal, Session};
    /// let mut session = Session::start(&matrix_policy(&[1], &[1], 1)?)?;
    /// let quiet = Operation::Read { process: 1, object: 0 }.record();
    /// let records = [&quiet[..], &[0; 8], &quiet[..], &[1, 0, 1]].concat();
    /// let refused = Err(Refusal::OperationRecord);
    /// assert_eq!(session.events(&records), [(1, refused), (3, refused)]);
    /// # Ok::<(), Refusal>(())
    /// ```
    #[must_use = "an alert may be among them"]
    pub fn events(&mut self, records: &[u8]) -> Vec<Event> {
        events::gather(&mut self.words[..], records)
    }

    /// Judges a batch of records to its end, and counts them by their answers.
    ///
    /// ```
    /// use yaslaurel::{matrix_policy, Operation, Session};
    /// let mut session = Session::start(&matrix_policy(&[5, 3, 2], &[1, 2, 10], 4)?)?;
    /// let mut records = Operation::Read { process: 4, object: 2 }.record().to_vec();
    /// records.extend(Operation::Append { process: 4, object: 0 }.record());
    /// records.extend(Operation::Read { process: 5, object: 0 }.record());
    /// let first = session.figures(&records);
    /// records.clear();
    /// records.extend(Operation::Append { process: 5, object: 1 }.record());
    /// records.extend(Operation::Read { process: 6, object: 9 }.record());
    /// let all = first + session.figures(&records);
    /// assert_eq!((all.records(), all.accepted(), all.alerts(), all.refused(), all.blocked()), (5, 4, 1, 1, 0));
    /// assert_eq!(all.alerts_at(1), 1);
    /// # Ok::<(), yaslaurel::Refusal>(())
    /// ```
    #[must_use = "an alert may be among them"]
    pub fn figures(&mut self, records: &[u8]) -> Figures {
        figures::count(&mut self.words[..], records)
    }

    /// What a number stands for just now; nothing for a free one.
    ///
    /// ```
    /// use yaslaurel::{matrix_policy, Kind, Operation, Refusal, Session};
    /// // Files 0 and 1, process 2, user 0.
    /// let mut session = Session::start(&matrix_policy(&[0b11], &[0b10], 2)?)?;
    /// let file = session.container(1).expect("a file of the policy");
    /// assert_eq!((file.kind, file.tag, file.user), (Kind::File, 0b10, None));
    /// assert_eq!(session.container(3), None);
    ///
    /// // An exec says on whose behalf a process runs, and a fork runs on the same user's.
    /// assert_eq!(session.container(2).and_then(|process| process.user), None);
    /// let exec = session.perform(Operation::Exec { process: 2, file: 0, user: 0 })?;
    /// let fork = session.perform(Operation::Fork { process: 2, child: 3 })?;
    /// assert_eq!((exec.tag, fork.tag), (1 << 32, 1 << 32));
    /// let child = session.container(3).expect("the fork took it");
    /// assert_eq!((child.kind, child.tag, child.user), (Kind::Process, 1 << 32, Some(0)));
    /// # Ok::<(), Refusal>(())
    /// ```
    #[must_use]
    pub fn container(&self, number: u8) -> Option<Container> {
        Container::read(&self.words[layout::session::container(usize::from(number))])
    }

    /// All containers that there are just now, with their numbers, rising.
    ///
    /// ```
    /// use yaslaurel::{matrix_policy, Kind, Session};
    /// let session = Session::start(&matrix_policy(&[0b11], &[0b10], 2)?)?;
    /// let kinds: Vec<_> = session.containers().map(|(number, container)| (number, container.kind)).collect();
    /// assert_eq!(kinds, [(0, Kind::File), (1, Kind::File), (2, Kind::Process)]);
    /// # Ok::<(), yaslaurel::Refusal>(())
    /// ```
    pub fn containers(&self) -> impl Iterator<Item = (u8, Container)> + '_ {
        (0..=u8::MAX).filter_map(|number| Some((number, self.container(number)?)))
    }

    /// The numbers of the session: the rows of the containers, then those of the users, as [`layout::session`] has
    /// them.
    #[must_use]
    pub fn words(&self) -> &[u64; SESSION_LENGTH] {
        &self.words
    }

    /// A session from its numbers, as [`words`](Session::words) of this edition gave them. Any numbers will do: an operation that
    /// names a row that is not well formed is refused with [`Refusal::Row`].
    ///
    /// ```
    /// use yaslaurel::{layout, Operation, Refusal, Session, SESSION_LENGTH};
    /// let mut words = vec![0; SESSION_LENGTH];
    /// words[layout::session::KIND] = 7;
    /// let mut session = Session::from_words(words.try_into().unwrap());
    /// let record = Operation::Read { process: 0, object: 1 }.record();
    /// assert_eq!(session.step(&record), Err(Refusal::Row));
    /// ```
    #[must_use]
    pub fn from_words(words: Box<[u64; SESSION_LENGTH]>) -> Session {
        Session { words }
    }
}

impl fmt::Debug for Session {
    fn fmt(&self, f: &mut fmt::Formatter<'_>) -> fmt::Result {
        let (containers, users) = self.words.split_at(layout::session::USERS_AT);
        let taken = containers.chunks(layout::session::CONTAINER_ROW).filter(|row| row[layout::session::KIND] != 0);
        let declared = users.chunks(layout::session::USER_ROW).filter(|row| row[layout::session::DECLARED] != 0);
        let (taken, declared) = (taken.count(), declared.count());
        write!(f, "Session {{ {taken} containers, {declared} users }}")
    }
}

/// The verdict on an access matrix: one row for each subject, bit k for object k.
///
/// ```
/// use yaslaurel::{matrix_verdict, MatrixVerdict, Refusal};
/// let verdict = matrix_verdict(&[5, 3, 2], &[1, 2, 10], 4);
/// assert_eq!(verdict, Ok(MatrixVerdict::Inconsistent { flows: 3, source: 0, target: 3 }));
/// assert_eq!(matrix_verdict(&[1], &[1], 1), Ok(MatrixVerdict::Consistent));
/// assert_eq!(matrix_verdict(&[], &[], 4), Err(Refusal::Matrix));
/// ```
///
/// # Errors
///
/// [`Refusal::Matrix`].
pub fn matrix_verdict(reads: &[u32], writes: &[u32], objects: u32) -> Result<MatrixVerdict, Refusal> {
    let (mut flows, mut source, mut target) = (0, 0, 0);
    // SAFETY: the slices are valid and aligned for their lengths, and the three numbers are ours.
    let number = unsafe {
        ffi::yaslaurel_matrix_verdict(
            reads.as_ptr(),
            reads.len(),
            writes.as_ptr(),
            writes.len(),
            objects,
            &mut flows,
            &mut source,
            &mut target,
        )
    };
    match number {
        0 => Ok(MatrixVerdict::Consistent),
        1 => Ok(MatrixVerdict::Inconsistent { flows, source, target }),
        number => Err(refusal(number)),
    }
}

/// Whether an access matrix is silent: no session from its derived policy, of reads, writes and appends that the matrix
/// allows (a write right allows both of the latter), raises an alert. A silent matrix is consistent. A consistent one need
/// not be silent, since two subjects can mix in one object what each of them may write there:
///
/// ```
/// use yaslaurel::{matrix_policy, matrix_silent, matrix_verdict, MatrixVerdict, Operation, Refusal, Session, Verdict};
/// let (reads, writes) = ([0b001, 0b100], [0b010, 0b010]);
/// assert_eq!(matrix_verdict(&reads, &writes, 3), Ok(MatrixVerdict::Consistent));
/// assert_eq!(matrix_silent(&reads, &writes, 3), Ok(false));
/// // The accesses that sound: containers 3 and 4 are the subjects.
/// let mut session = Session::start(&matrix_policy(&reads, &writes, 3)?)?;
/// for process in [3, 4] {
///     let object = if process == 3 { 0 } else { 2 };
///     assert_eq!(session.perform(Operation::Read { process, object })?.verdict, Verdict::Quiet);
/// }
/// assert_eq!(session.perform(Operation::Append { process: 3, object: 1 })?.verdict, Verdict::Quiet);
/// let answer = session.perform(Operation::Append { process: 4, object: 1 })?;
/// assert_eq!((answer.verdict, answer.tag), (Verdict::Alert, 0b111));
/// // One subject alone cannot.
/// assert_eq!(matrix_silent(&reads[..1], &writes[..1], 3), Ok(true));
/// assert_eq!(matrix_silent(&[], &[], 3), Err(Refusal::Matrix));
/// # Ok::<(), Refusal>(())
/// ```
///
/// # Errors
///
/// [`Refusal::Matrix`].
pub fn matrix_silent(reads: &[u32], writes: &[u32], objects: u32) -> Result<bool, Refusal> {
    // SAFETY: the slices are valid and aligned for their lengths.
    let number =
        unsafe { ffi::yaslaurel_matrix_silent(reads.as_ptr(), reads.len(), writes.as_ptr(), writes.len(), objects) };
    match number {
        0 => Ok(false),
        1 => Ok(true),
        number => Err(refusal(number)),
    }
}

/// The policy image that an access matrix stands for.
///
/// ```
/// let image = yaslaurel::matrix_policy(&[5, 3, 2], &[1, 2, 10], 4)?;
/// assert_eq!(image.len(), 118);
/// assert_eq!(yaslaurel::normalise(&image)?, image);
/// # Ok::<(), yaslaurel::Refusal>(())
/// ```
///
/// # Errors
///
/// [`Refusal::Matrix`].
pub fn matrix_policy(reads: &[u32], writes: &[u32], objects: u32) -> Result<Vec<u8>, Refusal> {
    let mut out = vec![0; OUTPUT_LENGTH];
    let length = matrix_policy_into(reads, writes, objects, &mut out)?;
    out.truncate(length);
    Ok(out)
}

/// Writes the policy image that an access matrix stands for to the front of an output of [`OUTPUT_LENGTH`] bytes or
/// more, and gives its length. The bytes behind it stay; a refusal changes none.
///
/// # Errors
///
/// [`Refusal::LentLength`] for a short output, else [`Refusal::Matrix`].
pub fn matrix_policy_into(reads: &[u32], writes: &[u32], objects: u32, out: &mut [u8]) -> Result<usize, Refusal> {
    // SAFETY: the slices are valid and aligned for their lengths, and Rust keeps `out` apart from the rows.
    length(unsafe {
        ffi::yaslaurel_matrix_policy(
            reads.as_ptr(),
            reads.len(),
            writes.as_ptr(),
            writes.len(),
            objects,
            out.as_mut_ptr(),
            out.len(),
        )
    })
}

/// The policy image that a text of profiles stands for. Each path becomes a file, in order of first appearance, with its
/// place as number and atom; behind the files come one process, and one unrestricted user.
///
/// ```
/// use yaslaurel::{profiles_policy, Operation, Refusal, Session, Verdict};
/// let text = b"profile /bin/mailer {\n/etc/hosts r,\n/var/mail ra,\n}\nprofile /bin/admin {\n/etc/keys r,\n}\n";
/// let image = profiles_policy(text)?;
/// assert_eq!(yaslaurel::normalise(&image)?, image);
///
/// // Files 0 /bin/mailer, 1 /etc/hosts, 2 /var/mail, 3 /bin/admin, 4 /etc/keys; process 5.
/// let mut session = Session::start(&image)?;
/// let exec = session.perform(Operation::Exec { process: 5, file: 0, user: 0 })?;
/// let read = session.perform(Operation::Read { process: 5, object: 1 })?;
/// assert_eq!((exec.verdict, read.verdict), (Verdict::Quiet, Verdict::Quiet));
/// let alert = session.perform(Operation::Read { process: 5, object: 4 })?;
/// assert_eq!((alert.verdict, alert.atoms().collect::<Vec<_>>()), (Verdict::Alert, vec![1, 4, 32]));
///
/// assert_eq!(profiles_policy(b"")?.len(), 26);
/// assert_eq!(profiles_policy(b"profile /a {\n/b x,\n}\n"), Err(Refusal::ProfileText));
/// # Ok::<(), Refusal>(())
/// ```
///
/// # Errors
///
/// [`Refusal::ProfileText`], or else [`Refusal::ProfileLimit`].
pub fn profiles_policy(text: &[u8]) -> Result<Vec<u8>, Refusal> {
    let mut out = vec![0; OUTPUT_LENGTH];
    let length = profiles_policy_into(text, &mut out)?;
    out.truncate(length);
    Ok(out)
}

/// Writes the policy image that a text of profiles stands for to the front of an output of [`OUTPUT_LENGTH`] bytes or
/// more, and gives its length. The bytes behind it stay; a refusal changes none.
///
/// ```
/// use yaslaurel::{profiles_policy_into, Refusal, OUTPUT_LENGTH};
/// assert_eq!(profiles_policy_into(b"", &mut vec![0; OUTPUT_LENGTH]), Ok(26));
/// assert_eq!(profiles_policy_into(b"x", &mut vec![0; OUTPUT_LENGTH - 1]), Err(Refusal::LentLength));
/// ```
///
/// # Errors
///
/// [`Refusal::LentLength`] for a short output, else as [`profiles_policy`].
#[inline]
pub fn profiles_policy_into(text: &[u8], out: &mut [u8]) -> Result<usize, Refusal> {
    // SAFETY: both slices are valid for their lengths, and Rust keeps `out` apart from `text`.
    length(unsafe { ffi::yaslaurel_profiles_policy(text.as_ptr(), text.len(), out.as_mut_ptr(), out.len()) })
}

#[cfg(test)]
mod tests {
    #[test]
    #[should_panic(expected = "unknown answer 258")]
    fn an_answer_that_is_no_refusal_is_told() {
        let _ = super::refusal(258);
    }
}
