//! A real trace trimmed to one of its alerts, and its records in words.

use std::error::Error;
use std::fmt;

use yaslaurel::layout::record;
use yaslaurel::{trim, Operation, Policy, Refusal, Session, Verdict, TRIM_LIMIT};

use crate::names::FolderNames;
use crate::{quoted, Holder, NamesByStep};

/// The records that are left of a trace which was trimmed to one of its alerts.
#[derive(Clone, Debug, PartialEq, Eq)]
#[non_exhaustive]
pub struct Cut {
    /// The number of each kept record among all of the trace, from 1 as in the watch program's listing, and the record in words. The
    /// last is the alert.
    pub steps: Vec<(usize, String)>,
    /// The kept records one behind the other.
    pub trace: Vec<u8>,
    /// How many records up to the alert were refused, and left out at once.
    pub refused: usize,
    /// How many were blocked, and left out at once.
    pub blocked: usize,
}

/// Why a trace cannot be trimmed.
#[derive(Clone, Debug, PartialEq, Eq)]
#[non_exhaustive]
pub enum TrimError {
    /// The policy is refused.
    Policy(Refusal),
    /// There is no record.
    Empty,
    /// None of so many records raises an alert.
    NoAlert(usize),
    /// The trace has so many records, and not the one of this number.
    NoStep(usize, usize),
    /// The record of this number is answered otherwise.
    NotAnAlert(usize, &'static str),
    /// The record of this number is refused.
    RefusedStep(usize, Refusal),
    /// So many records are accepted up to the alert of this number.
    TooLong(usize, usize),
}

impl fmt::Display for TrimError {
    fn fmt(&self, f: &mut fmt::Formatter<'_>) -> fmt::Result {
        if let TrimError::Policy(refusal) = self {
            return refusal.fmt(f);
        }
        write!(f, "refused {}: ", Refusal::TrimTrace.number())?;
        match self {
            TrimError::Policy(_) => Ok(()),
            TrimError::Empty => write!(f, "there is no record"),
            TrimError::NoAlert(records) => write!(f, "none of the {records} records raises an alert"),
            TrimError::NoStep(records, step) => write!(f, "there are {records} records, and no step {step}"),
            TrimError::NotAnAlert(step, answer) => write!(f, "step {step} is {answer}, expected an alert"),
            TrimError::RefusedStep(step, refusal) => write!(f, "step {step} is {refusal}, expected an alert"),
            TrimError::TooLong(accepted, step) => {
                write!(
                    f,
                    "{accepted} records are accepted up to the alert at step {step}, expected at most {TRIM_LIMIT}"
                )
            }
        }
    }
}

impl Error for TrimError {}

/// An accepted operation in the words of a story, with the names of its step.
pub(crate) fn words(policy: &Policy, names: &NamesByStep, step: usize, operation: Operation) -> String {
    let (word, process, object, user) = match operation {
        Operation::Read { process, object } => ("read", process, object, None),
        Operation::Write { process, object } => ("write", process, object, None),
        Operation::Append { process, object } => ("append", process, object, None),
        Operation::Exec { process, file, user } => ("exec", process, file, Some(user)),
        Operation::Fork { process, child } => ("fork", process, child, None),
        Operation::NewFile { process, file, user } => ("new-file", process, file, Some(user)),
        Operation::NewVolatile { process, volatile } => ("new-volatile", process, volatile, None),
        Operation::End { process } => return format!("end {}", quoted(names.at(process, step))),
        Operation::Delete { process, object } => ("delete", process, object, None),
        other => return format!("{other:?}"),
    };
    let user = user.map_or_else(String::new, |user| format!(" as {}", quoted(&policy.user_name(user))));
    format!("{word} {} {}{user}", quoted(names.at(process, step)), quoted(names.at(object, step)))
}

/// The front of a trace up to an alert, without the records that are refused or blocked, which change nothing.
struct Front {
    /// Number and bytes of each accepted record, and what it says.
    accepted: Vec<(usize, Vec<u8>, String)>,
    refused: usize,
    blocked: usize,
}

/// Runs a trace up to the alert that is asked for, the first without a number.
fn front(
    policy: &Policy,
    image: &[u8],
    holders: &[Holder],
    trace: &[u8],
    at: Option<usize>,
) -> Result<Front, TrimError> {
    let mut session = Session::start(image).map_err(TrimError::Policy)?;
    let mut names = FolderNames::new(policy, holders);
    let mut found = Front { accepted: Vec::new(), refused: 0, blocked: 0 };
    let records = trace.chunks(record::LENGTH);
    let count = records.len();
    for (place, bytes) in records.enumerate() {
        let (step, asked) = (place + 1, at == Some(place + 1));
        let verdict = match session.step(bytes) {
            Ok(answer) => answer.verdict,
            Err(refusal) if asked => return Err(TrimError::RefusedStep(step, refusal)),
            Err(_) => {
                found.refused += 1;
                continue;
            }
        };
        match verdict {
            Verdict::Blocked if asked => return Err(TrimError::NotAnAlert(step, "blocked")),
            Verdict::Blocked => {
                found.blocked += 1;
                continue;
            }
            Verdict::Quiet if asked => return Err(TrimError::NotAnAlert(step, "quiet")),
            _ => {}
        }
        let operation = Operation::try_from(bytes).expect("an accepted record is well formed");
        names.accepted(step, operation);
        found.accepted.push((step, bytes.to_vec(), words(policy, names.names(), step, operation)));
        if verdict == Verdict::Alert && at.map_or(true, |at| at == step) {
            return Ok(found);
        }
    }
    Err(match at {
        _ if count == 0 => TrimError::Empty,
        None => TrimError::NoAlert(count),
        Some(step) => TrimError::NoStep(count, step),
    })
}

/// Trims a trace to the alert at a step, counted from 1, or to its first alert. What is refused or blocked up to there changes
/// nothing and is left out at once; of the others those are kept that [`yaslaurel::trim`] keeps. The holders of numbers, in the order in
/// which they come, give the names of containers that steps make.
///
/// ```
/// use policy_text::{trim_trace, Story};
/// let story = "source north\nsource south\nrule own = {south}\nfile north source north\nfile south source south permit own\n\
///     process job\nstep read job south\nstep fork job other\nstep read job north\nstep read other south\nstep append job south\n";
/// let story = Story::read(story.as_bytes())?;
/// let cut = trim_trace(story.policy(), &story.policy().image(), story.holders(), &story.trace(), None).expect("an alert");
/// assert_eq!(cut.steps, [(3, "read job north".into()), (5, "append job south".into())]);
/// # Ok::<(), policy_text::LineError>(())
/// ```
///
/// # Errors
///
/// The policy's refusal, or which of the reasons of [`Refusal::TrimTrace`] it is, with the step's number.
pub fn trim_trace(
    policy: &Policy,
    image: &[u8],
    holders: &[Holder],
    trace: &[u8],
    at: Option<usize>,
) -> Result<Cut, TrimError> {
    let Front { accepted, refused, blocked } = front(policy, image, holders, trace, at)?;
    let records: Vec<u8> = accepted.iter().flat_map(|(_, bytes, _)| bytes).copied().collect();
    let last = accepted.last().map_or(0, |(step, _, _)| *step);
    let kept = trim(image, &records).map_err(|refusal| match refusal {
        Refusal::TrimTrace => TrimError::TooLong(accepted.len(), last),
        refusal => TrimError::Policy(refusal),
    })?;
    let kept: Vec<&(usize, Vec<u8>, String)> = kept.iter().map(|&position| &accepted[position]).collect();
    Ok(Cut {
        steps: kept.iter().map(|(step, _, words)| (*step, words.clone())).collect(),
        trace: kept.iter().flat_map(|(_, bytes, _)| bytes).copied().collect(),
        refused,
        blocked,
    })
}
