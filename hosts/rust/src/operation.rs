use crate::layout::{image, record};
use crate::Refusal;

/// One operation that a host reports, with the numbers of its containers and, where there is one, of its user.
///
/// ```
/// use yaslaurel::Operation;
/// let record = Operation::Exec { process: 3, file: 1, user: 0 }.record();
/// assert_eq!(record, [4, 0, 3, 0, 1, 0, 0, 0]);
/// let record = Operation::Read { process: 3, object: 2 }.record();
/// assert_eq!(record, [1, 0, 3, 0, 2, 0, 255, 255]);
/// let record = Operation::End { process: 3 }.record();
/// assert_eq!(record, [8, 0, 3, 0, 3, 0, 255, 255]);
/// ```
///
/// A number is free again when its holder has left, and the next holder takes over nothing:
///
/// ```
/// use yaslaurel::{matrix_policy, Operation, Refusal, Session, Verdict};
/// // Files 0 and 1, processes 2 and 3. File 0 may hold itself alone, file 1 both.
/// let mut session = Session::start(&matrix_policy(&[0b01, 0b11], &[0b01, 0b10], 2)?)?;
/// let read = session.perform(Operation::Read { process: 3, object: 1 })?;
/// assert_eq!((read.verdict, read.tag), (Verdict::Quiet, 0b10));
/// let alert = session.perform(Operation::Append { process: 3, object: 0 })?;
/// assert_eq!((alert.verdict, alert.receiver, alert.tag), (Verdict::Alert, 0, 0b11));
///
/// let gone = session.perform(Operation::Delete { process: 2, object: 0 })?;
/// assert_eq!((gone.verdict, gone.receiver, gone.tag), (Verdict::Quiet, 0, 0));
/// let read = session.perform(Operation::Read { process: 2, object: 0 });
/// assert_eq!(read, Err(Refusal::WrongKind), "nobody has the number 0");
/// let made = session.perform(Operation::NewVolatile { process: 2, volatile: 0 })?;
/// assert_eq!((made.verdict, made.tag), (Verdict::Quiet, 0), "it holds nothing of the file");
/// let quiet = session.perform(Operation::Append { process: 3, object: 0 })?;
/// assert_eq!((quiet.verdict, quiet.tag), (Verdict::Quiet, 0b10), "the rule of the file is gone too");
///
/// let ended = session.perform(Operation::End { process: 3 })?;
/// assert_eq!((ended.verdict, ended.receiver, ended.tag), (Verdict::Quiet, 3, 0));
/// assert_eq!(session.perform(Operation::End { process: 3 }), Err(Refusal::NoProcess));
/// let child = session.perform(Operation::Fork { process: 2, child: 3 })?;
/// assert_eq!((child.receiver, child.tag), (3, 0));
/// # Ok::<(), Refusal>(())
/// ```
#[derive(Clone, Copy, Debug, PartialEq, Eq, Hash)]
#[non_exhaustive]
pub enum Operation {
    /// Code 1: the process reads a file or volatile.
    Read {
        /// Who reads, and receives.
        process: u8,
        /// What is read.
        object: u8,
    },
    /// Code 2: the process writes a file or volatile from its beginning.
    Write {
        /// Who writes.
        process: u8,
        /// What is written, and receives.
        object: u8,
    },
    /// Code 3: the process appends to a file or volatile.
    Append {
        /// Who appends.
        process: u8,
        /// What is appended to, and receives.
        object: u8,
    },
    /// Code 4: the process starts the program in a file for a user. It keeps the data that it holds, as what it passes to
    /// the program; what it ran before is gone.
    Exec {
        /// Who starts the program, and receives.
        process: u8,
        /// The program.
        file: u8,
        /// On whose behalf the process runs from now on, 0 to 15.
        user: u8,
    },
    /// Code 5: the process forks; the child takes a free number.
    Fork {
        /// The parent.
        process: u8,
        /// The child, which receives.
        child: u8,
    },
    /// Code 6: the process makes a file for a user, at a free number.
    NewFile {
        /// Who makes it.
        process: u8,
        /// The new file.
        file: u8,
        /// The user whose rule the file has, 0 to 15.
        user: u8,
    },
    /// Code 7: the process makes a volatile, at a free number.
    NewVolatile {
        /// Who makes it.
        process: u8,
        /// The new volatile.
        volatile: u8,
    },
    /// Code 8: the process ends, and its number is free. Its record names it twice.
    End {
        /// Who ends.
        process: u8,
    },
    /// Code 9: the process deletes a file or volatile, whose number is free.
    Delete {
        /// Who deletes.
        process: u8,
        /// What is deleted.
        object: u8,
    },
}

impl Operation {
    /// The record that [`Session::step`](crate::Session::step) takes.
    #[inline]
    pub fn record(self) -> [u8; record::LENGTH] {
        let (code, process, object, user) = match self {
            Operation::Read { process, object } => (1, process, object, None),
            Operation::Write { process, object } => (2, process, object, None),
            Operation::Append { process, object } => (3, process, object, None),
            Operation::Exec { process, file, user } => (4, process, file, Some(user)),
            Operation::Fork { process, child } => (5, process, child, None),
            Operation::NewFile { process, file, user } => (6, process, file, Some(user)),
            Operation::NewVolatile { process, volatile } => (7, process, volatile, None),
            Operation::End { process } => (8, process, process, None),
            Operation::Delete { process, object } => (9, process, object, None),
        };
        let [low, high] = user.map_or(record::NO_USER, u16::from).to_le_bytes();
        [code, 0, process, 0, object, 0, low, high]
    }

    /// The number of its process.
    #[must_use]
    pub fn process(self) -> u8 {
        match self {
            Operation::Read { process, .. }
            | Operation::Write { process, .. }
            | Operation::Append { process, .. }
            | Operation::Exec { process, .. }
            | Operation::Fork { process, .. }
            | Operation::NewFile { process, .. }
            | Operation::NewVolatile { process, .. }
            | Operation::End { process }
            | Operation::Delete { process, .. } => process,
        }
    }

    /// What its process does, in words for a message: `reads`, `appends to` and so on. The name of its object stands behind
    /// it, but for an end.
    #[must_use]
    pub fn verb(self) -> &'static str {
        match self {
            Operation::Read { .. } => "reads",
            Operation::Write { .. } => "writes",
            Operation::Append { .. } => "appends to",
            Operation::Exec { .. } => "executes",
            Operation::Fork { .. } => "forks",
            Operation::NewFile { .. } => "makes the file",
            Operation::NewVolatile { .. } => "makes the volatile",
            Operation::End { .. } => "ends",
            Operation::Delete { .. } => "deletes",
        }
    }
}

/// The operation of a record, from the bytes that [`Session::step`](crate::Session::step) takes: a record is malformed here
/// exactly when a session refuses it with [`Refusal::OperationRecord`].
///
/// ```
/// use yaslaurel::{Operation, Refusal};
/// let exec = Operation::Exec { process: 3, file: 1, user: 0 };
/// assert_eq!(Operation::try_from(&exec.record()[..]), Ok(exec));
/// assert_eq!(Operation::try_from(&exec.record()[1..]), Err(Refusal::OperationRecord));
/// ```
impl TryFrom<&[u8]> for Operation {
    type Error = Refusal;

    fn try_from(bytes: &[u8]) -> Result<Operation, Refusal> {
        operation(bytes).ok_or(Refusal::OperationRecord)
    }
}

fn operation(bytes: &[u8]) -> Option<Operation> {
    let bytes: &[u8; record::LENGTH] = bytes.try_into().ok()?;
    let number = |place: usize| u16::from_le_bytes([bytes[place], bytes[place + 1]]);
    let container = |place: usize| u8::try_from(number(place)).ok();
    let (process, object) = (container(record::PROCESS)?, container(record::OBJECT)?);
    let user = match number(record::USER) {
        record::NO_USER => None,
        user if usize::from(user) < image::USERS.most => Some(user as u8),
        _ => return None,
    };
    if bytes[record::ZERO] != 0 {
        return None;
    }
    Some(match (bytes[record::CODE], user) {
        (1, None) => Operation::Read { process, object },
        (2, None) => Operation::Write { process, object },
        (3, None) => Operation::Append { process, object },
        (4, Some(user)) => Operation::Exec { process, file: object, user },
        (5, None) => Operation::Fork { process, child: object },
        (6, Some(user)) => Operation::NewFile { process, file: object, user },
        (7, None) => Operation::NewVolatile { process, volatile: object },
        (8, None) if process == object => Operation::End { process },
        (9, None) => Operation::Delete { process, object },
        _ => return None,
    })
}
