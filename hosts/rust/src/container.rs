use std::fmt;

use crate::layout::image::USERS;
use crate::layout::session::{BEHALF, KIND, NOBODY, TAG};

/// The kind of a container.
#[derive(Clone, Copy, Debug, PartialEq, Eq, Hash)]
#[non_exhaustive]
#[repr(u8)]
pub enum Kind {
    /// A file: what it holds stays.
    File = 1,
    /// A pipe, a socket or shared memory.
    Volatile = 2,
    /// A process.
    Process = 3,
    /// A guarded file: a write or append that would raise an alert there is [blocked](crate::Verdict::Blocked). Else as a file.
    Guarded = 4,
}

impl Kind {
    /// The kind of a number from 1 to 4.
    #[must_use]
    pub fn from_number(number: u8) -> Option<Kind> {
        [Kind::File, Kind::Volatile, Kind::Process, Kind::Guarded].into_iter().find(|kind| kind.number() == number)
    }

    /// Whether it is a file, guarded or not.
    #[must_use]
    pub fn is_file(self) -> bool {
        matches!(self, Kind::File | Kind::Guarded)
    }

    /// The number that stands for it in an image and in a session.
    #[must_use]
    pub fn number(self) -> u8 {
        self as u8
    }
}

/// `file`, `volatile`, `process` or `guarded file`.
impl fmt::Display for Kind {
    fn fmt(&self, f: &mut fmt::Formatter<'_>) -> fmt::Result {
        f.write_str(match self {
            Kind::File => "file",
            Kind::Volatile => "volatile",
            Kind::Process => "process",
            Kind::Guarded => "guarded file",
        })
    }
}

/// A container as a session has it.
#[derive(Clone, Copy, Debug, PartialEq, Eq, Hash)]
#[non_exhaustive]
pub struct Container {
    /// What it is.
    pub kind: Kind,
    /// The set of atoms that it holds, as in an [`Answer`](crate::Answer).
    pub tag: u64,
    /// The user on whose behalf a process runs: that of its last exec, or of its parent's before the fork. Nothing for a
    /// process without any exec, for a file and for a volatile. While there is one, the process makes new files for this
    /// user alone: [`Refusal::OtherUser`](crate::Refusal::OtherUser).
    pub user: Option<u8>,
}

impl Container {
    /// What a row says; nothing for a free one, or for a kind or a user that no session has.
    pub(crate) fn read(row: &[u64]) -> Option<Container> {
        let kind = Kind::from_number(row[KIND].try_into().ok()?)?;
        let user = match row[BEHALF] {
            NOBODY => None,
            user if kind == Kind::Process && user < USERS.most as u64 => Some(user as u8),
            _ => return None,
        };
        Some(Container { kind, tag: row[TAG], user })
    }
}
