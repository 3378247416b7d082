use std::cmp::Ordering;
use std::error::Error;
use std::fmt;

/// Why a call was refused. A refused call changes nothing that it was lent.
///
/// The numbers are the paper's, but for 24 and 25, which are this product's own. Where several conditions fail, the least refusal
/// counts: they are ordered 9, 1 to 8, 10 to 14, 18, 15 to 17, 20 to 25, as published, and not by number.
///
/// ```
/// use yaslaurel::Refusal;
/// assert_eq!(yaslaurel::check(&[]), Err(Refusal::ImageLength));
/// assert_eq!(Refusal::ImageLength.number(), 1);
/// assert_eq!(Refusal::ImageLength.to_string(), "refused 1: the image is too short or too long");
/// assert!(Refusal::LentLength < Refusal::ImageLength && Refusal::OtherUser < Refusal::Meet);
/// ```
#[derive(Clone, Copy, Debug, PartialEq, Eq, Hash)]
#[non_exhaustive]
#[repr(u32)]
pub enum Refusal {
    /// The image is under [`HEADER`](crate::layout::image::HEADER) or over [`LIMIT`](crate::layout::image::LIMIT) bytes.
    ImageLength = 1,
    /// The image's leading number, or the offsets and lengths of its four sections.
    Sections = 2,
    /// A section's length is no multiple of its record's size, or it has too many records.
    RecordCount = 3,
    /// A rule record of the image: over 8 mixtures, a first that falls, mixtures that are not there, or an owner who is no user of
    /// the image.
    RuleRecord = 4,
    /// A container record of the image: kind, atom or a rule number.
    ContainerRecord = 5,
    /// A user's rule number in the image.
    UserRule = 6,
    /// The operation record: its length, unknown code, second byte not 0, user set wrongly, container over 255, user over
    /// 15, or an end of another object than the process itself.
    OperationRecord = 7,
    /// The matrix: row counts differ, 0 or over 8 subjects, 0 or over 32 objects, or a bit beyond the objects.
    Matrix = 8,
    /// The session is not [`SESSION_LENGTH`](crate::SESSION_LENGTH) numbers, or the output is under
    /// [`OUTPUT_LENGTH`](crate::OUTPUT_LENGTH) bytes, or for positions under [`TRIM_LIMIT`](crate::TRIM_LIMIT), or an explanation is
    /// lent under [`links_length`](crate::links_length) links, a step for each record or [`WHY_LENGTH`](crate::WHY_LENGTH) numbers.
    LentLength = 9,
    /// A session row that the record names is not well formed.
    Row = 10,
    /// p is no process.
    NoProcess = 11,
    /// o is of the wrong kind for a read, write, append, exec or delete.
    WrongKind = 12,
    /// o is not free for a fork, new file or new volatile. It is free again once its holder has ended or is deleted.
    NotFree = 13,
    /// The user is not declared by the policy.
    Undeclared = 14,
    /// A meet of two rules has over 8 mixtures.
    Meet = 15,
    /// The text of profiles is over [`TEXT_LIMIT`](crate::layout::profiles::TEXT_LIMIT) bytes, is not of the grammar, or
    /// profiles a path twice.
    ProfileText = 16,
    /// The text has over [`PATHS`](crate::layout::profiles::PATHS) paths, or a rule has over 8 mixtures in normal form.
    ProfileLimit = 17,
    /// A process makes a new file for another user than the one on whose behalf it runs.
    OtherUser = 18,
    /// Two images to compose: their containers differ in number, kind or atom, their users in number, or the consent is not 32
    /// bytes of 0 and 1.
    CompositionInput = 20,
    /// Two images to compose: a place has over 8 mixtures in normal form, or over 256 rules are needed.
    CompositionLimit = 21,
    /// The trace to trim is empty, has over [`TRIM_LIMIT`](crate::TRIM_LIMIT) records, has a refused or blocked record, or does not
    /// end in an alert.
    TrimTrace = 22,
    /// A game: source and target are the same or one is no object, over 3 subjects or objects, 0 or over 4 rounds, over 2
    /// withdrawals.
    GameBounds = 23,
    /// An explanation: the container is over 255, or the atom over 63.
    ExplainBounds = 24,
    /// An explanation: the trace has no record, or its last is answered neither alert nor blocked.
    ExplainTrace = 25,
}

/// All refusals in the published order.
const PUBLISHED: [Refusal; 24] = [
    Refusal::LentLength,
    Refusal::ImageLength,
    Refusal::Sections,
    Refusal::RecordCount,
    Refusal::RuleRecord,
    Refusal::ContainerRecord,
    Refusal::UserRule,
    Refusal::OperationRecord,
    Refusal::Matrix,
    Refusal::Row,
    Refusal::NoProcess,
    Refusal::WrongKind,
    Refusal::NotFree,
    Refusal::Undeclared,
    Refusal::OtherUser,
    Refusal::Meet,
    Refusal::ProfileText,
    Refusal::ProfileLimit,
    Refusal::CompositionInput,
    Refusal::CompositionLimit,
    Refusal::TrimTrace,
    Refusal::GameBounds,
    Refusal::ExplainBounds,
    Refusal::ExplainTrace,
];

impl Refusal {
    /// All refusals of this edition, rising in the published order.
    ///
    /// ```
    /// use yaslaurel::Refusal;
    /// let numbers: Vec<u32> = Refusal::all().map(Refusal::number).collect();
    /// assert_eq!(numbers, [9, 1, 2, 3, 4, 5, 6, 7, 8, 10, 11, 12, 13, 14, 18, 15, 16, 17, 20, 21, 22, 23, 24, 25]);
    /// assert!(Refusal::all().zip(Refusal::all().skip(1)).all(|(one, next)| one < next));
    /// ```
    pub fn all() -> impl Iterator<Item = Refusal> {
        PUBLISHED.into_iter()
    }

    /// The refusal of a number.
    ///
    /// ```
    /// use yaslaurel::Refusal;
    /// for refusal in Refusal::all() {
    ///     assert_eq!(Refusal::from_number(refusal.number()), Some(refusal));
    /// }
    /// assert_eq!(Refusal::from_number(0), None);
    /// assert_eq!(Refusal::from_number(19), None);
    /// ```
    #[inline]
    #[must_use]
    pub fn from_number(number: u32) -> Option<Refusal> {
        PUBLISHED.into_iter().find(|refusal| refusal.number() == number)
    }

    /// Its place in the published order.
    fn place(self) -> Option<usize> {
        PUBLISHED.iter().position(|refusal| *refusal == self)
    }

    /// Its number.
    #[inline]
    #[must_use]
    pub fn number(self) -> u32 {
        self as u32
    }

    /// What the number means, in a few words.
    #[must_use]
    pub fn meaning(self) -> &'static str {
        match self {
            Refusal::ImageLength => "the image is too short or too long",
            Refusal::Sections => "the image's leading number or the offsets and lengths of its sections are wrong",
            Refusal::RecordCount => "a section's length is no multiple of its record, or it has too many records",
            Refusal::RuleRecord => "a rule record of the image is wrong",
            Refusal::ContainerRecord => "a container record of the image is wrong",
            Refusal::UserRule => "a user's rule number in the image is wrong",
            Refusal::OperationRecord => "the operation record is malformed",
            Refusal::Matrix => "a matrix is malformed",
            Refusal::LentLength => "the session has a wrong length or the output is too short",
            Refusal::Row => "a session row that the record names is not well formed",
            Refusal::NoProcess => "p is no process",
            Refusal::WrongKind => "o is of the wrong kind",
            Refusal::NotFree => "o is not free",
            Refusal::Undeclared => "the user is not declared",
            Refusal::Meet => "a meet of two rules has over 8 mixtures",
            Refusal::ProfileText => "the text of profiles is too long, breaks the grammar or profiles a path twice",
            Refusal::ProfileLimit => "the profiles have over 32 paths, or a rule of over 8 mixtures",
            Refusal::OtherUser => "a new file for another user than the process's own",
            Refusal::CompositionInput => {
                "the two images have other containers or users, or the consent is not 32 bytes of 0 and 1"
            }
            Refusal::CompositionLimit => {
                "a place of the composed policy has over 8 mixtures, or it needs over 256 rules"
            }
            Refusal::TrimTrace => "the trace has no record, too many, one not accepted, or no alert at its end",
            Refusal::GameBounds => "the game's objects, or one of its counts, are out of bounds",
            Refusal::ExplainBounds => "there is no such container or atom",
            Refusal::ExplainTrace => "the trace has no record, or its last is answered neither alert nor blocked",
        }
    }
}

/// The published order.
impl Ord for Refusal {
    fn cmp(&self, other: &Refusal) -> Ordering {
        self.place().cmp(&other.place())
    }
}

impl PartialOrd for Refusal {
    fn partial_cmp(&self, other: &Refusal) -> Option<Ordering> {
        Some(self.cmp(other))
    }
}

impl fmt::Display for Refusal {
    fn fmt(&self, f: &mut fmt::Formatter<'_>) -> fmt::Result {
        write!(f, "refused {}: {}", self.number(), self.meaning())
    }
}

impl Error for Refusal {}
