//! The sizes of the formats and the places in them, for hosts that make images or look into a session. The formats
//! themselves are in `docs/FORMATS.md`.

/// Atoms.
pub mod atom {
    /// How many data atoms there are, and so how far the running atom of a data atom is behind it.
    pub const RUNNING: u32 = 32;
}

/// A policy image, in bytes.
pub mod image {
    /// The number that an image begins with.
    pub const LEADING: u16 = 5;

    /// Bytes of the leading number and of the offsets and lengths of the sections, and so of the smallest image.
    pub const HEADER: usize = 2 + 4 * SECTIONS.len();

    /// Bytes of the longest image.
    pub const LIMIT: usize = 20_480;

    /// Bytes of the longest normal image.
    pub const LONGEST_NORMAL: usize =
        HEADER + CONTAINERS.longest() + USERS.longest() + RULES.longest() + MIXTURES.longest();

    /// A section of the image.
    #[derive(Clone, Copy, Debug)]
    pub struct Section {
        place: usize,
        /// Bytes of a record.
        pub record: usize,
        /// How many records there are at most.
        pub most: usize,
    }

    impl Section {
        const fn longest(self) -> usize {
            self.record * self.most
        }

        /// Where the header has the offset of the section.
        #[must_use]
        pub const fn offset_at(self) -> usize {
            2 + 4 * self.place
        }

        /// Where the header has the length of the section.
        #[must_use]
        pub const fn length_at(self) -> usize {
            self.offset_at() + 2
        }
    }

    /// A record: kind, atom, permit rule, run rule.
    pub const CONTAINERS: Section = Section { place: 0, record: 6, most: 256 };
    /// A record: the number of a rule.
    pub const USERS: Section = Section { place: 1, record: 2, most: 16 };
    /// A record: first mixture, count, owner.
    pub const RULES: Section = Section { place: 2, record: 6, most: 256 };
    /// A record: a mixture.
    pub const MIXTURES: Section = Section { place: 3, record: 8, most: 2_048 };

    /// The sections in their order.
    pub const SECTIONS: [Section; 4] = [CONTAINERS, USERS, RULES, MIXTURES];

    /// Where a container's record has the kind.
    pub const KIND: usize = 0;
    /// Where a container's record has the atom.
    pub const ATOM: usize = 1;
    /// Where a container's record has the permit rule.
    pub const PERMIT: usize = 2;
    /// Where a container's record has the run rule.
    pub const RUN: usize = 4;

    /// Where a rule's record has its first mixture.
    pub const FIRST: usize = 0;
    /// Where a rule's record has the count of its mixtures.
    pub const COUNT: usize = 2;
    /// Where a rule's record has its owner.
    pub const OWNER: usize = 4;

    /// The owner of a rule that nobody owns.
    pub const NO_OWNER: u16 = 65535;

    /// The atom of a container that has none.
    pub const NO_ATOM: u8 = 255;

    /// The number of the unrestricted rule.
    pub const UNRESTRICTED: u16 = 65535;
}

/// A text of profiles.
pub mod profiles {
    /// Bytes of the longest text.
    pub const TEXT_LIMIT: usize = 16_384;

    /// Bytes of the longest path.
    pub const PATH_LIMIT: usize = 64;

    /// How many different paths there are at most.
    pub const PATHS: usize = 32;
}

/// An operation record, in bytes.
pub mod record {
    /// Bytes of a record.
    pub const LENGTH: usize = 8;

    /// Where the code is.
    pub const CODE: usize = 0;
    /// Where a 0 is.
    pub const ZERO: usize = 1;
    /// Where the number of the process is.
    pub const PROCESS: usize = 2;
    /// Where the number of the object is.
    pub const OBJECT: usize = 4;
    /// Where the number of the user is.
    pub const USER: usize = 6;

    /// The user of an operation that names none.
    pub const NO_USER: u16 = 65535;
}

/// An event, in numbers of 64 bits.
pub mod event {
    /// Where the place of its record is.
    pub const PLACE: usize = 0;
    /// Where its answer is.
    pub const ANSWER: usize = 1;
    /// Where the receiver is; 0 for a refusal, as the tag and the position.
    pub const RECEIVER: usize = 2;
    /// Where the tag is.
    pub const TAG: usize = 3;
    /// Where the position is.
    pub const POSITION: usize = 4;
    /// Numbers of an event.
    pub const LENGTH: usize = 5;
}

/// The figures of records, in numbers of 64 bits.
pub mod figures {
    use super::image::CONTAINERS;

    /// Where the number of records is.
    pub const RECORDS: usize = 0;
    /// Where that of the accepted ones is, alerts among them.
    pub const ACCEPTED: usize = 1;
    /// Where that of the alerts is.
    pub const ALERTS: usize = 2;
    /// Where that of the refused ones is.
    pub const REFUSED: usize = 3;
    /// Where that of the blocked ones is.
    pub const BLOCKED: usize = 4;
    /// Where the alerts of the containers begin.
    pub const CONTAINERS_AT: usize = 5;
    /// Numbers of figures.
    pub const LENGTH: usize = CONTAINERS_AT + CONTAINERS.most;
}

/// The reason of an alert, in numbers of 64 bits, as [`why_in`](crate::why_in) writes it.
pub mod why {
    use super::session::RULE_MIXTURES;

    /// Where the number of the receiver is.
    pub const RECEIVER: usize = 0;
    /// Where its tag is, as answered.
    pub const TAG: usize = 1;
    /// Where the origin of the rule is: 0 the container's own, 1 of the user for whom it was made, 2 of the user for whom it runs, 3 a run
    /// rule.
    pub const ORIGIN: usize = 2;
    /// Where the record of the new file or the exec is; 0 for the container's own.
    pub const RECORD: usize = 3;
    /// Where the container is, the user, or the file where the run rule's chain begins.
    pub const FROM: usize = 4;
    /// Where the number of the rule is.
    pub const RULE: usize = 5;
    /// Where its owner is.
    pub const OWNER: usize = 6;
    /// Where it says at which place of the steps the chain of the run rule begins.
    pub const FIRST: usize = 7;
    /// Where the count of the rule's mixtures is.
    pub const MIXTURES: usize = 8;
    /// Where the atoms begin that the mixtures lack.
    pub const LACKED: usize = 9;

    /// Numbers of a reason.
    pub const LENGTH: usize = LACKED + RULE_MIXTURES;
}

/// A session, in numbers of 64 bits.
pub mod session {
    use super::image::{CONTAINERS, USERS};
    use super::record::NO_USER;
    use std::ops::Range;

    /// Mixtures of a rule at most.
    pub const RULE_MIXTURES: usize = 8;

    /// Numbers of a rule: its count, then a place for each mixture.
    pub const RULE: usize = 1 + RULE_MIXTURES;

    /// Numbers of a container's row.
    pub const CONTAINER_ROW: usize = 21;

    /// Where a container's row has the kind.
    pub const KIND: usize = 0;
    /// Where a container's row has the tag.
    pub const TAG: usize = 1;
    /// Where the permit rule begins in a container's row.
    pub const PERMIT: usize = 2;
    /// Where the run rule begins in a container's row.
    pub const RUN: usize = PERMIT + RULE;
    /// Where a container's row has the user on whose behalf a process runs.
    pub const BEHALF: usize = RUN + RULE;

    /// What stands there for nobody: in the row of a process that has executed nothing and is no fork of one that has, of
    /// a file and of a volatile.
    pub const NOBODY: u64 = NO_USER as u64;

    /// Numbers of a user's row.
    pub const USER_ROW: usize = 10;

    /// Where a user's row has a 1 if the user is declared.
    pub const DECLARED: usize = 0;
    /// Where the rule begins in a user's row.
    pub const USER_RULE: usize = 1;

    /// Where the users' rows begin, behind those of the containers.
    pub const USERS_AT: usize = CONTAINERS.most * CONTAINER_ROW;

    /// Numbers of a session.
    pub const LENGTH: usize = USERS_AT + USERS.most * USER_ROW;

    /// The row of a container.
    #[inline]
    #[must_use]
    pub const fn container(number: usize) -> Range<usize> {
        number * CONTAINER_ROW..(number + 1) * CONTAINER_ROW
    }

    /// The row of a user.
    #[inline]
    #[must_use]
    pub const fn user(number: usize) -> Range<usize> {
        USERS_AT + number * USER_ROW..USERS_AT + (number + 1) * USER_ROW
    }

    /// The numbers of the rule that begins at a place.
    #[inline]
    #[must_use]
    pub const fn rule(place: usize) -> Range<usize> {
        place..place + RULE
    }
}
