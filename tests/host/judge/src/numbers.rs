//! The numbers of image, record and session, each beside the words of the paper that give it. No other file of the judge
//! has one of these sizes, limits and places.

use std::ops::Range;

/// "There are 32 data atoms, 0 to 31." "The running twin of atom d is d + 32".
pub const DATA_ATOMS: u8 = 32;

/// "A rule is 0 to 8 mixtures."
pub const RULE_MIXTURES: usize = 8;

/// "At most 20,480 bytes."
pub const LONGEST_IMAGE: usize = 20_480;

/// "First a 16-bit" number, "then four pairs of 16-bit offset and length, sorted by offset, so 18 bytes." "Every image now leads
/// with a 16-bit 5, and 2 refuses the old 4." (change request No. 10)
pub const LEADING: u16 = 5;
pub const HEADER: usize = 18;

/// A section: where the header has its offset and its length, the bytes of a record, and how many there are at most.
#[derive(Clone, Copy, Debug)]
pub struct Section {
    pub offset_at: usize,
    pub length_at: usize,
    pub size: usize,
    pub most: usize,
}

/// The sections in their order.
pub const SECTIONS: [Section; 4] = [CONTAINERS, USERS, RULES, MIXTURES];

/// "Containers, at most 256, 6 bytes: kind (8 bits: 1 file, 2 volatile, 3 process), atom (8 bits: 0 to 31, 255 none),
/// permit rule and run rule (16 bits each)."
pub const CONTAINERS: Section = Section { offset_at: 2, length_at: 4, size: 6, most: 256 };
pub const CONTAINER_KIND: usize = 0;
pub const CONTAINER_ATOM: usize = 1;
pub const CONTAINER_PERMIT: usize = 2;
pub const CONTAINER_RUN: usize = 4;

/// "Users, at most 16: one 16-bit rule number."
pub const USERS: Section = Section { offset_at: 6, length_at: 8, size: 2, most: 16 };

/// "Rules, at most 256: 16-bit first mixture and 16-bit count". "A rule record grows to 6 bytes with a 16-bit owner last, a declared
/// user or 65535 for nobody" (change request No. 10).
pub const RULES: Section = Section { offset_at: 10, length_at: 12, size: 6, most: 256 };
pub const RULE_FIRST: usize = 0;
pub const RULE_COUNT: usize = 2;
pub const RULE_OWNER: usize = 4;
pub const NO_OWNER: u16 = 65535;

/// "Mixtures, at most 2,048, 64 bits each."
pub const MIXTURES: Section = Section { offset_at: 14, length_at: 16, size: 8, most: 2_048 };

/// "atom (8 bits: 0 to 31, 255 none)".
pub const NO_ATOM: u8 = 255;

/// "Rule number 65535 is the unrestricted rule."
pub const UNRESTRICTED: u16 = 65535;

/// "Any output for a normal image must hold 19,506 bytes" (change request No. 10).
pub const LONGEST_NORMAL: usize = 19_506;

/// "The session is a lent slice" of "256 rows", "then 16 user rows of 10." "Each container row gets a 21st number"; "The
/// session is now 5,536 numbers long" (change request No. 5).
pub const SESSION: usize = 5_536;
const CONTAINER_ROW: usize = 21;
const USER_ROW: usize = 10;

/// The numbers of a container's row.
pub const fn container_row(number: usize) -> Range<usize> {
    CONTAINER_ROW * number..CONTAINER_ROW * (number + 1)
}

/// The numbers of a user's row.
pub const fn user_row(number: usize) -> Range<usize> {
    let first = CONTAINER_ROW * CONTAINERS.most;
    first + USER_ROW * number..first + USER_ROW * (number + 1)
}

/// "A container row: kind (0 free, else as in the image), information tag, permit count, 8 mixtures, run count,
/// 8 mixtures."
pub const ROW_KIND: usize = 0;
pub const ROW_TAG: usize = 1;
pub const ROW_PERMIT: Range<usize> = 2..11;
pub const ROW_RUN: Range<usize> = 11..20;

/// "Each container row gets a 21st number: the user for a process, 65535 for an initial process, a file or a volatile"
/// (change request No. 5).
pub const ROW_USER: usize = 20;
pub const NOBODY: u64 = 65535;

/// "A user row: 1 if declared, count, 8 mixtures."
pub const ROW_DECLARED: usize = 0;
pub const ROW_RULE: Range<usize> = 1..10;

/// A rule in a row: its count, then 8 mixtures.
pub const RULE_WORDS: usize = 9;

/// "A record has 8 bytes".
pub const RECORD: usize = 8;

/// "u is 65535 except for codes 4 and 6".
pub const NO_USER: u16 = 65535;

/// Change request No. 1: "profile text of up to 16,384 bytes"; "a path is `/` and 1 to 63 letters, digits, dots or
/// slashes"; "17 when it has over 32 paths".
pub const LONGEST_TEXT: usize = 16_384;
pub const LONGEST_PATH: usize = 64;
pub const PROFILE_PATHS: usize = 32;

#[cfg(test)]
mod tests {
    use super::*;

    /// The paper gives a sum beside its parts: both are as it says.
    #[test]
    fn sums() {
        let places = SECTIONS.iter().flat_map(|section| [section.offset_at, section.length_at]);
        assert!(places.eq((2..HEADER).step_by(2)));
        assert_eq!(HEADER + SECTIONS.map(|section| section.size * section.most).iter().sum::<usize>(), LONGEST_NORMAL);
        assert_eq!(user_row(USERS.most).start, SESSION);
        assert_eq!((ROW_PERMIT.len(), ROW_RUN.len(), ROW_RULE.len()), (RULE_WORDS, RULE_WORDS, RULE_WORDS));
        assert_eq!((ROW_RUN.end, ROW_USER + 1, ROW_RULE.end), (ROW_USER, CONTAINER_ROW, USER_ROW));
        assert_eq!(RULE_WORDS, 1 + RULE_MIXTURES);
    }
}

/// Change request No. 6: "up to 64 traces named `00.bin` upward".
pub const MONTH_TRACES: usize = 64;

/// "19 when a trace has over 1,000,000 records".
pub const TRACE_RECORDS: usize = 1_000_000;

/// Change request No. 13: "From up to 256 records".
pub const POSITIONS: usize = 256;

/// "A tag or a mixture is a set of these 64".
pub const ATOMS: usize = 64;

/// This product's own: what stands for the file of no chain, and the numbers of the reason of an alert.
pub const NO_CHAIN: u64 = 256;
pub const WHY: usize = 17;
