//! "Policy image".

use crate::numbers::{
    Section, CONTAINERS, CONTAINER_ATOM, CONTAINER_KIND, CONTAINER_PERMIT, CONTAINER_RUN, DATA_ATOMS, HEADER, LEADING,
    LONGEST_IMAGE, MIXTURES, NO_ATOM, NO_OWNER, RULES, RULE_COUNT, RULE_FIRST, RULE_MIXTURES, RULE_OWNER, SECTIONS,
    UNRESTRICTED, USERS,
};
use crate::rules::{unrestricted, Rule};

/// The kinds of container, "1 file, 2 volatile, 3 process"; "Kind 4, in image and session, is a guarded file, treated as a file
/// elsewhere" (change request No. 9).
#[derive(Clone, Copy, Debug, PartialEq, Eq)]
pub enum Kind {
    File,
    Volatile,
    Process,
    Guarded,
}

impl Kind {
    /// A file or a guarded one.
    pub fn is_file(self) -> bool {
        matches!(self, Kind::File | Kind::Guarded)
    }

    /// The kind as the number that image and session store.
    pub fn number(self) -> u8 {
        match self {
            Kind::File => 1,
            Kind::Volatile => 2,
            Kind::Process => 3,
            Kind::Guarded => 4,
        }
    }

    /// The kind that a number names.
    pub fn of(number: u64) -> Option<Kind> {
        match number {
            1 => Some(Kind::File),
            2 => Some(Kind::Volatile),
            3 => Some(Kind::Process),
            4 => Some(Kind::Guarded),
            _ => None,
        }
    }
}

/// One container record, as written.
#[derive(Clone, Copy, Debug, PartialEq, Eq)]
pub struct Container {
    pub kind: Kind,
    pub atom: Option<u8>,
    pub permit: u16,
    pub run: u16,
}

/// An accepted image, as written: the rules are not yet in normal form.
#[derive(Clone, Debug, PartialEq, Eq)]
pub struct Policy {
    pub containers: Vec<Container>,
    pub users: Vec<u16>,
    pub rules: Vec<Rule>,
    /// The owner of each rule, "a declared user or 65535 for nobody" (change request No. 10); nobody behind the end.
    pub owners: Vec<u16>,
}

impl Policy {
    /// The owner at a use of a rule number: "65535 itself has none".
    pub fn owner(&self, number: u16) -> u16 {
        let owned = self.owners.get(usize::from(number)).filter(|_| number != UNRESTRICTED);
        owned.copied().unwrap_or(NO_OWNER)
    }

    /// "the same owner at every use of a rule": of permit and run rule of each container, then of each user's rule.
    pub fn owners_at_uses(&self) -> Vec<u16> {
        let containers = self.containers.iter().flat_map(|container| [container.permit, container.run]);
        containers.chain(self.users.iter().copied()).map(|number| self.owner(number)).collect()
    }

    /// The mixtures of a rule number, as the image writes them.
    pub fn rule(&self, number: u16) -> Rule {
        if number == UNRESTRICTED {
            unrestricted()
        } else {
            self.rules[usize::from(number)].clone()
        }
    }
}

/// "Stored numbers are little-endian."
fn u16_at(bytes: &[u8], at: usize) -> u16 {
    u16::from_le_bytes([bytes[at], bytes[at + 1]])
}

/// The four sections of an image that passes 2, the leading number or the pairs.
fn sections(image: &[u8]) -> Result<[&[u8]; SECTIONS.len()], u32> {
    // "1 image under 18 or over 20,480 bytes"
    if image.len() < HEADER || image.len() > LONGEST_IMAGE {
        return Err(1);
    }
    // "Every image now leads with a 16-bit 5, and 2 refuses the old 4." (change request No. 10)
    if u16_at(image, 0) != LEADING {
        return Err(2);
    }
    // "Each section starts at or after the previous end (the first at 18 or later) and ends within the image."
    let mut previous_end = HEADER;
    let mut found: [&[u8]; SECTIONS.len()] = [&[]; SECTIONS.len()];
    for (found, section) in found.iter_mut().zip(SECTIONS) {
        let offset = usize::from(u16_at(image, section.offset_at));
        let length = usize::from(u16_at(image, section.length_at));
        if offset < previous_end || offset + length > image.len() {
            return Err(2);
        }
        *found = &image[offset..offset + length];
        previous_end = offset + length;
    }
    Ok(found)
}

/// "3 section length no multiple, or too many records".
fn records(section: &[u8], Section { size, most, .. }: Section) -> Result<Vec<&[u8]>, u32> {
    if !section.len().is_multiple_of(size) || section.len() / size > most {
        return Err(3);
    }
    Ok(section.chunks_exact(size).collect())
}

/// A rule number that a container or a user may name.
fn names_a_rule(number: u16, rules: usize) -> bool {
    number == UNRESTRICTED || usize::from(number) < rules
}

/// One container record, "5 container record".
fn container(record: &[u8], rules: usize) -> Result<Container, u32> {
    let (kind, atom) = (record[CONTAINER_KIND], record[CONTAINER_ATOM]);
    let (permit, run) = (u16_at(record, CONTAINER_PERMIT), u16_at(record, CONTAINER_RUN));
    match Kind::of(u64::from(kind)) {
        None => Err(5),
        // "atom (8 bits: 0 to 31, 255 none)"
        Some(kind) if kind.is_file() => {
            if (atom >= DATA_ATOMS && atom != NO_ATOM) || !names_a_rule(permit, rules) || !names_a_rule(run, rules) {
                return Err(5);
            }
            let atom = if atom == NO_ATOM { None } else { Some(atom) };
            Ok(Container { kind, atom, permit, run })
        }
        // "Kinds 2 and 3 have atom 255 and both rules 65535."
        Some(kind) => {
            if atom != NO_ATOM || permit != UNRESTRICTED || run != UNRESTRICTED {
                return Err(5);
            }
            Ok(Container { kind, atom: None, permit, run })
        }
    }
}

/// Reads an image, or gives the number of its refusal, "In this order" 1 to 6.
pub fn read(image: &[u8]) -> Result<Policy, u32> {
    let [containers, users, rules, mixtures] = sections(image)?;

    let containers = records(containers, CONTAINERS)?;
    let users = records(users, USERS)?;
    let rules = records(rules, RULES)?;
    let mixtures: Vec<u64> = records(mixtures, MIXTURES)?
        .into_iter()
        .map(|record| u64::from_le_bytes(record.try_into().expect("a mixture has 64 bits")))
        .collect();

    // "at most 8; firsts never fall, ranges may overlap, first plus count is at most the number of mixtures"
    let (mut written, mut owners): (Vec<Rule>, Vec<u16>) = (Vec::new(), Vec::new());
    let mut previous_first = 0;
    for record in &rules {
        let first = usize::from(u16_at(record, RULE_FIRST));
        let count = usize::from(u16_at(record, RULE_COUNT));
        // "a 16-bit owner last, a declared user or 65535 for nobody; 4 checks it" (change request No. 10)
        let owner = u16_at(record, RULE_OWNER);
        let owned_well = owner == NO_OWNER || usize::from(owner) < users.len();
        if count > RULE_MIXTURES || first < previous_first || first + count > mixtures.len() || !owned_well {
            return Err(4);
        }
        owners.push(owner);
        written.push(mixtures[first..first + count].to_vec());
        previous_first = first;
    }

    let containers: Vec<Container> =
        containers.iter().map(|record| container(record, written.len())).collect::<Result<_, _>>()?;

    // "6 user's rule number"
    let users: Vec<u16> = users.iter().map(|record| u16_at(record, 0)).collect();
    if users.iter().any(|&number| !names_a_rule(number, written.len())) {
        return Err(6);
    }
    Ok(Policy { containers, users, rules: written, owners })
}

/// The image check: 0 if the image is accepted, else the number of its refusal.
pub fn check(image: &[u8]) -> u32 {
    match read(image) {
        Ok(_) => 0,
        Err(number) => number,
    }
}
