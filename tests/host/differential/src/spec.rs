//! A policy image before it is spelled in bytes. Nothing here keeps to the limits: a spec can spell refused images.

use yaslaurel::layout::image::{
    Section, ATOM, CONTAINERS, COUNT, FIRST, HEADER, KIND, LEADING, MIXTURES, NO_ATOM, NO_OWNER, OWNER, PERMIT, RULES,
    RUN, SECTIONS, UNRESTRICTED, USERS,
};

/// A 16-bit number of an image.
pub fn number_at(image: &[u8], at: usize) -> usize {
    usize::from(u16::from_le_bytes([image[at], image[at + 1]]))
}

/// Writes a 16-bit number into an image.
pub fn put_number(image: &mut [u8], at: usize, number: usize) {
    image[at..at + 2].copy_from_slice(&(number as u16).to_le_bytes());
}

/// Before each section and behind the last.
pub const GAPS: usize = SECTIONS.len() + 1;

#[derive(Clone, Debug, PartialEq, Eq)]
pub struct Spec {
    /// kind, atom, permit, run
    pub containers: Vec<(u8, u8, u16, u16)>,
    pub users: Vec<u16>,
    /// first, count, owner
    pub rules: Vec<(u16, u16, u16)>,
    pub mixtures: Vec<u64>,
    /// Bytes before each section and behind the last.
    pub gaps: [usize; GAPS],
}

impl Spec {
    /// The image; the bytes of its gaps are `filler`.
    pub fn encode(&self, filler: u8) -> Vec<u8> {
        let (mut containers, mut users, mut rules, mut mixtures) = (vec![], vec![], vec![], vec![]);
        for &(kind, atom, permit, run) in &self.containers {
            containers.extend([kind, atom]);
            containers.extend(permit.to_le_bytes());
            containers.extend(run.to_le_bytes());
        }
        for user in &self.users {
            users.extend(user.to_le_bytes());
        }
        for (first, count, owner) in &self.rules {
            rules.extend([first, count, owner].map(|number| number.to_le_bytes()).concat());
        }
        for mixture in &self.mixtures {
            mixtures.extend(mixture.to_le_bytes());
        }
        let mut image = vec![0; HEADER];
        put_number(&mut image, 0, usize::from(LEADING));
        for ((section, bytes), gap) in SECTIONS.iter().zip([containers, users, rules, mixtures]).zip(self.gaps) {
            image.resize(image.len() + gap, filler);
            let offset = image.len();
            put_number(&mut image, section.offset_at(), offset);
            put_number(&mut image, section.length_at(), bytes.len());
            image.extend(bytes);
        }
        image.resize(image.len() + self.gaps[GAPS - 1], filler);
        image
    }

    /// The spec that an accepted image spells, without its gaps.
    pub fn of_accepted(image: &[u8]) -> Spec {
        let records = |section: Section| {
            let (offset, length) = (number_at(image, section.offset_at()), number_at(image, section.length_at()));
            image[offset..offset + length].chunks(section.record)
        };
        let number = |record: &[u8], at: usize| number_at(record, at) as u16;
        let container = |r: &[u8]| (r[KIND], r[ATOM], number(r, PERMIT), number(r, RUN));
        Spec {
            containers: records(CONTAINERS).map(container).collect(),
            users: records(USERS).map(|r| number(r, 0)).collect(),
            rules: records(RULES).map(|r| (number(r, FIRST), number(r, COUNT), number(r, OWNER))).collect(),
            mixtures: records(MIXTURES).map(|r| u64::from_le_bytes(r.try_into().unwrap())).collect(),
            gaps: [0; GAPS],
        }
    }

    /// Every spec that is a little simpler than this one.
    pub fn simpler(&self) -> Vec<Spec> {
        let mut found = Vec::new();
        let mut add = |change: &dyn Fn(&mut Spec)| {
            let mut simpler = self.clone();
            change(&mut simpler);
            if simpler != *self {
                found.push(simpler);
            }
        };
        add(&|s| s.gaps = [0; GAPS]);
        let keeps = |count: usize| [0, count / 2, count.saturating_sub(1)];
        for keep in keeps(self.containers.len()) {
            add(&|s| s.containers.truncate(keep));
        }
        for keep in keeps(self.users.len()) {
            add(&|s| s.users.truncate(keep));
        }
        for keep in keeps(self.rules.len()) {
            add(&|s| s.rules.truncate(keep));
        }
        for keep in keeps(self.mixtures.len()) {
            add(&|s| s.mixtures.truncate(keep));
        }
        for i in 0..self.containers.len() {
            add(&|s| s.containers[i].1 = NO_ATOM);
            add(&|s| s.containers[i].2 = UNRESTRICTED);
            add(&|s| s.containers[i].3 = UNRESTRICTED);
        }
        (0..self.users.len()).for_each(|i| add(&|s| s.users[i] = UNRESTRICTED));
        (0..self.rules.len()).for_each(|i| add(&|s| s.rules[i].1 = s.rules[i].1.saturating_sub(1)));
        (0..self.rules.len()).for_each(|i| add(&|s| s.rules[i].2 = NO_OWNER));
        for i in 0..self.mixtures.len() {
            add(&|s| s.mixtures[i] = 0);
            add(&|s| s.mixtures[i] &= 0xff);
            let lowest = self.mixtures[i] & self.mixtures[i].wrapping_neg();
            add(&|s| s.mixtures[i] &= !lowest);
        }
        found
    }
}
