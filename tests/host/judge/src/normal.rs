//! "Normal image".

use std::collections::HashMap;

use crate::image::{read, Policy};
use crate::numbers::{HEADER, LEADING, LONGEST_NORMAL, NO_ATOM, NO_OWNER, UNRESTRICTED};
use crate::rules::{normal, unrestricted, Rule};

/// A rule at a use of it, in normal form, with its owner there: "Two equal rules set by different users" are two (change request
/// No. 10).
type Use = (Rule, u16);

/// Numbers the rules "by first use", "equal rules written once, unused rules dropped". "An unrestricted rule becomes 65535 only
/// without an owner" (change request No. 10).
struct Numbering {
    number_of: HashMap<Use, u16>,
    in_order: Vec<Use>,
}

impl Numbering {
    fn number(&mut self, policy: &Policy, number: u16) -> u16 {
        let used = (normal(&policy.rule(number)), policy.owner(number));
        if used == (unrestricted(), NO_OWNER) {
            return UNRESTRICTED;
        }
        if let Some(&number) = self.number_of.get(&used) {
            return number;
        }
        let number = self.in_order.len() as u16;
        self.in_order.push(used.clone());
        self.number_of.insert(used, number);
        number
    }
}

/// The normal image of a policy.
pub fn encode(policy: &Policy) -> Vec<u8> {
    let mut numbering = Numbering { number_of: HashMap::new(), in_order: Vec::new() };

    // "containers and users in their order, rules in normal form, numbered by first use (permit then run of each
    // container, then users)"
    let mut containers = Vec::new();
    for container in &policy.containers {
        let permit = numbering.number(policy, container.permit);
        let run = numbering.number(policy, container.run);
        containers.push(container.kind.number());
        containers.push(container.atom.unwrap_or(NO_ATOM));
        containers.extend(permit.to_le_bytes());
        containers.extend(run.to_le_bytes());
    }
    let mut users = Vec::new();
    for &user in &policy.users {
        users.extend(numbering.number(policy, user).to_le_bytes());
    }

    // "each rule's first mixture right behind the previous rule's last (also for an empty rule), none shared"
    let mut rules = Vec::new();
    let mut mixtures: Vec<u8> = Vec::new();
    let mut first: u16 = 0;
    for (rule, owner) in &numbering.in_order {
        rules.extend(first.to_le_bytes());
        rules.extend((rule.len() as u16).to_le_bytes());
        rules.extend(owner.to_le_bytes());
        mixtures.extend(rule.iter().flat_map(|mixture| mixture.to_le_bytes()));
        first += rule.len() as u16;
    }

    // "sections without gaps"
    let mut image = Vec::from(LEADING.to_le_bytes());
    let mut offset = HEADER;
    for section in [&containers, &users, &rules, &mixtures] {
        image.extend((offset as u16).to_le_bytes());
        image.extend((section.len() as u16).to_le_bytes());
        offset += section.len();
    }
    for section in [containers, users, rules, mixtures] {
        image.extend(section);
    }
    image
}

/// Writes an image to the front of an output that is long enough; "those behind the image stay".
pub fn put(image: &[u8], out: &mut [u8]) -> u32 {
    out[..image.len()].copy_from_slice(image);
    image.len() as u32
}

/// The normaliser: the length of the normal image (18 or more), or the number of the refusal, 9 before 1 to 6.
pub fn normalise(image: &[u8], out: &mut [u8]) -> u32 {
    // "Any output for a normal image must hold 19,506 bytes" (change request No. 10): 9
    if out.len() < LONGEST_NORMAL {
        return 9;
    }
    match read(image) {
        Err(number) => number,
        Ok(policy) => put(&encode(&policy), out),
    }
}

#[cfg(test)]
mod tests {
    use super::*;

    /// "Empty policy: 18 bytes."
    #[test]
    fn empty_policy() {
        let empty = Policy { containers: vec![], users: vec![], rules: vec![], owners: vec![] };
        let image = encode(&empty);
        assert_eq!(image, [5, 0, 18, 0, 0, 0, 18, 0, 0, 0, 18, 0, 0, 0, 18, 0, 0, 0]);
        assert_eq!(read(&image), Ok(empty));
    }
}
