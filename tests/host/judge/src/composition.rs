//! "Vendor policy meets house policy" (change request No. 11): two images composed. Rules are sets of sets of atoms here, and a rule in
//! normal form is the set of its mixtures that no other one holds.

use std::collections::{BTreeSet, HashSet};

use crate::image::{read, Container, Policy};
use crate::normal::{encode, put};
use crate::numbers::{DATA_ATOMS, LONGEST_NORMAL, NO_OWNER, RULES, RULE_MIXTURES};
use crate::rules::unrestricted;

/// A set of atoms.
type Mixture = BTreeSet<u8>;

/// A set of mixtures.
type Sets = BTreeSet<Mixture>;

/// A rule at its place, with its owner there.
type Use = (Sets, u16);

fn atoms(mixture: u64) -> Mixture {
    (0..64).filter(|atom| mixture >> atom & 1 == 1).collect()
}

fn number(mixture: &Mixture) -> u64 {
    mixture.iter().map(|atom| 1 << atom).sum()
}

/// "Normal form: drop repeats, drop every mixture held by another".
fn normal_form(sets: &Sets) -> Sets {
    sets.iter().filter(|one| !sets.iter().any(|other| other != *one && one.is_subset(other))).cloned().collect()
}

/// "It covers a tag if ONE of its mixtures holds all of the tag."
fn covers(sets: &Sets, tag: &Mixture) -> bool {
    sets.iter().any(|mixture| tag.is_subset(mixture))
}

/// "A third input has 32 bytes, 1 where the owner of that atom consents and 0 where not." The data atoms that consent; "20 when .. the
/// consent input is not 32 bytes, or a consent byte is neither 0 nor 1".
pub fn consenting(consent: &[u8]) -> Option<BTreeSet<u8>> {
    let good = consent.len() == usize::from(DATA_ATOMS) && consent.iter().all(|byte| [0, 1].contains(byte));
    good.then(|| (0..DATA_ATOMS).filter(|&atom| consent[usize::from(atom)] == 1).collect())
}

/// "if all its atoms, twins counted with their data atom, consent".
fn wholly_consents(mixture: &Mixture, consent: &BTreeSet<u8>) -> bool {
    mixture.iter().all(|atom| consent.contains(&(atom % DATA_ATOMS)))
}

/// "a mixture of either rule's normal form enters if the other's rule there covers it, or if all its atoms .. consent".
fn composed(one: &Sets, other: &Sets, consent: &BTreeSet<u8>) -> Sets {
    let entering = |own: &Sets, others: &Sets| -> Vec<Mixture> {
        let enters = |mixture: &&Mixture| covers(others, mixture) || wholly_consents(mixture, consent);
        normal_form(own).iter().filter(enters).cloned().collect()
    };
    normal_form(&entering(one, other).into_iter().chain(entering(other, one)).collect())
}

/// The rules of a policy at their places: permit and run rule of each container, then the users'.
fn uses(policy: &Policy) -> Vec<Use> {
    let containers = policy.containers.iter().flat_map(|container| [container.permit, container.run]);
    let numbers = containers.chain(policy.users.iter().copied());
    numbers.map(|number| (policy.rule(number).into_iter().map(atoms).collect(), policy.owner(number))).collect()
}

/// "20 when containers differ in number, kind or atom, users differ in number".
pub fn same_shape(one: &Policy, other: &Policy) -> bool {
    let shape = |policy: &Policy| policy.containers.iter().map(|c| (c.kind, c.atom)).collect::<Vec<_>>();
    shape(one) == shape(other) && one.users.len() == other.users.len()
}

/// The policy of these uses, each with a rule of its own, at the places of another policy.
pub fn policy_of(places: &Policy, uses: Vec<(Vec<u64>, u16)>) -> Policy {
    let mut next = 0..;
    let mut number = || next.next().expect("there are few uses");
    let containers: Vec<Container> =
        places.containers.iter().map(|c| Container { permit: number(), run: number(), ..*c }).collect();
    let users = places.users.iter().map(|_| number()).collect();
    let (rules, owners) = uses.into_iter().unzip();
    Policy { containers, users, rules, owners }
}

/// Two accepted policies composed: 20 or 21, or the policy.
fn compose_policies(one: &Policy, other: &Policy, consent: &[u8]) -> Result<Policy, u32> {
    let consent = consenting(consent).filter(|_| same_shape(one, other)).ok_or(20u32)?;
    let owner = |a: u16, b: u16| if a == b { a } else { NO_OWNER };
    // "At each place for a rule"; "Owners stay where both agree, else nobody."
    let uses: Vec<Use> =
        uses(one).iter().zip(&uses(other)).map(|(a, b)| (composed(&a.0, &b.0, &consent), owner(a.1, b.1))).collect();
    // "21 when a place has over 8 mixtures in normal form or over 256 rules are needed"
    let free: Use = (unrestricted().into_iter().map(atoms).collect(), NO_OWNER);
    let needed: HashSet<&Use> = uses.iter().filter(|used| **used != free).collect();
    if uses.iter().any(|(sets, _)| sets.len() > RULE_MIXTURES) || needed.len() > RULES.most {
        return Err(21);
    }
    let spelled = uses.iter().map(|(sets, owner)| (sets.iter().map(number).collect(), *owner)).collect();
    Ok(policy_of(one, spelled))
}

/// Composes two images: 0 with the length of "the normal image", else the refusal, and nothing is written. 9, then "the first image is
/// judged before the second", then 20 and 21, "both after 6".
pub fn compose(first: &[u8], second: &[u8], consent: &[u8], out: &mut [u8], length: &mut usize) -> u32 {
    if out.len() < LONGEST_NORMAL {
        return 9;
    }
    let composed = read(first).and_then(|one| {
        let other = read(second)?;
        compose_policies(&one, &other, consent)
    });
    match composed {
        Err(number) => number,
        Ok(policy) => {
            *length = put(&encode(&policy), out) as usize;
            0
        }
    }
}

#[cfg(test)]
mod tests {
    use super::*;

    fn rule(mixtures: &[u64]) -> Sets {
        mixtures.iter().copied().map(atoms).collect()
    }

    /// Document 003's hashing example: the place of `sha1sum`, of which one policy does not speak.
    #[test]
    fn hashing_example() {
        let (none, file) = (rule(&[]), rule(&[1]));
        assert_eq!(composed(&none, &file, &BTreeSet::from([0])), file);
        assert_eq!(composed(&file, &none, &BTreeSet::from([0])), file);
        assert_eq!(composed(&none, &file, &BTreeSet::new()), none);
    }

    /// No intersection enters.
    #[test]
    fn overlapping_mixtures() {
        assert_eq!(composed(&rule(&[3]), &rule(&[6]), &BTreeSet::new()), rule(&[]));
        assert_eq!(composed(&rule(&[3]), &rule(&[7]), &BTreeSet::new()), rule(&[3]));
    }

    /// The running twin of atom 0 is atom 32.
    #[test]
    fn a_twin_consents_with_its_data_atom() {
        assert_eq!(composed(&rule(&[1 << 32]), &rule(&[]), &BTreeSet::from([0])), rule(&[1 << 32]));
    }
}
