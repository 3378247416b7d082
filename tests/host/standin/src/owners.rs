//! Owners of rules, with the faults of the image check and the normaliser that are about them.

use judge::image::{check, read, Policy};
use judge::normal::{encode, normalise, put};
use judge::numbers::{HEADER, LEADING, LONGEST_NORMAL, NO_OWNER, RULES, RULE_OWNER, UNRESTRICTED, USERS};
use judge::rules::{normal, unrestricted};

use crate::faults::{planted, Fault};
use crate::number_at;

/// The rule numbers of all uses, in their order.
fn uses(policy: &Policy) -> Vec<u16> {
    let containers = policy.containers.iter().flat_map(|container| [container.permit, container.run]);
    containers.chain(policy.users.iter().copied()).filter(|&number| number != UNRESTRICTED).collect()
}

/// An image that is refused by 4, with other owners at the places of its rule records for which the test holds: it is then refused for
/// what comes behind them, if at all.
fn without_owners(image: &[u8], overlooked: impl Fn(usize, u16) -> bool) -> Vec<u8> {
    let mut image = image.to_vec();
    let (offset, length) = (number_at(&image, RULES.offset_at), number_at(&image, RULES.length_at));
    for (place, record) in (offset..offset + length).step_by(RULES.size).enumerate() {
        let at = record + RULE_OWNER;
        if overlooked(place, number_at(&image, at) as u16) {
            image[at..at + 2].copy_from_slice(&NO_OWNER.to_le_bytes());
        }
    }
    image
}

/// The image check, whose answer is this number.
pub fn checked(image: &[u8], number: u32) -> u32 {
    match Fault::planted() {
        Some(Fault::OldLeadingAccepted) if number == 2 && number_at(image, 0) == 4 => {
            check(&[&LEADING.to_le_bytes()[..], &image[2..]].concat())
        }
        Some(Fault::OwnerOfUser16) if number == 4 => {
            let others = without_owners(image, |_, owner| usize::from(owner) < USERS.most);
            check(&others)
        }
        Some(Fault::OwnersAfterContainers) if number == 4 => {
            let behind = check(&without_owners(image, |_, _| true));
            if [5, 6].contains(&behind) {
                behind
            } else {
                number
            }
        }
        Some(Fault::UnusedOwnersUnread) if number == 4 => {
            let all = without_owners(image, |_, _| true);
            let Ok(policy) = read(&all) else { return number };
            let used = uses(&policy);
            check(&without_owners(image, |place, _| !used.contains(&(place as u16))))
        }
        _ => number,
    }
}

/// The policy with the owners that the fault leaves it.
fn owned(mut policy: Policy) -> Policy {
    let forms: Vec<Vec<u64>> = policy.rules.iter().map(|rule| normal(rule)).collect();
    match Fault::planted() {
        Some(Fault::OwnersLost) => policy.owners.fill(NO_OWNER),
        Some(Fault::OwnedUnrestrictedDropped) => {
            for (owner, form) in policy.owners.iter_mut().zip(&forms) {
                if *form == unrestricted() {
                    *owner = NO_OWNER;
                }
            }
        }
        Some(Fault::OwnersFolded) => {
            let used: Vec<usize> = uses(&policy).into_iter().map(usize::from).collect();
            for &number in &used {
                let first = used.iter().find(|&&other| forms[other] == forms[number]).expect("it is one itself");
                policy.owners[number] = policy.owners[*first];
            }
        }
        _ => {}
    }
    policy
}

/// The normaliser.
pub fn normalised(image: &[u8], out: &mut [u8]) -> u32 {
    if planted(Fault::OldOutputTaken) && (18_994..LONGEST_NORMAL).contains(&out.len()) {
        return read(image).map_or_else(|number| number, |policy| put(&encode(&policy), out));
    }
    if Fault::planted().is_none() || out.len() < LONGEST_NORMAL {
        return normalise(image, out);
    }
    let Ok(policy) = read(image) else { return normalise(image, out) };
    let number = put(&encode(&owned(policy)), out);
    if planted(Fault::OwnerFirst) && number as usize >= HEADER {
        let (offset, length) = (number_at(out, RULES.offset_at), number_at(out, RULES.length_at));
        out[offset..offset + length].chunks_mut(RULES.size).for_each(|record| record.rotate_right(2));
    }
    number
}
