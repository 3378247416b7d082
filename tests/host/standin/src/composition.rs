//! Two images composed, written a second time, with the faults inside.

use judge::composition::{compose, policy_of};
use judge::image::{check, read, Kind, Policy};
use judge::normal::{encode, put};
use judge::numbers::{LONGEST_NORMAL, NO_OWNER, RULES, RULE_MIXTURES};
use judge::rules::{covers, holds, normal, unrestricted, Rule};

use crate::faults::{planted, Fault};

/// The atoms that consent, each with its twin.
fn consenting(consent: &[u8]) -> Option<u64> {
    let long = consent.len() == 32 || planted(Fault::ShortConsent) && consent.len() == 31;
    let good = |byte: &u8| *byte <= 1 || planted(Fault::ConsentOfTwo) && *byte == 2;
    let data = consent.iter().enumerate().fold(0u64, |set, (atom, byte)| set | u64::from(*byte > 0) << (atom % 32));
    let twins = if planted(Fault::TwinsApart) { 0 } else { data << 32 };
    (long && consent.iter().all(good)).then_some(data | twins)
}

fn enters(mixture: u64, other: &[u64], consent: u64) -> bool {
    match Fault::planted() {
        Some(Fault::UnionComposed) => true,
        Some(Fault::OneConsentEnough) => covers(other, mixture) || mixture & consent != 0,
        Some(Fault::EmptyMixtureUnasked) if mixture == 0 => covers(other, mixture),
        Some(Fault::ConsentIgnored) => covers(other, mixture),
        _ => covers(other, mixture) || holds(consent, mixture),
    }
}

/// The rule of two, with its mixtures before the normal form.
fn composed(one: &[u64], other: &[u64], consent: u64) -> (Rule, usize) {
    let own = |rule: &[u64]| if planted(Fault::RawRulesComposed) { rule.to_vec() } else { normal(rule) };
    let mut both: Vec<u64> = own(one).into_iter().filter(|&mixture| enters(mixture, other, consent)).collect();
    both.extend(own(other).into_iter().filter(|&mixture| enters(mixture, one, consent)));
    if planted(Fault::IntersectionsEnter) {
        both.extend(one.iter().flat_map(|a| other.iter().map(move |b| a & b)));
    }
    both.sort_unstable();
    both.dedup();
    let listed = both.len();
    (normal(&both), listed)
}

fn owner(a: u16, b: u16) -> u16 {
    match Fault::planted() {
        Some(Fault::FirstOwnerStays) => a,
        Some(Fault::SecondOwnerStays) => b,
        Some(Fault::OnlyOwnerStays) if a == NO_OWNER => b,
        Some(Fault::OnlyOwnerStays) if b == NO_OWNER => a,
        _ if a == b => a,
        _ => NO_OWNER,
    }
}

/// The rule numbers at all places, in pairs.
fn numbers(one: &Policy, other: &Policy) -> Vec<(u16, u16)> {
    let run_or_permit = |run, permit| if planted(Fault::RunWithPermit) { permit } else { run };
    let containers = one.containers.iter().zip(&other.containers);
    let containers = containers.flat_map(|(a, b)| [(a.permit, b.permit), (a.run, run_or_permit(b.run, b.permit))]);
    let users = one.users.iter().zip(&other.users);
    containers.chain(users.map(|(&a, &b)| (a, b))).collect()
}

fn same_shape(one: &Policy, other: &Policy) -> bool {
    let kind = |kind| if planted(Fault::GuardedAsFileComposed) && kind == Kind::Guarded { Kind::File } else { kind };
    let atom = |atom| if planted(Fault::AtomsNotCompared) { None } else { atom };
    let shape = |policy: &Policy| policy.containers.iter().map(|c| (kind(c.kind), atom(c.atom))).collect::<Vec<_>>();
    let users = planted(Fault::UsersNotCompared) || one.users.len() == other.users.len();
    shape(one) == shape(other) && users
}

fn compose_policies(one: &Policy, other: &Policy, consent: &[u8]) -> Result<Policy, u32> {
    let consent = consenting(consent).filter(|_| same_shape(one, other)).ok_or(20u32)?;
    let mut uses = Vec::new();
    for (a, b) in numbers(one, other) {
        let (rule, listed) = composed(&one.rule(a), &other.rule(b), consent);
        if rule.len() > RULE_MIXTURES || planted(Fault::MixturesBeforeComposing) && listed > RULE_MIXTURES {
            return Err(21);
        }
        uses.push((rule, owner(one.owner(a), other.owner(b))));
    }
    // Users of the first image that the second does not have keep their rules.
    let kept = if planted(Fault::UsersOfFirst) { 0 } else { other.users.len() };
    uses.truncate(2 * one.containers.len() + kept);
    for &number in one.users.iter().skip(kept) {
        uses.push((normal(&one.rule(number)), one.owner(number)));
    }
    let mut needed: Vec<&(Rule, u16)> = uses.iter().filter(|used| **used != (unrestricted(), NO_OWNER)).collect();
    needed.sort_unstable();
    needed.dedup();
    if planted(Fault::OwnersNotNeeded) {
        needed.dedup_by_key(|used| &used.0);
    }
    let most = if planted(Fault::LimitAt256) { RULES.most - 1 } else { RULES.most };
    if needed.len() > most {
        return Err(21);
    }
    Ok(policy_of(one, uses))
}

/// What is refused before anything is composed, where the fault changes the order.
fn other_order(first: &[u8], second: &[u8], consent: &[u8]) -> Option<u32> {
    match Fault::planted() {
        Some(Fault::SecondImageFirst) => Some(check(second)).filter(|&number| number != 0),
        Some(Fault::ConsentBeforeSecond) => (check(first) == 0 && consenting(consent).is_none()).then_some(20),
        _ => None,
    }
}

/// `yaslaurel_image_compose`: the refusal, and the length behind the pointer.
pub fn answer(first: &[u8], second: &[u8], consent: &[u8], out: &mut [u8], length: &mut usize) -> u32 {
    if Fault::planted().is_none() {
        return compose(first, second, consent, out, length);
    }
    let number = compose_faulty(first, second, consent, out, length);
    if planted(Fault::RefusedComposeClearsLength) && number != 0 {
        *length = 0;
    }
    if planted(Fault::RefusedComposeWrites) && [20, 21].contains(&number) {
        out[0] = 0;
    }
    number
}

fn compose_faulty(first: &[u8], second: &[u8], consent: &[u8], out: &mut [u8], length: &mut usize) -> u32 {
    if out.len() < LONGEST_NORMAL {
        return 9;
    }
    if let Some(number) = other_order(first, second, consent) {
        return number;
    }
    let read_both = || Ok((read(first)?, read(second)?));
    let composed = read_both().and_then(|(one, other)| compose_policies(&one, &other, consent));
    match composed {
        Err(number) => number,
        Ok(policy) => {
            *length = put(&encode(&policy), out) as usize;
            0
        }
    }
}
