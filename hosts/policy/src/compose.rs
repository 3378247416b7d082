//! Two policies composed by the library, with what an operator wants to know of it: what differs, where it is too much, and which places
//! end up without mixtures. The library judges; this only says why.

use std::collections::HashSet;

use yaslaurel::{Kind, Policy, PolicyContainer, Rule};

use crate::LineError;

/// The data atoms of a policy.
const ATOMS: usize = 32;
/// The most mixtures of a rule, and rules of a policy.
const MIXTURES: usize = 8;
const RULES: usize = 256;

/// A consent from a file: its bytes as they are, or of a text with the name of a source in each line a byte of 1 for each of these.
/// `names` are the sources in the order of their atoms. It is a text if it has no control characters but the ends of lines; empty
/// lines and lines that begin with `#` do not count.
///
/// ```
/// use policy_text::read_consent;
/// let names = ["north".to_string(), "south".to_string()];
/// assert_eq!(read_consent(b"# the member\nsouth\n", &names).unwrap()[..3], [0, 1, 0]);
/// assert_eq!(read_consent(&[1; 32], &names).unwrap(), [1; 32]);
/// assert_eq!(read_consent(b"east\n", &names).unwrap_err().to_string(), "1: no source is called east");
/// ```
///
/// # Errors
///
/// The first line that names no source.
pub fn read_consent(bytes: &[u8], names: &[String]) -> Result<Vec<u8>, LineError> {
    let text = std::str::from_utf8(bytes).ok();
    let Some(text) = text.filter(|text| !text.contains(|c: char| c.is_control() && c != '\n')) else {
        return Ok(bytes.to_vec());
    };
    let mut consent = vec![0; ATOMS];
    for (place, line) in text.lines().enumerate() {
        if line.is_empty() || line.starts_with('#') {
            continue;
        }
        let atom = names.iter().position(|name| name == line).filter(|atom| *atom < ATOMS);
        let unknown = || LineError { line: place + 1, message: format!("no source is called {line}") };
        consent[atom.ok_or_else(unknown)?] = 1;
    }
    Ok(consent)
}

/// Why two accepted policies and a consent are refused by 20: what differs first, or what is wrong with the consent.
#[must_use]
pub fn input_fault(first: &Policy, second: &Policy, consent: &[u8]) -> Option<String> {
    shape_fault(first, second).or_else(|| consent_fault(consent))
}

fn shape_fault(first: &Policy, second: &Policy) -> Option<String> {
    let counts = |what: &str, one: usize, other: usize| {
        (one != other).then(|| format!("the first policy has {one} {what}, the second {other}"))
    };
    let places = || {
        let both = first.containers().zip(second.containers()).enumerate();
        { both }.find_map(|(number, ((name, one), (_, other)))| {
            let [one, other] = [one, other].map(container_text);
            let texts = || format!("container {number}, {name}: {one} in the first policy, {other} in the second");
            (one != other).then(texts)
        })
    };
    counts("containers", first.containers().len(), second.containers().len())
        .or_else(places)
        .or_else(|| counts("users", first.users().len(), second.users().len()))
}

/// What must be the same of a container: its kind and its source.
fn container_text(container: PolicyContainer) -> String {
    let kind = if container.kind == Kind::Guarded { "guarded file".to_string() } else { container.kind.to_string() };
    match container.source {
        None => format!("a {kind} without a source"),
        Some(source) => format!("a {kind} of source {}", source.atom()),
    }
}

fn consent_fault(consent: &[u8]) -> Option<String> {
    if consent.len() != ATOMS {
        return Some(format!("the consent has {} bytes, expected {ATOMS}", consent.len()));
    }
    let place = consent.iter().position(|byte| *byte > 1)?;
    Some(format!("byte {place} of the consent is {}, expected 0 or 1", consent[place]))
}

/// The places for a rule, in their order: what each is called, its rule, and the rule's owner.
fn places(policy: &Policy) -> Vec<(String, Rule, Option<u8>)> {
    let rule = |number: Option<u16>| match number {
        None => (Rule::unrestricted(), None),
        Some(number) => (policy.rules()[usize::from(number)].clone(), policy.rule_owner(number)),
    };
    let mut found = Vec::new();
    for (name, container) in policy.containers() {
        for (word, number) in [("permit", container.permit), ("run", container.run)] {
            let (rule, owner) = rule(number);
            found.push((format!("the {word} rule of {name}"), rule, owner));
        }
    }
    for (name, number) in policy.users() {
        let (rule, owner) = rule(number);
        found.push((format!("the rule of user {name}"), rule, owner));
    }
    found
}

/// The mixtures of a rule that no other one holds.
fn normal(mixtures: impl IntoIterator<Item = u64>) -> Vec<u64> {
    let all: HashSet<u64> = mixtures.into_iter().collect();
    let mut kept: Vec<u64> =
        all.iter().copied().filter(|m| !all.iter().any(|other| other != m && other & m == *m)).collect();
    kept.sort_unstable();
    kept
}

/// The mixtures of two rules that enter, in normal form.
fn entering(one: &Rule, other: &Rule, consent: u64) -> Vec<u64> {
    let bits = |rule: &Rule| normal(rule.mixtures().iter().map(|mixture| mixture.bits()));
    let (one, other) = (bits(one), bits(other));
    let enters = |m: &&u64, others: &[u64]| **m & consent == **m || others.iter().any(|held| held & **m == **m);
    let mut both: Vec<u64> = one.iter().filter(|m| enters(m, &other)).copied().collect();
    both.extend(other.iter().filter(|m| enters(m, &one)));
    normal(both)
}

/// Why two policies are refused by 21: the first place with too many mixtures, or how many rules are needed.
#[must_use]
pub fn limit_fault(first: &Policy, second: &Policy, consent: &[u8]) -> Option<String> {
    let atoms = consent.iter().enumerate().fold(0u64, |set, (atom, byte)| set | u64::from(*byte) << atom);
    let (one, other) = (places(first), places(second));
    let made: Vec<(Vec<u64>, Option<u8>)> = one
        .iter()
        .zip(&other)
        .map(|(a, b)| (entering(&a.1, &b.1, atoms | atoms << ATOMS), if a.2 == b.2 { a.2 } else { None }))
        .collect();
    if let Some((place, (mixtures, _))) = made.iter().enumerate().find(|(_, (mixtures, _))| mixtures.len() > MIXTURES) {
        return Some(format!("{} would have {} mixtures, at most {MIXTURES} fit", one[place].0, mixtures.len()));
    }
    let free = (vec![u64::MAX], None);
    let needed: HashSet<&(Vec<u64>, Option<u8>)> = made.iter().filter(|used| **used != free).collect();
    (needed.len() > RULES).then(|| format!("{} different rules would be needed, at most {RULES} fit", needed.len()))
}

/// The places that have mixtures in one of two policies and none in what they are composed to: nothing may be there, not even what is
/// empty.
#[must_use]
pub fn emptied(first: &Policy, second: &Policy, composed: &Policy) -> Vec<String> {
    let some = |policy: &Policy| {
        places(policy).into_iter().map(|(_, rule, _)| !rule.mixtures().is_empty()).collect::<Vec<_>>()
    };
    let before = some(first).into_iter().zip(some(second)).map(|(one, other)| one || other);
    let after = places(composed).into_iter().zip(places(first)).zip(before);
    after
        .filter(|(((_, rule, _), _), before)| *before && rule.mixtures().is_empty())
        .map(|((_, (name, _, _)), _)| name)
        .collect()
}
