//! Differences of policies that have the same names: none exactly if the judge gives both the same normal image.

use analysis::differences;
use judge::normal::normalise;
use judge::numbers::LONGEST_NORMAL;
use yaslaurel::Policy;

use crate::questions::{policy, rule};
use crate::random::Random;

/// The normal image by the judge.
fn normal(policy: &Policy) -> Vec<u8> {
    let mut out = vec![0; LONGEST_NORMAL];
    let length = normalise(&policy.image(), &mut out) as usize;
    out.truncate(length);
    out
}

/// The policy with a small change, which may be none.
fn changed(random: &mut Random, policy: &Policy) -> Policy {
    let mut other = policy.clone();
    let sources: Vec<_> = policy.source_names().filter_map(|name| policy.source_named(name)).collect();
    let file = 0;
    match random.below(5) {
        0 => other.set_permit_rule(file, rule(random, &sources)).expect("a file"),
        1 => other.set_run_rule(file, rule(random, &sources)).expect("a file"),
        2 => other.set_guarded(file, random.percent(50)).expect("a file"),
        3 if policy.users().len() > 0 => other.set_permit_owner(file, Some(0)).expect("a user"),
        _ => {}
    }
    other
}

/// Compares so many pairs.
pub fn run(seed: u64, count: usize) -> bool {
    let mut random = Random::new(seed);
    let (mut wrong, mut equal) = (0, 0);
    for _ in 0..count {
        let first = policy(&mut random);
        let second = changed(&mut random, &first);
        let same = normal(&first) == normal(&second);
        let found = differences(&first, &second).expect("a policy's image is accepted");
        equal += usize::from(same);
        if same != found.is_empty() {
            wrong += 1;
            println!("wrong: {found:?}: {first:?} {second:?}");
        }
    }
    println!("{count} pairs, {wrong} wrong; {equal} equal");
    wrong == 0 && equal > 0 && equal < count
}
