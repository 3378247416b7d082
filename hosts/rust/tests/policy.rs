//! The policy builder at its limits, and images that are read back.

use yaslaurel::layout::image::{CONTAINERS, HEADER, LONGEST_NORMAL, MIXTURES, PERMIT, RULES};
use yaslaurel::{check, normalise, Mixture, Policy, PolicyError, Rule, Source};

/// A rule of eight mixtures that no other number below 512 gives.
fn rule(number: u64) -> Rule {
    Rule::new((0..8).map(|place| Mixture::from_bits(number << 32 | 1 << place))).expect("eight mixtures")
}

/// As much as a policy may have: 32 sources, 256 containers, 16 users, 256 rules of 8 mixtures.
fn largest() -> Policy {
    let mut policy = Policy::new();
    let sources: Vec<Source> = (0..32).map(|number| policy.source(&format!("s{number}")).unwrap()).collect();
    for number in 0..256 {
        let file = policy.file(&format!("f{number}")).unwrap();
        policy.set_source(file, sources[usize::from(file) % 32]).unwrap();
        policy.set_permit_rule(file, rule(u64::from(file))).unwrap();
    }
    for number in 0..16 {
        policy.user(&format!("u{number}"), rule(number)).unwrap();
    }
    policy
}

#[test]
fn the_largest_policy_is_accepted_and_anything_more_is_not_taken_up() {
    let mut policy = largest();
    let image = policy.image();
    assert_eq!((check(&image), image.len()), (Ok(()), LONGEST_NORMAL));
    assert_eq!(policy.source("s32"), Err(PolicyError::TooManySources));
    assert_eq!(policy.process("p"), Err(PolicyError::TooManyContainers));
    assert_eq!(policy.user("u16", Rule::unrestricted()), Err(PolicyError::TooManyUsers));
    assert_eq!(policy.set_run_rule(0, rule(256)), Err(PolicyError::TooManyRules));
    assert_eq!(policy, largest());
}

#[test]
fn a_user_whose_rule_is_one_too_many_is_not_there() {
    let mut policy = Policy::new();
    for number in 0..256 {
        let file = policy.file(&format!("f{number}")).unwrap();
        policy.set_permit_rule(file, rule(number)).unwrap();
    }
    assert_eq!(policy.user("u", rule(256)), Err(PolicyError::TooManyRules));
    assert_eq!((policy.user_named("u"), policy.users().len()), (None, 0));
    assert_eq!(policy.user("u", rule(255)), Ok(0));
}

#[test]
fn a_rule_that_nothing_uses_any_more_leaves_its_place() {
    let mut policy = largest();
    // File 255 alone has its rule; file 0 shares one with user 0.
    assert_eq!(policy.set_permit_owner(255, Some(15)), Ok(()));
    let owned = policy.clone();
    assert_eq!(policy.set_permit_owner(0, Some(15)), Err(PolicyError::TooManyRules));
    assert_eq!(policy.set_permit_owner(1, Some(16)), Err(PolicyError::NotThere(16)));
    assert_eq!(policy.set_user_rule_owner(16, None), Err(PolicyError::NotThere(16)));
    assert_eq!(policy, owned);
    let image = policy.image();
    assert_eq!((check(&image), image.len()), (Ok(()), LONGEST_NORMAL));
    let read = Policy::from_image(&image).unwrap();
    let owners: Vec<Option<u8>> = (0..256).map(|place| read.rule_owner(place)).collect();
    assert_eq!(owners, [vec![None; 255], vec![Some(15)]].concat());
    assert_eq!(policy.set_permit_owner(255, None), Ok(()));
    assert_eq!(policy, largest());
}

#[test]
fn an_unrestricted_rule_has_a_place_as_long_as_someone_owns_it() {
    let mut policy = Policy::new();
    let file = policy.file("f").unwrap();
    let user = policy.user("u", Rule::unrestricted()).unwrap();
    assert_eq!(policy.set_run_owner(file, Some(user)), Ok(()));
    assert_eq!(policy.set_user_rule_owner(user, Some(user)), Ok(()));
    assert_eq!((policy.rules(), policy.rule_owner(0)), (&[Rule::unrestricted()][..], Some(user)));
    assert_eq!(normalise(&policy.image()), Ok(policy.image()));
    // Another rule at the use has the same owner.
    assert_eq!(policy.set_run_rule(file, rule(0)), Ok(()));
    assert_eq!((policy.rules().len(), policy.rule_owner(1)), (2, Some(user)));
    assert_eq!(policy.set_user_rule_owner(user, None), Ok(()));
    assert_eq!((policy.rules(), policy.rule_owner(0)), (&[rule(0)][..], Some(user)));
}

#[test]
fn names_are_taken_once_and_only_files_have_rules() {
    let mut policy = Policy::new();
    let source = policy.source("a").unwrap();
    assert_eq!(policy.source("a"), Err(PolicyError::NameTaken("a".into())));
    let process = policy.process("a").unwrap();
    assert_eq!(policy.file("a"), Err(PolicyError::NameTaken("a".into())));
    assert_eq!(policy.set_source(process, source), Err(PolicyError::NotAFile(process)));
    assert_eq!(policy.set_run_rule(process, Mixture::of([source])), Err(PolicyError::NotAFile(process)));
    assert_eq!(policy.set_permit_rule(7, Mixture::of([source])), Err(PolicyError::NotThere(7)));
    assert!(policy.rules().is_empty());
    let file = policy.file("b").unwrap();
    assert_eq!(policy.rename_container(file, "a"), Err(PolicyError::NameTaken("a".into())));
    assert_eq!(policy.rename_container(file, "b"), Ok(()));
    assert_eq!(policy.rename_container(file, "c"), Ok(()));
    assert_eq!((policy.container_named("c"), policy.container_named("b")), (Some(file), None));
    assert_eq!(policy.rename_user(0, "u"), Err(PolicyError::NotThere(0)));
}

#[test]
fn an_image_is_read_as_it_was_written() {
    let mut policy = largest();
    let read = Policy::from_image(&policy.image()).unwrap();
    assert_eq!(read.image(), policy.image());
    assert_eq!(read.source_names().len(), 32);
    for number in 0..=255 {
        assert_eq!(policy.rename_container(number, &format!("file-{number}")), Ok(()));
    }
    assert!(read.containers().eq(policy.containers()));
    assert_eq!(read.rules(), policy.rules());
}

#[test]
fn rules_that_mean_the_same_are_read_from_an_image_once() {
    // Two files whose rules are spelled apart: {1} {2} and {2} {1}, and an unrestricted rule that is written out.
    let mut policy = Policy::new();
    for name in ["a", "b"] {
        let file = policy.file(name).unwrap();
        let mixtures = [Mixture::from_bits(1), Mixture::from_bits(2)];
        policy.set_permit_rule(file, Rule::new(mixtures).unwrap()).unwrap();
    }
    let once = policy.image();
    let mut apart = policy.image();
    // Behind the header: two containers, one rule, two mixtures. A second rule is put behind the first, and the second
    // container names it; the mixtures that it names are the first rule's.
    let behind = HEADER + 2 * CONTAINERS.record + RULES.record;
    apart.splice(behind..behind, [0, 0, 2, 0, 255, 255]);
    apart[RULES.length_at()] += RULES.record as u8;
    apart[MIXTURES.offset_at()] += RULES.record as u8;
    apart[HEADER + CONTAINERS.record + PERMIT] = 1;
    assert_eq!(check(&apart), Ok(()));
    assert_ne!(apart, once);
    let read = Policy::from_image(&apart).unwrap();
    assert_eq!(read.image(), once);
    assert_eq!(normalise(&apart), normalise(&once));
}
