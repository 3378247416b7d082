//! The policy, for the page.

use serde::Serialize;
use yaslaurel::Rule;

use crate::folder::Folder;

/// A container of the policy; a rule is its place in the rules, nothing for the unrestricted one.
#[derive(Serialize)]
struct ContainerData {
    name: String,
    kind: String,
    /// The atom that a file carries.
    source: Option<u32>,
    permit: Option<u16>,
    run: Option<u16>,
}

/// A rule.
#[derive(Serialize)]
struct RuleData {
    /// In 16 hexadecimal digits each, as the tags.
    mixtures: Vec<String>,
    unrestricted: bool,
    /// The number of the user who has set it.
    owner: Option<u8>,
}

/// A user.
#[derive(Serialize)]
struct UserData {
    name: String,
    rule: Option<u16>,
}

/// The policy.
#[derive(Serialize)]
pub struct PolicyData {
    sha256: String,
    bytes: usize,
    /// The names of the atoms, all that there can be.
    sources: Vec<String>,
    containers: Vec<ContainerData>,
    rules: Vec<RuleData>,
    users: Vec<UserData>,
}

/// A rule and who owns it.
fn rule_data(rule: &Rule, owner: Option<u8>) -> RuleData {
    let mixtures = rule.mixtures().iter().map(|mixture| format!("{:016x}", mixture.bits())).collect();
    RuleData { mixtures, unrestricted: rule.is_unrestricted(), owner }
}

impl PolicyData {
    /// The policy of a folder.
    pub fn new(folder: &Folder) -> PolicyData {
        let policy = &folder.policy;
        let containers = policy.containers().map(|(name, container)| ContainerData {
            name: name.into(),
            kind: container.kind.to_string(),
            source: container.source.map(|source| source.atom()),
            permit: container.permit,
            run: container.run,
        });
        let rules = policy.rules().iter().enumerate();
        PolicyData {
            sha256: folder.sha256.clone(),
            bytes: folder.image.len(),
            sources: (0..u64::BITS).map(|atom| policy.sources_in(1 << atom)).collect(),
            containers: containers.collect(),
            rules: rules.map(|(place, rule)| rule_data(rule, policy.rule_owner(place as u16))).collect(),
            users: policy.users().map(|(name, rule)| UserData { name: name.into(), rule }).collect(),
        }
    }
}
