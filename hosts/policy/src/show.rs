//! A policy as readable text: the lines of a story that makes it.

use std::collections::HashSet;

use yaslaurel::{Kind, Mixture, Policy, Rule, Source};

use crate::quoted;

/// The policy as text: its sources, its rules with their mixtures spelled out, its containers, its users and the owners of rules, each in
/// the order of its numbers. The rule at place k of [`Policy::rules`] is called `rule-k`.
///
/// The text is a story that makes the same policy, if each source is carried by some file. A comment names those that are not.
///
/// ```
/// use policy_text::{show, Story};
/// let story = Story::read(b"source north\npermit statement: north\nprocess job\n")?;
/// let text = "source north\n\nrule rule-0 = {north}\n\nfile north source north\nfile statement permit rule-0\nprocess job\n";
/// assert_eq!(show(story.policy()), text);
/// # Ok::<(), policy_text::LineError>(())
/// ```
#[must_use]
pub fn show(policy: &Policy) -> String {
    let parts = [loose(policy), sources(policy), rules(policy), containers(policy), users(policy), owners(policy)];
    let parts: Vec<String> = parts.into_iter().filter(|part| !part.is_empty()).collect();
    parts.join("\n")
}

/// A comment on the sources that no file carries.
fn loose(policy: &Policy) -> String {
    let carried: HashSet<Source> = policy.containers().filter_map(|(_, container)| container.source).collect();
    let loose = policy.source_names().filter(|name| !policy.source_named(name).is_some_and(|s| carried.contains(&s)));
    let loose: Vec<String> = loose.map(quoted).collect();
    if loose.is_empty() {
        String::new()
    } else {
        format!("# As a story this would have a file for each source that no file carries: {}\n", loose.join(", "))
    }
}

fn sources(policy: &Policy) -> String {
    policy.source_names().map(|name| format!("source {}\n", quoted(name))).collect()
}

fn rules(policy: &Policy) -> String {
    let rules = policy.rules().iter().enumerate();
    rules.map(|(place, rule)| format!("rule {} ={}\n", rule_name(place), mixtures(policy, rule))).collect()
}

fn rule_name(place: usize) -> String {
    format!("rule-{place}")
}

fn mixtures(policy: &Policy, rule: &Rule) -> String {
    if rule.is_unrestricted() {
        return " everything".into();
    }
    rule.mixtures().iter().map(|mixture| format!(" {{{}}}", mixture_text(policy, *mixture))).collect()
}

/// The data atoms, then the running ones.
fn mixture_text(policy: &Policy, mixture: Mixture) -> String {
    let name = |source: Source| quoted(&policy.source_name(source));
    let data = mixture.sources().map(name);
    let running = mixture.running_sources().map(|source| format!("run {}", name(source)));
    data.chain(running).collect::<Vec<_>>().join(", ")
}

/// A keyword with the name behind it, if there is one.
fn option(keyword: &str, name: Option<String>) -> String {
    name.map_or(String::new(), |name| format!(" {keyword} {name}"))
}

fn option_rule(keyword: &str, rule: Option<u16>) -> String {
    option(keyword, rule.map(|place| rule_name(place.into())))
}

fn containers(policy: &Policy) -> String {
    let lines = policy.containers().map(|(name, container)| {
        let source = option("source", container.source.map(|source| quoted(&policy.source_name(source))));
        let rules = [option_rule("permit", container.permit), option_rule("run", container.run)].concat();
        let (word, guarded) = match container.kind {
            Kind::Guarded => (Kind::File, " guarded"),
            kind => (kind, ""),
        };
        format!("{word} {}{guarded}{source}{rules}\n", quoted(name))
    });
    lines.collect()
}

fn owners(policy: &Policy) -> String {
    let owned = (0..policy.rules().len()).filter_map(|place| Some((place, policy.rule_owner(place as u16)?)));
    owned.map(|(place, owner)| format!("owner {} {}\n", rule_name(place), quoted(&policy.user_name(owner)))).collect()
}

fn users(policy: &Policy) -> String {
    policy.users().map(|(name, rule)| format!("user {}{}\n", quoted(name), option_rule("rule", rule))).collect()
}
